package bcp47_test

import (
	"errors"
	"fmt"
	"log"

	"langtag.example/bcp47"
)

func Example() {
	registry, err := bcp47.Open("../../examples/sample-registry.txt")
	if err != nil {
		log.Fatal(err)
	}
	defer registry.Close()
	text, _ := registry.Canonical("zh-yue")
	fmt.Println(text)
	_, err = registry.Canonical("en_US")
	var refused *bcp47.TagError
	if errors.As(err, &refused) {
		fmt.Println(err, refused.Fault, refused.Place)
	}
	// Output:
	// yue
	// BadByte 1 BadByte 1
}

func ExampleRegistry_Explain() {
	registry, err := bcp47.Open("../../examples/sample-registry.txt")
	if err != nil {
		log.Fatal(err)
	}
	defer registry.Close()
	explanation, err := registry.Explain("sgn-dd", 100)
	fmt.Println(explanation, err)
	// Output:
	// Region 2 27 sgn-DE
	// Whole 1 44 gsg
	// = gsg <nil>
}

// errors.Is asks for a fault by its name, and errors.As gives the fault of any refusal.
func ExampleFault() {
	_, err := bcp47.ParseTag("en_US")
	fmt.Println(errors.Is(err, bcp47.ErrBadByte), errors.Is(err, bcp47.ErrNotATag))
	var fault bcp47.Fault
	if errors.As(err, &fault) {
		fmt.Println(fault, fault == bcp47.ErrBadByte)
	}
	// Output:
	// true true
	// BadByte true
}

func ExampleParseTag() {
	tag, err := bcp47.ParseTag("ZH-hant-tw")
	fmt.Println(tag, tag.Script(), tag.Region(), err)
	// Output:
	// zh-Hant-TW Hant TW <nil>
}
