// Canon answers each line of its input as `langtag canon` does; with -explain, as `langtag explain` does for each.
package main

import (
	"bufio"
	"flag"
	"fmt"
	"io"
	"log"
	"os"
	"strings"

	"langtag.example/bcp47"
)

func main() {
	explain := flag.Bool("explain", false, "print the steps to each canonical form")
	flag.Parse()
	registry, err := bcp47.Open(flag.Arg(0))
	if err != nil {
		log.Fatal(err)
	}
	defer registry.Close()
	input, err := io.ReadAll(os.Stdin)
	if err != nil {
		log.Fatal(err)
	}
	output := bufio.NewWriter(os.Stdout)
	defer output.Flush()
	tags := strings.Split(strings.TrimSuffix(string(input), "\n"), "\n")
	for _, tag := range tags {
		if *explain {
			explanation, err := registry.Explain(tag, 1_000_000)
			write(output, explanation.String(), err)
		} else {
			text, err := registry.Canonical(tag)
			write(output, text, err)
		}
	}
}

func write(output io.Writer, text string, err error) {
	if err != nil {
		text = "! " + err.Error()
	}
	fmt.Fprintln(output, text)
}
