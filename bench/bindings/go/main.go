// Calls a second of the package for Go, beside those of x/text. Arguments: registry, tags.
package main

import (
	"fmt"
	"log"
	"math"
	"os"
	"strings"
	"syscall"
	"time"

	"langtag.example/bcp47"

	"golang.org/x/text/language"
)

// Seconds of a processor that the program took.
func now() float64 {
	var used syscall.Rusage
	if err := syscall.Getrusage(syscall.RUSAGE_SELF, &used); err != nil {
		log.Fatal(err)
	}
	return time.Duration(used.Utime.Nano() + used.Stime.Nano()).Seconds()
}

func measure(name string, count int, ask func()) {
	best := 1e9
	for round := 0; round < 5; round++ {
		begun := now()
		ask()
		best = math.Min(best, now()-begun)
	}
	fmt.Printf("Go, %s: %.2f million tags a second\n", name, float64(count)/best/1e6)
}

func main() {
	registry, err := bcp47.Open(os.Args[1])
	if err != nil {
		log.Fatal(err)
	}
	content, err := os.ReadFile(os.Args[2])
	if err != nil {
		log.Fatal(err)
	}
	tags := strings.Split(strings.TrimSuffix(string(content), "\n"), "\n")
	var valid, refused []string
	for _, tag := range tags {
		if registry.Validate(tag) == nil {
			valid = append(valid, tag)
		} else {
			refused = append(refused, tag)
		}
	}
	for name, some := range map[string][]string{"valid": valid, "refused": refused} {
		measure("Registry.Canonical, "+name+" tags", len(some), func() {
			for _, tag := range some {
				registry.Canonical(tag)
			}
		})
	}
	measure("ParseTag and Parts, valid tags", len(valid), func() {
		for _, tag := range valid {
			read, _ := bcp47.ParseTag(tag)
			read.Parts()
		}
	})
	available, err := registry.Available("en", "de", "fr", "es", "pt-BR", "zh-Hans", "zh-Hant", "ja", "ko", "nb", "he", "sr-Latn")
	if err != nil {
		log.Fatal(err)
	}
	matcher := language.NewMatcher([]language.Tag{language.English, language.German, language.French, language.Spanish, language.BrazilianPortuguese,
		language.SimplifiedChinese, language.TraditionalChinese, language.Japanese, language.Korean, language.Norwegian, language.Hebrew,
		language.MustParse("sr-Latn")})
	const header, times = "de-CH,de;q=0.9,en;q=0.8", 100_000
	measure("Available.Best, headers of three ranges over twelve", times, func() {
		for i := 0; i < times; i++ {
			available.Best(header)
		}
	})
	measure("x/text's Matcher, the same", times, func() {
		for i := 0; i < times; i++ {
			language.MatchStrings(matcher, header)
		}
	})
	measure("x/text", len(tags), func() {
		for _, tag := range tags {
			if read, err := language.All.Parse(tag); err == nil {
				_ = read.String()
			}
		}
	})
}
