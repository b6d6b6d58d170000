// Compares Best with the Matcher of x/text, over the cases of its own tests and generated ones, and counts the answers by why they differ.
// The status is 1 where one differs and none of these is why.
//
// Arguments: a registry, the number of generated cases, and files of x/text's cases: `supported ; desired ; wanted`.
package main

import (
	"fmt"
	"log"
	"math/rand"
	"os"
	"sort"
	"strconv"
	"strings"

	"golang.org/x/text/language"
	"langtag.example/bcp47"
)

var registry *bcp47.Registry

// The languages here have no distance of CLDR between them.
var languages = strings.Fields("de fr ja ko fi hu el th vi tr")
var regions = map[string][]string{"de": {"DE", "AT", "CH"}, "fr": {"FR", "CA", "CH"}}

// Tags or ranges of a text, without those that are refused here.
func listed(text string) (tags []string) {
	for _, tag := range strings.Split(text, ",") {
		if tag = strings.TrimSpace(tag); registry.Validate(tag) == nil {
			tags = append(tags, tag)
		}
	}
	return tags
}

// A header that has ranges in the order of their weights.
func header(ranges []string) string {
	var texts []string
	for i, it := range ranges {
		texts = append(texts, fmt.Sprintf("%s;q=%.2f", it, 1-0.01*float64(i)))
	}
	return strings.Join(texts, ", ")
}

// In the place of how many subtags a range is cut from: the tag is narrower than it.
const narrower = 1000

// The number of the first range that finds a tag by lookup (RFC 4647, 3.4), or else by basic filtering (3.3.1), and how many subtags
// it is cut from then.
func found(ranges []string, tag string) (first, cut int) {
	for i, it := range ranges {
		text := strings.ToLower(it)
		for n := 0; text != ""; n++ {
			if same, _ := registry.Equivalent(text, tag); same {
				return i, n
			}
			text = bcp47.MustParseTag(text).Parent().String()
		}
		if matched, _ := registry.Matches(it, tag, bcp47.Basic); matched {
			return i, narrower
		}
	}
	return len(ranges), 0
}

// Why x/text answers otherwise; "" where that is not known.
func why(supported, ranges []string, ours, theirs string) string {
	one, _ := registry.Equivalent(ours, theirs)
	first, cut := found(ranges, theirs)
	ourFirst, ourCut := found(ranges, ours)
	switch {
	case ours == theirs:
		return "the same"
	case ours == "" && theirs == supported[0]:
		return "nothing fits, for which x/text answers the first tag"
	case one:
		return "tags that are one, of which Best takes the first"
	case first == len(ranges):
		return "a tag at a distance of CLDR, which RFC 4647 does not find"
	case ourFirst < first || ourFirst == first && ourCut < cut:
		return "the first range and the nearest tag, where x/text weighs likely regions and distances too"
	case ourFirst == first && ourCut == narrower:
		return "narrower tags than the range, of which Best takes the first, and x/text the one of the likely region"
	}
	return ""
}

func main() {
	var err error
	if registry, err = bcp47.Open(os.Args[1]); err != nil {
		log.Fatal(err)
	}
	counts, examples, unknown := map[string]int{}, map[string]string{}, false
	ask := func(supported, ranges []string) {
		available, err := registry.Available(supported...)
		if err != nil {
			log.Fatal(supported, err)
		}
		defer available.Close()
		accept := header(ranges)
		ours, err := available.Best(accept)
		if err != nil {
			log.Fatal(accept, err)
		}
		var tags []language.Tag
		for _, tag := range supported {
			tags = append(tags, language.Raw.Make(tag))
		}
		_, index := language.MatchStrings(language.NewMatcher(tags), accept)
		reason := why(supported, ranges, ours, supported[index])
		counts[reason]++
		shown := fmt.Sprintf("%s of %s: %q, x/text %q", accept, strings.Join(supported, " "), ours, supported[index])
		if reason == "" {
			unknown = true
			fmt.Println("not known why:", shown)
		} else if examples[reason] == "" || len(shown) < len(examples[reason]) {
			examples[reason] = shown
		}
	}
	told := func(name string) {
		var reasons []string
		for reason := range counts {
			reasons = append(reasons, reason)
		}
		sort.Slice(reasons, func(i, j int) bool { return counts[reasons[i]] > counts[reasons[j]] })
		fmt.Println(name)
		for _, reason := range reasons {
			fmt.Printf("%8d %s, for example %s\n", counts[reason], reason, examples[reason])
		}
		counts, examples = map[string]int{}, map[string]string{}
	}
	for _, path := range os.Args[3:] {
		content, err := os.ReadFile(path)
		if err != nil {
			log.Fatal(err)
		}
		for _, line := range strings.Split(string(content), "\n") {
			line, _, _ = strings.Cut(line, "#")
			if fields := strings.Split(line, ";"); len(fields) > 2 {
				if supported, ranges := listed(fields[0]), listed(fields[1]); len(supported) > 0 && len(ranges) > 0 {
					ask(supported, ranges)
				}
			}
		}
		told("the cases of " + path[strings.LastIndexByte(path, '/')+1:])
	}
	dice := rand.New(rand.NewSource(1))
	made := func(most int) (tags []string) {
		seen := map[string]bool{}
		for n := 1 + dice.Intn(most); n > 0; n-- {
			tag := languages[dice.Intn(len(languages))]
			if of := regions[tag]; of != nil && dice.Intn(2) == 0 {
				tag += "-" + of[dice.Intn(len(of))]
			}
			if !seen[tag] {
				seen[tag] = true
				tags = append(tags, tag)
			}
		}
		return tags
	}
	cases, err := strconv.Atoi(os.Args[2])
	if err != nil {
		log.Fatal(err)
	}
	for ; cases > 0; cases-- {
		ask(made(8), made(4))
	}
	told("generated")
	if unknown {
		os.Exit(1)
	}
}
