// Answers each line of the standard input, an Accept-Language header and tags with a tab between them, by the Matcher of x/text:
// the tag to serve, or a hyphen where none fits.
package main

import (
	"bufio"
	"fmt"
	"os"
	"strings"

	"TEXT/language"
)

func main() {
	for lines := bufio.NewScanner(os.Stdin); lines.Scan(); {
		header, list, _ := strings.Cut(lines.Text(), "\t")
		texts, tags := strings.Fields(list), []language.Tag{}
		for _, text := range texts {
			tags = append(tags, language.Make(text))
		}
		wanted, _, _ := language.ParseAcceptLanguage(header)
		_, place, confidence := language.NewMatcher(tags).Match(wanted...)
		if confidence == language.No {
			fmt.Println("-")
		} else {
			fmt.Println(texts[place])
		}
	}
}
