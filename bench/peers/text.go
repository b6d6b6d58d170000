// x/text: each line parsed, with each kind of change that the library knows.
package main

import (
	"bufio"
	"os"

	"TEXT/language"
)

func main() {
	lines := bufio.NewScanner(os.Stdin)
	output := bufio.NewWriter(os.Stdout)
	defer output.Flush()
	for lines.Scan() {
		answer := "!"
		if tag, err := language.All.Parse(lines.Text()); err == nil {
			answer = tag.String()
		}
		output.WriteString(answer)
		output.WriteByte('\n')
	}
}
