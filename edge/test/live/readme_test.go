package live_test

import (
	"os"
	"path/filepath"
	"regexp"
	"strings"
	"testing"
)

// TestReadme runs the commands of README's part 'From a Collector' as they stand there, but with free ports and a folder
// of the test's own, until they serve.
func TestReadme(t *testing.T) {
	t.Parallel()
	text, err := os.ReadFile("../../../README.md")
	if err != nil {
		t.Fatal(err)
	}
	part := string(text)
	part = part[strings.Index(part, "\n## From a Collector\n")+1:]
	part = part[:strings.Index(part, "\n## ")]
	line := regexp.MustCompile(`(?m)^otap (record|near|far) .*$`)
	ran := map[string]int{}
	for _, command := range line.FindAllString(part, -1) {
		args := []string{}
		skip := false
		for _, word := range strings.Fields(command)[1:] {
			switch {
			case skip:
				skip = false
			case word == "--listen" || word == "--listen-http":
				skip = true
			case word == "captures":
				args = append(args, filepath.Join(t.TempDir(), "captures"))
			default:
				args = append(args, word)
			}
		}
		args = append(args, "--listen", "127.0.0.1:0")
		if args[0] == "record" {
			args = append(args, "--listen-http", "127.0.0.1:0")
		}
		p := start(t, args...)
		p.at("grpc")
		p.term()
		ran[args[0]]++
	}
	if ran["record"] != 2 || ran["near"] != 1 || ran["far"] != 1 {
		t.Errorf("README has the commands %v", ran)
	}
}
