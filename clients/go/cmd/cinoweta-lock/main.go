//go:build linux

// Command cinoweta-lock runs a command while it leads for a group:
//
//	cinoweta-lock [OPTION..] GROUP -- COMMAND
//
// It is `cinoweta lock` of the Python package as a program that needs no Python. With --help it tells its options and its
// exit statuses.
package main

import (
	"fmt"
	"os"
)

func main() {
	openStandardStreams()
	os.Exit(run(os.Args[1:]))
}

// run does what the words say, and gives the exit status.
func run(all []string) int {
	told, err := parse(all)
	if err != nil {
		fmt.Fprintf(os.Stderr, "%s\ncinoweta-lock: error: %v\n", usage, err)
		return wrongWords
	}
	if told.shown == "" {
		return runLocked(told)
	}
	if _, err := fmt.Print(told.shown); err != nil {
		return systemFailed
	}
	return 0
}
