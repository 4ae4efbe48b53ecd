//go:build linux

package main

import (
	"encoding/json"
	"errors"
	"fmt"
	"os"
	"strings"
	"syscall"

	"cinoweta"
)

// The exit statuses, but for those of the command that is run: notStarted and noProgram as a shell has them, and
// refused with the number of a refusal.
const (
	wrongWords   = 2
	noAnswer     = 3
	noLeader     = 4
	lockLost     = 5
	lockTaken    = 6
	systemFailed = 7
	refused      = 10
	notStarted   = 126
	noProgram    = 127
	// Of who was ended by a signal, with its number.
	signalled = 128
)

// tell tells a line on standard error.
func tell(form string, values ...any) {
	fmt.Fprintf(os.Stderr, "cinoweta: "+form+"\n", values...)
}

// tellFault tells why the lock can't be had or looked after, and gives the exit status.
func (w *words) tellFault(err error) int {
	text := strings.TrimPrefix(err.Error(), "cinoweta: ")
	if !w.isJSON {
		tell("%s", text)
		return statusOf(err)
	}
	told := fmt.Sprintf(`"error": %s`, quoted(text))
	var refusal *cinoweta.RefusedError
	if errors.As(err, &refusal) {
		told += fmt.Sprintf(`, "refusal": %d, "text": %s`, int(refusal.Refusal), quoted(refusal.Text))
	}
	fmt.Fprintf(os.Stderr, "{%s}\n", told)
	return statusOf(err)
}

// quoted is the text as JSON has it.
func quoted(text string) []byte {
	told, err := json.Marshal(text)
	if err != nil {
		return []byte(`""`)
	}
	return told
}

// statusOf is the exit status of a fault.
func statusOf(err error) int {
	var (
		refusal *cinoweta.RefusedError
		taken   *cinoweta.LockTakenError
		leader  *cinoweta.NoLeaderError
		answer  *cinoweta.NoAnswerError
		system  syscall.Errno
	)
	switch {
	case errors.As(err, &refusal):
		return refused + int(refusal.Refusal)
	case errors.As(err, &taken):
		return lockTaken
	case errors.As(err, &leader):
		return noLeader
	case errors.As(err, &answer):
		return noAnswer
	case errors.As(err, &system):
		return systemFailed
	default:
		return wrongWords
	}
}
