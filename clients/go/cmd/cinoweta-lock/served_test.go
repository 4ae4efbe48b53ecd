//go:build linux

package main

import (
	"strconv"
	"strings"
	"syscall"
	"testing"

	"cinoweta/internal/trial"
)

// A served ring is one of a real ringd.
type served struct{ *trial.Ringd }

// serveRingd serves a new ring until the end of the test, which is skipped where there is no ringd.
func serveRingd(t *testing.T) served {
	t.Helper()
	return served{trial.Serve(t, "127.0.0.1", 65_536)}
}

// lock makes the program, told the ring and these words.
func (s served) lock(words ...string) *program {
	return lock(nil, append([]string{"--ring", s.Ports(), "--status", strconv.Itoa(s.Status())}, words...)...)
}

func TestCommandsOfRingdRunOneBehindTheOther(t *testing.T) {
	for _, how := range []string{"--patience=5", "--across-hosts"} {
		served := serveRingd(t)
		work := []string{how, "jobs", "--", "sh", "-c", "echo term $CINOWETA_TERM; exec sleep 60"}
		first := served.lock(work...).start(t).tells(t, "term 1")
		status, out, faults := served.lock(how, "--wait", "0", "jobs", "--", "echo", "it runs").start(t).ends(t)
		same(t, []any{status, out, strings.Contains(faults, "cinoweta: jobs: held by ")}, []any{lockTaken, "", true})
		second := served.lock(work...).start(t)
		until(t, "its wait", func() bool { return strings.Contains(second.faults(), "waits for ") })
		first.signal(t, syscall.SIGKILL)
		second.tells(t, "term 2").signal(t, syscall.SIGTERM).endsWith(t, signalled+15, "", second.faults())
		served.lock(how, "jobs", "--", "sh", "-c", "exit $CINOWETA_TERM").start(t).endsWith(t, 3, "", "")
	}
}

func TestACommandOfARingdThatIsKilledIsEnded(t *testing.T) {
	served := serveRingd(t)
	work := served.lock("--give-up", "1", "jobs", "--", "sh", "-c", "echo in; exec sleep 60").start(t).tells(t, "in")
	served.Kill()
	work.endsWith(t, lockLost, "", "cinoweta: jobs: term 1 is over: no node answered for 1.0 seconds\n")
}
