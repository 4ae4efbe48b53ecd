//go:build linux

package main

import (
	"errors"
	"fmt"
	"os"
	"path/filepath"
	"strings"
	"syscall"
	"testing"
	"time"

	"cinoweta"

	"cinoweta/internal/trial"
)

// held starts one that holds the lock of `jobs` until it is asked to end.
func held(t *testing.T, ring *ring, words ...string) *program {
	t.Helper()
	made := lock(ring, append(words, "jobs", "--", "sh", "-c", "echo term $CINOWETA_TERM; exec sleep 60")...)
	return made.start(t)
}

func TestACommandRunsWhileItLeads(t *testing.T) {
	ring := serve(t)
	work := lock(ring, "jobs", "--", "sh", "-c", `echo $CINOWETA_GROUP $CINOWETA_TERM "$@"; cat; exit 7`, "sh", "--wait", "a b")
	work.command.Env = append(work.command.Env, "CINOWETA_TERM=9")
	work.command.Stdin = strings.NewReader("what it reads")
	work.start(t).endsWith(t, 7, "jobs 1 --wait a b\nwhat it reads", "")
	lock(ring, "jobs", "--", "sh", "-c", "echo $CINOWETA_TERM; kill -9 $$").start(t).endsWith(t, 128+9, "2\n", "")
}

func TestWhatIsToldOfALockIsHeeded(t *testing.T) {
	ring := serve(t)
	work := []string{"jobs", "--", "true"}
	lock(nil, append([]string{"--ring", ring.ports(), "--rank", "7"}, work...)...).start(t).endsWith(t, 0, "", "")
	stands := ring.lines("stand ")
	same(t, []any{len(stands), strings.HasPrefix(stands[0], "stand jobs 1 7")}, []any{1, true})
	for keep, floor := range map[string]string{"3": "retire jobs 37", "0": "retire jobs 50"} {
		term := map[string]int{"3": 39, "0": 49}[keep]
		ring.change(func() { ring.leaders[term] = "1 5" })
		lock(ring, "--keep", keep, "jobs", "--", "true").start(t).endsWith(t, 0, "", "")
		same(t, len(ring.lines(floor)), 2)
		ring.change(func() { ring.leaders = map[int]string{} })
	}
}

func TestALockThatIsHeldIsNotHadInTime(t *testing.T) {
	trial.Tried(t, testALockThatIsHeldIsNotHadInTime)
}

func testALockThatIsHeldIsNotHadInTime(t *testing.T) {
	ring := serve(t)
	first := held(t, ring, "--text", "a job").tells(t, "term 1")
	leads := fmt.Sprintf("process %d (a job), which leads at node ", first.command.Process.Pid)
	for _, row := range []struct {
		wait  string
		least time.Duration
	}{{"0", 0}, {"1", time.Second}} {
		begun := time.Now()
		status, out, faults := lock(ring, "--wait", row.wait, "jobs", "--", "echo", "it runs").start(t).ends(t)
		took := time.Since(begun)
		same(t, []any{status, out}, []any{6, ""})
		trial.Took(t, took, row.least, row.least+time.Second)
		lines := strings.Split(faults, "\n")
		same(t, len(lines), 3)
		same(t, strings.HasPrefix(lines[0], "cinoweta: jobs: waits for "+leads) && strings.HasSuffix(lines[0], " in term 1"), true)
		same(t, strings.HasPrefix(lines[1], "cinoweta: jobs: held by "+leads) && strings.HasSuffix(lines[1], " in term 1"), true)
	}
	same(t, len(ring.lines("stand ")), 1)
	second := held(t, ring)
	until(t, "its wait", func() bool { return strings.Contains(second.faults(), "waits for") })
	first.signal(t, syscall.SIGTERM)
	second.tells(t, "term 2")
}

func TestAHolderThatIsPausedIsGoneBehindThePatience(t *testing.T) {
	trial.Tried(t, testAHolderThatIsPausedIsGoneBehindThePatience)
}

func testAHolderThatIsPausedIsGoneBehindThePatience(t *testing.T) {
	ring := serve(t)
	first := held(t, ring).tells(t, "term 1")
	first.signal(t, syscall.SIGSTOP)
	begun := time.Now()
	held(t, ring, "--patience", "0.5", "--wait", "0").tells(t, "term 2")
	took := time.Since(begun)
	trial.Took(t, took, 500*time.Millisecond, 4*time.Second)
	first.signal(t, syscall.SIGCONT)
	first.endsWith(t, 5, "", "cinoweta: jobs: term 1 is over: a greater term is known: 2\n")
}

func TestALockIsHeldAcrossHosts(t *testing.T) {
	ring := serve(t)
	status := ring.status(t)
	first := held(t, ring, "--across-hosts", "--status", "127.0.0.1:"+status, "--text", "a text").tells(t, "term 1")
	same(t, []int{len(ring.lines("tell jobs a text")), len(ring.lines("resign "))}, []int{1, 0})
	second := lock(ring, "--across-hosts", "--wait", "0", "jobs", "--", "true")
	second.command.Env = append(second.command.Env, "CINOWETA_STATUS="+status)
	ended, _, faults := second.start(t).ends(t)
	same(t, []any{ended, strings.Contains(faults, "cinoweta: jobs: held by node ")}, []any{6, true})
	first.signal(t, syscall.SIGTERM).endsWith(t, 128+15, "", "")
	same(t, len(ring.lines("resign jobs 1")), 1)
	lock(ring, "--across-hosts", "jobs", "--", "true").start(t).endsWith(t, 2, "",
		"cinoweta: 127.0.0.1: who holds a lock across hosts is seen by ringd --status: tell its port\n")
}

// ignores is a command that does not heed TERM, and tells so.
var ignores = []string{"sh", "-c", "exec 2> /dev/null; trap 'echo TERM' TERM; echo in; while :; do sleep 0.1; done"}

func TestACommandIsEndedOnceTheLockIsLost(t *testing.T) {
	trial.Tried(t, testACommandIsEndedOnceTheLockIsLost)
}

func testACommandIsEndedOnceTheLockIsLost(t *testing.T) {
	ring := serve(t)
	work := held(t, ring).tells(t, "term 1")
	ring.change(func() { ring.leaders[9] = "2 5" })
	work.endsWith(t, 5, "", "cinoweta: jobs: term 1 is over: a greater term is known: 9\n")
	work = lock(ring, append([]string{"--grace", "0.5", "jobs", "--"}, ignores...)...).start(t).tells(t, "in")
	begun := time.Now()
	ring.change(func() { ring.leaders[19] = "2 5" })
	work.tells(t, "TERM")
	work.endsWith(t, 5, "", "cinoweta: jobs: term 10 is over: a greater term is known: 19\n")
	trial.Took(t, time.Since(begun), 500*time.Millisecond, 4*time.Second)
}

func TestACommandIsEndedOnceNoNodeAnswers(t *testing.T) {
	trial.Tried(t, testACommandIsEndedOnceNoNodeAnswers)
}

func testACommandIsEndedOnceNoNodeAnswers(t *testing.T) {
	for give, told := range map[string]string{"1": "1.0", "0.75": "0.75"} {
		ring := serve(t)
		work := lock(ring, append([]string{"--give-up", give, "--grace", "1", "jobs", "--"}, ignores...)...).start(t).tells(t, "in")
		ring.end()
		begun := time.Now()
		work.tells(t, "TERM").endsWith(t, 5, "", "cinoweta: jobs: term 1 is over: no node answered for "+told+" seconds\n")
		trial.Took(t, time.Since(begun), 0, 3*time.Second)
	}
	// Else it goes on.
	ring := serve(t)
	work := held(t, ring).tells(t, "term 1")
	ring.end()
	time.Sleep(2500 * time.Millisecond)
	work.signal(t, syscall.SIGTERM).endsWith(t, 128+15, "", "")
}

func TestACommandIsEndedAtAFaultOfTheRing(t *testing.T) {
	ring := serve(t)
	work := held(t, ring).tells(t, "term 1")
	ring.change(func() { ring.leaders = map[int]string{1: "x y"} })
	work.endsWith(t, 2, "", "cinoweta: \"term 1 leader x y\" is no answer of a node\n")
}

func TestFaultsHaveAStatus(t *testing.T) {
	ring := serve(t)
	for _, row := range []struct {
		words  string
		status int
		told   string
	}{
		{"--ring= jobs", 2, "no ring: tell its ports by --ring or CINOWETA_RING, as 7101-7103"},
		{"--ring 7101 jobs", 2, `"7101": a ring is told as 7101-7103, or as 10.0.0.5:7101-7103`},
		{"--status 10.0.0.1:7100 jobs", 2, "10.0.0.1:7100: the ring is one of 127.0.0.1"},
		{"--give-up 0 jobs", 2, "who is cut off gives up after more than 0 seconds"},
		{"--keep -1 jobs", 2, "who leads keeps 0 terms or more"},
		{"--rank 10 jobs", 2, "a lock's rank is 0 to 9"},
		{"--text \a jobs", 2, "a holder's text is one printable line of 200 bytes at most"},
		{"JOBS", 11, "no 1 name"},
	} {
		words := append(strings.Split(row.words, " "), "--", "true")
		lock(ring, words...).start(t).endsWith(t, row.status, "", "cinoweta: "+row.told+"\n")
		if row.status == 2 {
			told := fmt.Sprintf("{\"error\": %s}\n", quoted(row.told))
			lock(ring, append([]string{"--json"}, words...)...).start(t).endsWith(t, 2, "", told)
		}
	}
	const told = `{"error": "no 1 name", "refusal": 1, "text": "name"}` + "\n"
	lock(ring, "JOBS", "--json", "--", "true").start(t).endsWith(t, 11, "", told)
	same(t, len(ring.lines("stand jobs")), 0)
	for status, err := range map[int]error{6: &cinoweta.LockTakenError{}, 4: &cinoweta.NoLeaderError{}, 2: &cinoweta.WrongRingError{},
		3: &cinoweta.NoAnswerError{Err: syscall.ECONNREFUSED}, 7: fmt.Errorf("cinoweta: %w", syscall.EMFILE),
		16: &cinoweta.RefusedError{Refusal: cinoweta.ErrLimitReached, Text: "limit"}} {
		same(t, []any{statusOf(err), err}, []any{status, err})
	}
	same(t, statusOf(errors.New("any other one")), 2)
}

func TestARingThatDoesNotAnswerOrElect(t *testing.T) {
	trial.Tried(t, testARingThatDoesNotAnswerOrElect)
}

func testARingThatDoesNotAnswerOrElect(t *testing.T) {
	ring := serve(t)
	ring.change(func() { ring.isDeposed = true })
	begun := time.Now()
	lock(ring, "--wait", "0", "jobs", "--", "true").start(t).endsWith(t, 4, "", "cinoweta: jobs: no leader in 1 terms above 0\n")
	same(t, time.Since(begun) >= 2*time.Second, true)
	ring.change(func() { ring.isSilent = true })
	for _, words := range [][]string{{"--timeout", "0.2", "--wait", "0"}, {"--timeout", "0", "--wait", "0"}} {
		begun := time.Now()
		status, out, faults := lock(ring, append(words, "jobs", "--", "true")...).start(t).ends(t)
		same(t, []any{status, out}, []any{3, ""})
		trial.Took(t, time.Since(begun), 0, time.Second)
		same(t, strings.HasPrefix(faults, "cinoweta: no answer of 127.0.0.1:"), true)
	}
	ring.end()
	waits := lock(ring, "--wait", "1", "--timeout", "0.1", "jobs", "--", "true").start(t)
	status, _, faults := waits.ends(t)
	same(t, []any{status, strings.Count(faults, "cinoweta")}, []any{3, strings.Count(faults, "\n")})
	same(t, strings.HasPrefix(faults, "cinoweta: jobs: waits for the ring: no answer of 127.0.0.1:"), true)
}

func TestWhatCanNotBeStarted(t *testing.T) {
	ring := serve(t)
	folder := t.TempDir()
	plain, broken := filepath.Join(folder, "plain"), filepath.Join(folder, "broken")
	must(t, os.WriteFile(plain, []byte("#!/bin/sh\n"), 0o600))
	must(t, os.WriteFile(broken, []byte("nothing that runs"), 0o700))
	for _, path := range []string{"no-such-program", folder, plain, filepath.Join(folder, "none")} {
		lock(ring, "jobs", "--", path).start(t).endsWith(t, 127, "", "cinoweta: "+path+": no such program\n")
	}
	same(t, len(ring.lines("")), 0)
	lock(ring, "jobs", "--", broken, "x").start(t).endsWith(t, 126, "", "cinoweta: "+broken+": exec format error\n")
	// The lock was given back.
	lock(ring, "--wait", "0", "jobs", "--", "true").start(t).endsWith(t, 0, "", "")
	same(t, len(ring.lines("stand ")), 2)
}

func TestAProgramOfTheFolderIsFoundByPath(t *testing.T) {
	ring, folder := serve(t), t.TempDir()
	must(t, os.WriteFile(filepath.Join(folder, "own-work"), []byte("#!/bin/sh\necho it runs\n"), 0o700))
	for _, path := range []string{".:/bin:/usr/bin", ":/bin:/usr/bin"} {
		work := lock(ring, "jobs", "--", "own-work")
		work.command.Dir, work.command.Env = folder, append(work.command.Env, "PATH="+path)
		work.start(t).endsWith(t, 0, "it runs\n", "")
	}
}
