//go:build linux

package main

import (
	"bytes"
	"context"
	"fmt"
	"os"
	"os/exec"
	"path/filepath"
	"strconv"
	"strings"
	"syscall"
	"testing"
	"time"
	"unsafe"

	"cinoweta/internal/trial"
)

// loop is what a shell does for eight seconds, and heeds signals, of whose work in it nothing is told.
const loop = "exec 2> /dev/null; for _ in $(seq 80); do sleep 0.1; done"

// shell makes a program that holds the lock while a shell runs a script.
func shell(ring *ring, text string, words ...string) *program {
	return lock(ring, append(words, "jobs", "--", "sh", "-c", text)...)
}

// sleeps are the processes that sleep so long.
func sleeps(t *testing.T, seconds string) []int {
	t.Helper()
	found := []int{}
	paths, err := filepath.Glob("/proc/[0-9]*/cmdline")
	must(t, err)
	for _, path := range paths {
		// It may have ended.
		text, _ := os.ReadFile(path)
		if bytes.Equal(text, []byte("sleep\x00"+seconds+"\x00")) {
			number, err := strconv.Atoi(strings.Split(path, "/")[2])
			must(t, err)
			found = append(found, number)
		}
	}
	return found
}

// background is the context of a test.
func background(t *testing.T) context.Context {
	ctx, cancel := context.WithTimeout(context.Background(), 20*time.Second)
	t.Cleanup(cancel)
	return ctx
}

// long is a time that no other test sleeps.
func long(number int) string {
	return fmt.Sprintf("60%d.%d", number, os.Getpid())
}

func TestSignalsAreHandedOn(t *testing.T) {
	ring := serve(t)
	for name, number := range map[string]syscall.Signal{"TERM": syscall.SIGTERM, "HUP": syscall.SIGHUP, "USR1": syscall.SIGUSR1,
		"USR2": syscall.SIGUSR2, "QUIT": syscall.SIGQUIT, "INT": syscall.SIGINT} {
		work := shell(ring, fmt.Sprintf("trap 'echo %s; exit 4' %s; echo in; %s", name, name, loop)).start(t).tells(t, "in")
		work.signal(t, number).endsWith(t, 4, name+"\n", "")
	}
	shell(ring, "kill -TERM $PPID; "+loop).start(t).endsWith(t, 128+15, "", "")
}

func TestASignalEndsWhoWaits(t *testing.T) {
	ring := serve(t)
	held(t, ring).tells(t, "term 1")
	for number, wanted := range map[syscall.Signal]int{syscall.SIGINT: 130, syscall.SIGQUIT: 131, syscall.SIGUSR1: 138,
		syscall.SIGUSR2: 140, syscall.SIGTERM: -15, syscall.SIGHUP: -1} {
		waits := lock(ring, "jobs", "--", "echo", "it runs").start(t)
		until(t, "its wait", func() bool { return strings.Contains(waits.faults(), "waits for") })
		status, out, _ := waits.signal(t, number).ends(t)
		same(t, []any{status, out}, []any{wanted, ""})
	}
}

func TestASignalThatIsIgnoredIsIgnoredByTheCommand(t *testing.T) {
	const work = "for name in HUP INT QUIT; do kill -$name $PPID; sleep 0.2; kill -$name $$; done; exit 7"
	script(serve(t), "trap '' HUP INT QUIT", "jobs", "--", "sh", "-c", work).start(t).endsWith(t, 7, "", "")
}

func TestWhatTheCommandBeganIsEndedWithIt(t *testing.T) {
	ring := serve(t)
	work := shell(ring, fmt.Sprintf("echo in; sleep %s > /dev/null; true", long(0))).start(t).tells(t, "in")
	until(t, "what it began", func() bool { return len(sleeps(t, long(0))) == 1 })
	work.signal(t, syscall.SIGTERM).endsWith(t, 128+15, "", "")
	same(t, len(sleeps(t, long(0))), 0)
	// Where it does not heed, too, and the command itself does.
	const text = "(trap '' TERM; exec sleep %s > /dev/null) & trap 'exit 3' TERM; sleep 0.3; echo in; wait"
	work = shell(ring, fmt.Sprintf(text, long(1)), "--grace", "0.5").start(t).tells(t, "in")
	same(t, len(sleeps(t, long(1))), 1)
	begun := time.Now()
	work.signal(t, syscall.SIGTERM).endsWith(t, 3, "", "")
	same(t, time.Since(begun) >= 500*time.Millisecond, true)
	same(t, len(sleeps(t, long(1))), 0)
}

func TestWhatTheCommandBeganIsEndedBehindALoss(t *testing.T) {
	ring := serve(t)
	const text = "(trap '' TERM; exec sleep %s > /dev/null) & sleep 0.3; echo in; wait"
	work := shell(ring, fmt.Sprintf(text, long(2)), "--grace", "0.3").start(t).tells(t, "in")
	same(t, len(sleeps(t, long(2))), 1)
	ring.change(func() { ring.leaders[9] = "2 5" })
	work.endsWith(t, 5, "", "cinoweta: jobs: term 1 is over: a greater term is known: 9\n")
	same(t, len(sleeps(t, long(2))), 0)
}

func TestWhatACommandLeftBehindGoesOn(t *testing.T) {
	const text = "trap '' USR1; sleep %s > /dev/null & sleep 0.2; kill -USR1 $PPID; sleep 0.2; exit 3"
	shell(serve(t), fmt.Sprintf(text, long(3))).start(t).endsWith(t, 3, "", "")
	left := sleeps(t, long(3))
	same(t, len(left), 1)
	must(t, syscall.Kill(left[0], syscall.SIGKILL))
}

func TestASignalWithinTheGraceKeepsNoCommandFromItsEnd(t *testing.T) {
	ring := serve(t)
	work := lock(ring, append([]string{"--grace", "1", "jobs", "--"}, ignores...)...).start(t).tells(t, "in")
	ring.change(func() { ring.leaders[9] = "2 5" })
	work.tells(t, "TERM").signal(t, syscall.SIGTERM)
	work.tells(t, "TERM").endsWith(t, 5, "", "cinoweta: jobs: term 1 is over: a greater term is known: 9\n")
}

func TestASignalThatComesWithTheEndIsHeeded(t *testing.T) {
	for number, isToEnd := range map[syscall.Signal]bool{syscall.SIGTERM: true, syscall.SIGUSR1: false} {
		work, err := begin(exec.Command("true"))
		must(t, err)
		<-work.ended
		signals := make(chan os.Signal, 1)
		signals <- number
		work.end(signals, time.Second)
		same(t, []any{work.isToEnd, len(signals), work.status()}, []any{isToEnd, 0, 0})
	}
}

// Of a terminal, too, which sent it to nobody then.
func TestWhatCameBeforeACommandWasBegunIsSentToIt(t *testing.T) {
	_, other := terminal(t)
	defer other.Close()
	kept, err := syscall.Dup(0)
	must(t, err)
	must(t, syscall.Dup3(int(other.Fd()), 0, 0))
	defer func() {
		must(t, syscall.Dup3(kept, 0, 0))
		must(t, syscall.Close(kept))
	}()
	signals := make(chan os.Signal, 1)
	signals <- syscall.SIGINT
	ended, err := runCommand(background(t), exec.Command("sleep", "60"), signals, 0)
	must(t, err)
	same(t, ended, commandEnd{128 + 2, true})
}

// Of who is left to this program the system keeps what it ended with, until that is asked for.
func TestWhatIsLeftToTheProgramIsNotWaitedFor(t *testing.T) {
	trial.Tried(t, testWhatIsLeftToTheProgramIsNotWaitedFor)
}

func testWhatIsLeftToTheProgramIsNotWaitedFor(t *testing.T) {
	work := shell(serve(t), "sleep 60 & trap 'exit 3' TERM; echo in; "+loop)
	work.command.Path, work.command.Env = os.Args[0], append(work.command.Env, adoptVariable+"="+built)
	work.start(t).tells(t, "in")
	begun := time.Now()
	work.signal(t, syscall.SIGTERM).endsWith(t, 3, "", "")
	trial.Took(t, time.Since(begun), 0, 5*time.Second)
}

// terminal gives the two ends of a new one.
func terminal(t *testing.T) (own, other *os.File) {
	t.Helper()
	own, err := os.OpenFile("/dev/ptmx", os.O_RDWR|syscall.O_NOCTTY, 0)
	if err != nil {
		t.Skip(err)
	}
	t.Cleanup(func() { own.Close() })
	number, isLocked := uint32(0), uint32(0)
	for request, value := range map[uintptr]*uint32{syscall.TIOCSPTLCK: &isLocked, syscall.TIOCGPTN: &number} {
		if _, _, fault := syscall.Syscall(syscall.SYS_IOCTL, own.Fd(), request, uintptr(unsafe.Pointer(value))); fault != 0 {
			t.Skip(fault)
		}
	}
	other, err = os.OpenFile(fmt.Sprint("/dev/pts/", number), os.O_RDWR|syscall.O_NOCTTY, 0)
	if err != nil {
		t.Skip(err)
	}
	return own, other
}

func TestATerminalHasOneGroup(t *testing.T) {
	const text = "trap 'exit 9' INT QUIT; echo $(ps -o pgid= -p $$) $(ps -o pgid= -p $PPID); " + loop
	for _, isTerminal := range []bool{true, false} {
		work := shell(serve(t), text)
		if isTerminal {
			_, other := terminal(t)
			work.command.Stdin = other
			defer other.Close()
		}
		line, err := work.start(t).out.ReadString('\n')
		must(t, err)
		groups := strings.Fields(line)
		same(t, []any{len(groups), groups[0] == groups[1]}, []any{2, isTerminal})
		// As the terminal would, which tells the command itself.
		work.signal(t, syscall.SIGINT).signal(t, syscall.SIGQUIT)
		if !isTerminal {
			work.endsWith(t, 9, "", "")
			continue
		}
		time.Sleep(500 * time.Millisecond)
		work.signal(t, syscall.SIGTERM).endsWith(t, 128+15, "", "")
	}
}

func TestACommandHasNoOtherDescriptors(t *testing.T) {
	reader, writer, err := os.Pipe()
	must(t, err)
	defer reader.Close()
	defer writer.Close()
	work := shell(serve(t), "for each in 3 4 5 6 7 8 9; do [ ! -e /proc/$$/fd/$each ] || echo $each; done")
	work.command.ExtraFiles = []*os.File{reader, nil, writer}
	work.start(t).endsWith(t, 0, "", "")
}

func TestAStandardStreamThatIsClosedIsOneOfNothing(t *testing.T) {
	ring := serve(t)
	const work = "readlink /proc/$$/fd/0 /proc/$$/fd/2; exit 3"
	script(ring, "exec 0<&- 2>&-", "jobs", "--", "sh", "-c", work).start(t).endsWith(t, 3, "/dev/null\n/dev/null\n", "")
}
