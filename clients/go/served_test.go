package cinoweta

import (
	"bufio"
	"context"
	"errors"
	"fmt"
	"io"
	"os"
	"os/exec"
	"os/signal"
	"path/filepath"
	"strings"
	"syscall"
	"testing"
	"time"

	"cinoweta/internal/trial"
)

const (
	// lockVariable has a test's program hold the lock of the group that it names, in place of the tests.
	lockVariable = "CINOWETA_TEST_LOCK"
	// acrossVariable has it held across hosts.
	acrossVariable = "CINOWETA_TEST_ACROSS_HOSTS"
)

func TestMain(m *testing.M) {
	if group := os.Getenv(lockVariable); group != "" {
		os.Exit(holdLock(group))
	}
	if fault := trial.NoRingd(); fault != "" {
		fmt.Println("skipped are the tests beside ringd: " + fault)
	}
	os.Exit(m.Run())
}

// holdLock tells for whom it waits, and the term in which it holds the lock, until it is lost or TERM comes.
func holdLock(group string) int {
	ring, err := RingFromEnv()
	if err != nil {
		fmt.Println(err)
		return 2
	}
	ctx, cancel := signal.NotifyContext(context.Background(), syscall.SIGTERM)
	defer cancel()
	how := LockOptions{Patience: time.Second, Text: "a Go program", Tell: func(text string) { fmt.Println(text) }}
	if os.Getenv(acrossVariable) != "" {
		how.Patience, how.Text, how.AcrossHosts = 0, "", true
	}
	err = NewLock(ring, group, how).Run(ctx, func(ctx context.Context, term int) error {
		fmt.Println("term", term)
		<-ctx.Done()
		return nil
	})
	var lost *LockLostError
	switch {
	case errors.As(err, &lost):
		fmt.Println("lost", lost.Term)
	case err != nil:
		fmt.Println(err)
	default:
		fmt.Println("ended")
	}
	return 0
}

// A served ring is one of a real ringd.
type served struct{ *trial.Ringd }

// serve serves a new ring until the end of the test.
func serve(t *testing.T, capacity int) served {
	t.Helper()
	return serveAt(t, ownHost, capacity)
}

// serveAt serves one at this host, told further words.
func serveAt(t *testing.T, host string, capacity int, words ...string) served {
	t.Helper()
	return served{trial.Serve(t, host, capacity, words...)}
}

// ring is a client of its own.
func (s served) ring(t *testing.T) *Ring {
	ring, err := ParseRing(s.Ports())
	must(t, err)
	ring.Status = s.Status()
	t.Cleanup(func() { ring.Close() })
	return ring
}

// locker starts another process that holds the lock of `red`.
func (s served) locker(t *testing.T) *program {
	return start(t, exec.Command(os.Args[0]), s.variables()...)
}

// acrossLocker starts one that holds it across hosts.
func (s served) acrossLocker(t *testing.T) *program {
	return start(t, exec.Command(os.Args[0]), append(s.variables(), acrossVariable+"=1")...)
}

// variables have a program be a locker of this ring.
func (s served) variables() []string {
	return []string{lockVariable + "=red", "CINOWETA_RING=" + s.Ports(), fmt.Sprint("CINOWETA_STATUS=", s.Status())}
}

// python starts the command of the Python package with these words, or skips the test where there is no Python.
func (s served) python(t *testing.T, words ...string) *program {
	t.Helper()
	path, err := exec.LookPath("python3")
	if err != nil {
		t.Skip("for want of python3")
	}
	command := exec.Command(path, append([]string{"-m", "cinoweta"}, words...)...)
	command.Dir = filepath.Join("..", "python")
	return start(t, command, "CINOWETA_RING="+s.Ports())
}

// A program is another process whose lines are read.
type program struct {
	command *exec.Cmd
	lines   chan string
}

// start starts a program, which is killed at the end of the test.
func start(t *testing.T, command *exec.Cmd, names ...string) *program {
	t.Helper()
	command.Env = trial.Marked(t, append(os.Environ(), names...))
	reader, writer, err := os.Pipe()
	must(t, err)
	command.Stdout, command.Stderr = writer, writer
	must(t, command.Start())
	writer.Close()
	made := &program{command, make(chan string, 100)}
	go made.read(reader)
	t.Cleanup(func() {
		command.Process.Kill()
		command.Wait()
	})
	return made
}

func (p *program) read(reader io.ReadCloser) {
	defer reader.Close()
	defer close(p.lines)
	for lines := bufio.NewScanner(reader); lines.Scan(); {
		p.lines <- lines.Text()
	}
}

// tells waits until the program tells a line that begins so, and gives it.
func (p *program) tells(t *testing.T, begin string) string {
	t.Helper()
	told, late := []string{}, time.After(60*time.Second)
	for {
		select {
		case line, isTold := <-p.lines:
			if told = append(told, line); strings.HasPrefix(line, begin) && isTold {
				return line
			} else if !isTold {
				t.Fatalf("it ended, and told %q, not %q", told, begin)
			}
		case <-late:
			t.Fatalf("it told %q, not %q", told, begin)
		}
	}
}

// isSilent looks that the program tells nothing for so long.
func (p *program) isSilent(t *testing.T, length time.Duration) {
	t.Helper()
	select {
	case line := <-p.lines:
		t.Fatalf("it told %q", line)
	case <-time.After(length):
	}
}

func (p *program) signal(t *testing.T, number syscall.Signal) {
	t.Helper()
	must(t, p.command.Process.Signal(number))
}

// until waits until it is so.
func until(t *testing.T, what string, isSo func() bool) {
	t.Helper()
	for late := time.Now().Add(60 * time.Second); !isSo(); time.Sleep(50 * time.Millisecond) {
		if time.Now().After(late) {
			t.Fatal("it never came: " + what)
		}
	}
}
