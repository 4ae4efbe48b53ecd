//go:build linux

package main

import (
	"bufio"
	"fmt"
	"io"
	"os"
	"os/exec"
	"os/signal"
	"path/filepath"
	"syscall"
	"testing"
	"time"

	"cinoweta/internal/trial"
)

// adoptVariable has the tests' program be the one that it names, which those that lose their parent are left to, as to the
// first one of a container.
const adoptVariable = "CINOWETA_TEST_ADOPT"

// The program that is tested.
var built string

func TestMain(m *testing.M) {
	if path := os.Getenv(adoptVariable); path != "" {
		adopt(path)
	}
	os.Exit(testBuilt(m))
}

// testBuilt tests a program that is built for that.
func testBuilt(m *testing.M) int {
	folder, err := os.MkdirTemp("", "cinoweta-lock-")
	if err != nil {
		fmt.Println(err)
		return 1
	}
	defer os.RemoveAll(folder)
	built = filepath.Join(folder, "cinoweta-lock")
	build := exec.Command("go", "build", "-o", built)
	build.Env = append(os.Environ(), "CGO_ENABLED=0")
	if told, err := build.CombinedOutput(); err != nil {
		fmt.Printf("%s%v\n", told, err)
		return 1
	}
	for _, number := range []os.Signal{syscall.SIGINT, syscall.SIGHUP} {
		if signal.Ignored(number) {
			// Whatever the tests were begun by, the program does not ignore it.
			signal.Notify(make(chan os.Signal, 1), number)
		}
	}
	return m.Run()
}

// adopt goes on as the program.
func adopt(path string) {
	const setChildSubreaper = 36
	syscall.RawSyscall(syscall.SYS_PRCTL, setChildSubreaper, 1, 0)
	fmt.Println(syscall.Exec(path, append([]string{path}, os.Args[1:]...), os.Environ()))
	os.Exit(1)
}

// A program is the one that is tested, or another one that runs it.
type program struct {
	command *exec.Cmd
	out     *bufio.Reader
	// A file, which nobody has to read.
	standardError string
}

// lock makes the program, told the ring by the environment and these words.
func lock(ring *ring, words ...string) *program {
	return script(ring, "", words...)
}

// script makes one that goes on as that behind this script of a shell.
func script(ring *ring, before string, words ...string) *program {
	made := &program{command: exec.Command(built, words...)}
	if before != "" {
		made.command = exec.Command("sh", append([]string{"-c", before + `; exec "$@"`, "sh", built}, words...)...)
	}
	made.command.Env = append(os.Environ(), "CINOWETA_RING=", "CINOWETA_STATUS=")
	if ring != nil {
		made.command.Env = append(made.command.Env, "CINOWETA_RING="+ring.ports())
	}
	return made
}

// start starts it, until the end of the test.
func (p *program) start(t *testing.T) *program {
	t.Helper()
	reader, writer, err := os.Pipe()
	must(t, err)
	faults, err := os.CreateTemp(t.TempDir(), "")
	must(t, err)
	p.command.Env = trial.Marked(t, p.command.Env)
	p.command.Stdout, p.command.Stderr = writer, faults
	p.out, p.standardError = bufio.NewReader(reader), faults.Name()
	must(t, p.command.Start())
	writer.Close()
	faults.Close()
	t.Cleanup(func() {
		p.command.Process.Kill()
		p.command.Wait()
		reader.Close()
	})
	return p
}

// faults is what it told on standard error.
func (p *program) faults() string {
	text, err := os.ReadFile(p.standardError)
	if err != nil {
		return err.Error()
	}
	return string(text)
}

// tells looks that it tells this line next on standard output.
func (p *program) tells(t *testing.T, wanted string) *program {
	t.Helper()
	line, err := p.out.ReadString('\n')
	if err != nil || line != wanted+"\n" {
		t.Fatalf("it told %q, not %q, and on standard error %q", line, wanted, p.faults())
	}
	return p
}

func (p *program) signal(t *testing.T, number syscall.Signal) *program {
	t.Helper()
	must(t, p.command.Process.Signal(number))
	return p
}

// ends waits until it has ended, and gives its exit status, or the number of the signal that ended it below 0, and what else it
// told.
func (p *program) ends(t *testing.T) (status int, out, faults string) {
	t.Helper()
	late := time.AfterFunc(60*time.Second, func() { p.command.Process.Kill() })
	defer late.Stop()
	told, err := io.ReadAll(p.out)
	must(t, err)
	_ = p.command.Wait()
	state := p.command.ProcessState.Sys().(syscall.WaitStatus)
	if state.Signaled() {
		return -int(state.Signal()), string(told), p.faults()
	}
	return state.ExitStatus(), string(told), p.faults()
}

// endsWith looks that it ends so.
func (p *program) endsWith(t *testing.T, status int, out, faults string) {
	t.Helper()
	ended, told, fault := p.ends(t)
	if ended != status || told != out || fault != faults {
		t.Fatalf("came %d %q %q, wanted %d %q %q", ended, told, fault, status, out, faults)
	}
}

var must, same = trial.Must, trial.Same
