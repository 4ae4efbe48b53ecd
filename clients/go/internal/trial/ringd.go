package trial

import (
	"bufio"
	"errors"
	"fmt"
	"os"
	"os/exec"
	"path/filepath"
	"runtime"
	"testing"
)

// ringd is the program of RINGD, or bin/ringd of the repository.
func ringd() string {
	if path := os.Getenv("RINGD"); path != "" {
		return path
	}
	_, own, _, _ := runtime.Caller(0)
	return filepath.Join(filepath.Dir(own), "..", "..", "..", "..", "bin", "ringd")
}

// NoRingd says why there is none; nothing where there is one.
func NoRingd() string {
	if _, err := exec.LookPath(ringd()); err != nil {
		return ringd() + " is not there: make ringd builds it, and RINGD names another one"
	}
	return ""
}

// A Ringd serves a ring of three nodes. Killed, it may be started again at the same ports and with what it held.
type Ringd struct {
	// Dir is the folder of its nodes, Host where it listens, and First the port of node 1.
	Dir, Host string
	First     int
	// Process is the program, once it was started.
	Process *exec.Cmd

	settings string
	capacity int
	words    []string
}

// Serve serves a new ring at this host until the end of the test, told further words. The test is skipped where there is no
// ringd.
func Serve(t *testing.T, host string, capacity int, words ...string) *Ringd {
	t.Helper()
	if fault := NoRingd(); fault != "" {
		t.Skip("for want of ringd: " + fault)
	}
	folder := t.TempDir()
	made := &Ringd{Dir: filepath.Join(folder, "ring"), Host: host, settings: filepath.Join(folder, "ring.toml"), capacity: capacity,
		words: append([]string{"--listen", host}, words...)}
	Must(t, os.Mkdir(made.Dir, 0o700))
	t.Cleanup(made.Kill)
	for range make([]struct{}, 20) {
		first, letGo := HoldPorts(t, 4)
		if made.First = first; made.Start() == nil {
			// Kept for it while it is away.
			t.Cleanup(letGo)
			return made
		}
		letGo()
	}
	t.Fatal("ringd does not serve")
	return nil
}

// Start gives an error where it does not serve, as where a port is in use.
func (r *Ringd) Start() error {
	text := fmt.Sprintf("nodes = 3\ndir = %q\nport = %d\ncapacity = %d\n", r.Dir, r.First, r.capacity)
	if err := os.WriteFile(r.settings, []byte(text), 0o600); err != nil {
		return err
	}
	words := []string{"--settings", r.settings, "--always", "--doors", "4", "--status", fmt.Sprint(r.Status())}
	r.Process = exec.Command(ringd(), append(words, r.words...)...)
	out, err := r.Process.StdoutPipe()
	if err != nil {
		return err
	}
	if err := r.Process.Start(); err != nil {
		return err
	}
	for lines := bufio.NewScanner(out); lines.Scan(); {
		if lines.Text() == "serving" {
			return nil
		}
	}
	r.Kill()
	return errors.New("ringd does not serve")
}

// Kill ends it by KILL, if it was started.
func (r *Ringd) Kill() {
	if r.Process != nil && r.Process.Process != nil {
		r.Process.Process.Kill()
		r.Process.Wait()
	}
}

// Status is its port of --status.
func (r *Ringd) Status() int {
	return r.First + 3
}

// Ports are those of its nodes, with its host.
func (r *Ringd) Ports() string {
	return fmt.Sprintf("%s:%d-%d", r.Host, r.First, r.First+2)
}
