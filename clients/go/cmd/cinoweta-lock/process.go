//go:build linux

package main

import (
	"context"
	"os"
	"os/exec"
	"os/signal"
	"strconv"
	"syscall"
	"time"
	"unsafe"
)

// How often is asked whether a command's group has ended.
const soon = 20 * time.Millisecond

// A commandEnd is how a command ended: its exit status, or 128 and the number of the signal that ended it, and whether
// that was its own end.
type commandEnd struct {
	status int
	isOwn  bool
}

// A running is a command that was begun. Where standard input is no terminal it has a session of its own, and so a group,
// with what it begins. It goes on where this program is killed: what it writes to has to turn it away anyway.
type running struct {
	command  *exec.Cmd
	hasGroup bool
	// Closed once it has ended.
	ended chan struct{}
	// Whether it was asked to end.
	isToEnd bool
}

// runCommand runs a command until it ends, or the context does, behind which it is ended: by TERM, and by KILL where it goes on
// for the grace.
func runCommand(ctx context.Context, command *exec.Cmd, signals <-chan os.Signal, grace time.Duration) (commandEnd, error) {
	begun, err := begin(command)
	if err != nil {
		return commandEnd{}, err
	}
	begun.sendEarly(signals)
	isOwn := begun.await(ctx, signals)
	begun.end(signals, grace)
	return commandEnd{begun.status(), isOwn}, nil
}

func begin(command *exec.Cmd) (*running, error) {
	closeDescriptorsOnExec()
	begun := &running{command: command, hasGroup: !isTerminal(0), ended: make(chan struct{})}
	command.SysProcAttr = &syscall.SysProcAttr{Setsid: begun.hasGroup}
	if err := command.Start(); err != nil {
		return nil, err
	}
	go func() {
		defer close(begun.ended)
		// What it ended with is its state.
		_ = command.Wait()
	}()
	return begun, nil
}

// await waits until the command has ended by itself. False once the context is over before.
func (r *running) await(ctx context.Context, signals <-chan os.Signal) bool {
	for {
		select {
		case <-r.ended:
			return true
		case number := <-signals:
			r.handOn(number.(syscall.Signal))
		case <-ctx.Done():
			// Of two that are ready, select takes either.
			return r.hasEnded()
		}
	}
}

// end ends the command where it goes on. It goes on as long as its group does, if it was asked to end; what it left behind at
// an end of its own is left.
func (r *running) end(signals <-chan os.Signal, grace time.Duration) {
	for came := len(signals); came > 0; came-- {
		// One may have come with the end.
		r.handOn((<-signals).(syscall.Signal))
	}
	if r.hasEnded() && !r.isToEnd {
		return
	}
	late := time.After(grace)
	if !r.hasEnded() {
		r.send(syscall.SIGTERM)
	}
	looks := time.NewTicker(soon)
	defer looks.Stop()
	for r.isThere() {
		select {
		case <-looks.C:
		case number := <-signals:
			r.handOn(number.(syscall.Signal))
		case <-late:
			r.send(syscall.SIGKILL)
			<-r.ended
			return
		}
	}
	<-r.ended
}

// sendEarly sends the command what came before it was known to have begun, from a terminal too, which sent it to nobody then.
func (r *running) sendEarly(signals <-chan os.Signal) {
	for came := len(signals); came > 0; came-- {
		number := (<-signals).(syscall.Signal)
		r.note(number)
		r.send(number)
	}
}

// handOn sends the command a signal that came to this program, but for what a terminal sends to both.
func (r *running) handOn(number syscall.Signal) {
	r.note(number)
	if r.hasGroup || number != syscall.SIGINT && number != syscall.SIGQUIT {
		r.send(number)
	}
}

// note notes whether the signal asks the command to end.
func (r *running) note(number syscall.Signal) {
	r.isToEnd = r.isToEnd || number != syscall.SIGUSR1 && number != syscall.SIGUSR2
}

// send sends it to all of its group, where it has one.
func (r *running) send(number syscall.Signal) {
	// Who has ended meanwhile needs none.
	if r.hasGroup {
		_ = syscall.Kill(-r.command.Process.Pid, number)
	} else {
		_ = r.command.Process.Signal(number)
	}
}

func (r *running) hasEnded() bool {
	select {
	case <-r.ended:
		return true
	default:
		return false
	}
}

// isThere tells whether it has not ended, or any of its group, where it has one.
func (r *running) isThere() bool {
	if !r.hasEnded() || !r.hasGroup {
		return !r.hasEnded()
	}
	group := -r.command.Process.Pid
	// Where this is the first program of a container, what the command left behind is its own to wait for.
	for process := 1; process > 0; {
		process, _ = syscall.Wait4(group, nil, syscall.WNOHANG, nil)
	}
	return syscall.Kill(group, 0) == nil
}

// status is the exit status of a command that has ended.
func (r *running) status() int {
	if r.command.ProcessState == nil {
		return systemFailed
	}
	told := r.command.ProcessState.Sys().(syscall.WaitStatus)
	if told.Signaled() {
		return signalled + int(told.Signal())
	}
	return told.ExitStatus()
}

// takeSignals has these be sent to the channel. One that is ignored here, as by nohup, is ignored by the command too.
func takeSignals(signals chan<- os.Signal, numbers ...syscall.Signal) {
	for _, number := range numbers {
		switch {
		case number == syscall.SIGQUIT && signal.Ignored(syscall.SIGINT):
			// Go does not tell of it, but a shell has who runs behind & ignore both.
			signal.Ignore(number)
		case !signal.Ignored(number):
			signal.Notify(signals, number)
		}
	}
}

// isTerminal tells whether a descriptor is one.
func isTerminal(descriptor uintptr) bool {
	var told syscall.Termios
	_, _, fault := syscall.Syscall(syscall.SYS_IOCTL, descriptor, syscall.TCGETS, uintptr(unsafe.Pointer(&told)))
	return fault == 0
}

// closeDescriptorsOnExec has the command have no descriptor of this program, or of who began that, but the standard streams.
func closeDescriptorsOnExec() {
	entries, err := os.ReadDir("/proc/self/fd")
	if err != nil {
		for descriptor := 3; descriptor < 1_024; descriptor++ {
			syscall.CloseOnExec(descriptor)
		}
	}
	for _, entry := range entries {
		if descriptor, err := strconv.Atoi(entry.Name()); err == nil && descriptor > 2 {
			syscall.CloseOnExec(descriptor)
		}
	}
}

// openStandardStreams has a standard stream that is closed be one of nothing: else a connection would have its place, and the
// command have that.
func openStandardStreams() {
	for descriptor := 0; descriptor < 3; descriptor++ {
		var told syscall.Stat_t
		if syscall.Fstat(descriptor, &told) == syscall.EBADF {
			// The least one that is free is this.
			_, _ = syscall.Open(os.DevNull, syscall.O_RDWR, 0)
		}
	}
}
