//go:build linux

package main

import (
	"context"
	"errors"
	"fmt"
	"os"
	"os/exec"
	"strconv"
	"strings"
	"syscall"
	"time"

	"cinoweta"
)

// So long is waited at the end for nodes that retire.
const retiresLimit = time.Second

// runLocked runs the command while it leads, and gives the exit status.
func runLocked(told words) int {
	path, err := find(told.command[0])
	if err != nil {
		tell("%s: no such program", told.command[0])
		return noProgram
	}
	lock, err := told.lock()
	if err != nil {
		return told.tellFault(err)
	}
	signals := make(chan os.Signal, 64)
	ended, err := acquire(lock, told.wait, signals)
	switch {
	case ended != 0:
		return signalled + int(ended)
	case err != nil:
		return told.tellFault(err)
	default:
		return runHeld(lock, path, told, signals)
	}
}

// find gives the path of a program. One of the folder where this one runs counts, too, where PATH has that.
func find(program string) (string, error) {
	path, err := exec.LookPath(program)
	if errors.Is(err, exec.ErrDot) {
		err = nil
	}
	return path, err
}

// lock gives the lock as the words tell it.
func (w *words) lock() (*cinoweta.Lock, error) {
	ring, err := w.ringOf()
	if err != nil {
		return nil, err
	}
	if w.giveUp <= 0 {
		return nil, errors.New("who is cut off gives up after more than 0 seconds")
	}
	if w.keep < 0 {
		return nil, errors.New("who leads keeps 0 terms or more")
	}
	how := cinoweta.LockOptions{Rank: w.rank, Patience: atLeast(w.patience), Text: w.text, AcrossHosts: w.isAcross, Keep: w.keep,
		GiveUp: w.giveUp, Tell: func(text string) {
			tell("%s: %s", w.group, strings.Replace(text, ": cinoweta: ", ": ", 1))
		}}
	if w.keep == 0 {
		how.Keep = cinoweta.KeepNone
	}
	if w.giveUp == forEver {
		how.GiveUp = 0
	}
	return cinoweta.NewLock(ring, w.group, how), nil
}

// atLeast is the length, or the least one: 0 stands for a default in the package.
func atLeast(length time.Duration) time.Duration {
	if length < time.Millisecond {
		return time.Millisecond
	}
	return length
}

// ringOf gives the ring as the words tell it.
func (w *words) ringOf() (*cinoweta.Ring, error) {
	if w.ring == "" {
		return nil, errors.New("no ring: tell its ports by --ring or CINOWETA_RING, as 7101-7103")
	}
	ring, err := cinoweta.ParseRing(w.ring)
	if err != nil {
		return nil, err
	}
	ring.Timeout = atLeast(w.timeout)
	if w.status == "" {
		return ring, nil
	}
	return ring, ring.SetStatus(w.status)
}

// acquire waits for the lock. Where a signal ends that, it gives its number; TERM and HUP end this program, as they do any.
func acquire(lock *cinoweta.Lock, wait time.Duration, signals chan os.Signal) (ended syscall.Signal, err error) {
	takeSignals(signals, syscall.SIGINT, syscall.SIGQUIT, syscall.SIGUSR1, syscall.SIGUSR2)
	ctx, cancel := context.WithCancel(context.Background())
	defer cancel()
	had := make(chan error, 1)
	go func() { had <- lock.AcquireWithin(ctx, wait) }()
	select {
	case err := <-had:
		return 0, err
	case number := <-signals:
		cancel()
		<-had
		// It may be held by now.
		lock.Resign()
		return number.(syscall.Signal), nil
	}
}

// runHeld runs the command while the lock is held, and gives the exit status.
func runHeld(lock *cinoweta.Lock, path string, told words, signals chan os.Signal) int {
	takeSignals(signals, syscall.SIGTERM, syscall.SIGHUP)
	command := exec.Cmd{Path: path, Args: told.command, Stdin: os.Stdin, Stdout: os.Stdout, Stderr: os.Stderr}
	var end commandEnd
	var fault error
	err := lock.RunHeld(context.Background(), func(ctx context.Context, term int) error {
		command.Env = append(os.Environ(), "CINOWETA_GROUP="+told.group, fmt.Sprint("CINOWETA_TERM=", term))
		end, fault = runCommand(ctx, &command, signals, told.grace)
		return nil
	})
	awaitRetires(lock)
	var lost *cinoweta.LockLostError
	switch {
	case fault != nil:
		tell("%s: %v", told.command[0], causeOf(fault))
		return notStarted
	case end.isOwn:
		// Whatever became of the lock in the same moment.
		return end.status
	case errors.As(err, &lost):
		tell("%s: term %d is over: %s", told.group, lost.Term, told.why(lost))
		return lockLost
	default:
		return told.tellFault(err)
	}
}

// awaitRetires waits a moment for nodes that retire yet: the journals of those that never may behind short commands would
// fill. The lock is given back by then.
func awaitRetires(lock *cinoweta.Lock) {
	ctx, cancel := context.WithTimeout(context.Background(), retiresLimit)
	defer cancel()
	lock.AwaitRetires(ctx)
}

// causeOf is what the system says, where it does.
func causeOf(err error) error {
	var system syscall.Errno
	if errors.As(err, &system) {
		return system
	}
	return err
}

// why says why the lock was lost.
func (w *words) why(lost *cinoweta.LockLostError) string {
	if lost.GaveUp {
		seconds := strconv.FormatFloat(w.giveUp.Seconds(), 'f', -1, 64)
		if !strings.Contains(seconds, ".") {
			seconds += ".0"
		}
		return fmt.Sprintf("no node answered for %s seconds", seconds)
	}
	return fmt.Sprint("a greater term is known: ", lost.Later)
}
