package cinoweta

import (
	"context"
	"errors"
	"fmt"
	"os"
	"strconv"
	"strings"
)

// A Refusal is the cause for which a node refuses, by its number. docs/SESSIONS.md says what each one means, and what
// to do. errors.Is finds it in a [RefusedError].
type Refusal int

const (
	// ErrBadName says that the group is no name.
	ErrBadName Refusal = 1
	// ErrBadNumber says that a term or a bid is none.
	ErrBadNumber Refusal = 2
	// ErrAlreadyStands says that the node stands for the group and term already.
	ErrAlreadyStands Refusal = 3
	// ErrLate says that somebody else stands for the term, and the node passed that on.
	ErrLate Refusal = 4
	// ErrStale says that a greater term of the group has a leader.
	ErrStale Refusal = 5
	// ErrLimitReached says that the node stood as often as it may.
	ErrLimitReached Refusal = 6
	// ErrFull says that the node has no room for the Stand or the Retire.
	ErrFull Refusal = 7
	// ErrOutOfMemory says that the node found no memory.
	ErrOutOfMemory Refusal = 8
	// ErrNodeFailed says that the node's device failed, so that its ring elects nobody until it is started again. A Stand
	// that was on its way then may be accepted.
	ErrNodeFailed Refusal = 9
	// ErrDeviceFailed says that the device failed while the Stand was made durable, which it may be or not.
	ErrDeviceFailed Refusal = 15
	// ErrRetired says that the term is below the floor of its group at this node, or the new floor not above it.
	ErrRetired Refusal = 23
	// ErrBadLine says that the line is none.
	ErrBadLine Refusal = 25
	// ErrUndecided says that the floor is above the latest term that has a leader, as far as the node knows.
	ErrUndecided Refusal = 26
	// ErrTooFar says that the term is farther above the latest one of its group than `ringd --leap` lets a client go, so
	// that no client uses the terms of a group up.
	ErrTooFar Refusal = 28
)

// Error gives the number, as refusals without a text of their own have one too.
func (r Refusal) Error() string {
	return fmt.Sprintf("cinoweta: refusal %d", int(r))
}

// A RefusedError is the answer of a node that refused: its cause and its text, as 5 and `stale 9`.
type RefusedError struct {
	Refusal Refusal
	Text    string
}

// Error gives the node's answer, as `no 5 stale 9`, and at ErrTooFar what to do.
func (e *RefusedError) Error() string {
	text := fmt.Sprintf("cinoweta: no %d %s", int(e.Refusal), e.Text)
	if e.Refusal != ErrTooFar {
		return text
	}
	return text + ", which is the greatest term that it takes: look where the number came from above which was stood;" +
		" where it is right, `cinoweta raise` takes the group there"
}

// Unwrap gives the cause.
func (e *RefusedError) Unwrap() error {
	return e.Refusal
}

// Floor is the term below which the node gave up the group's terms; 0 where its answer, as `no 23 retired 9`, tells
// none.
func (e *RefusedError) Floor() int {
	return e.number(ErrRetired, "retired ")
}

// Farthest is the greatest term of the group that the node takes; 0 where its answer, as `no 28 far 9`, tells none.
func (e *RefusedError) Farthest() int {
	return e.number(ErrTooFar, "far ")
}

// number is the one that stands behind this word in an answer of this cause; 0 where there is none.
func (e *RefusedError) number(cause Refusal, word string) int {
	text := strings.TrimPrefix(e.Text, word)
	if e.Refusal != cause || text == e.Text {
		return 0
	}
	number, err := strconv.ParseUint(text, 10, 31)
	if err != nil {
		return 0
	}
	return int(number)
}

// refusal is the refusal that an answer is, as `no 5 stale 9`; nil where it is none.
func refusal(answer string) *RefusedError {
	words := strings.SplitN(answer, " ", 3)
	if len(words) < 3 || words[0] != "no" {
		return nil
	}
	number, err := strconv.ParseUint(words[1], 10, 31)
	if err != nil {
		return nil
	}
	return &RefusedError{Refusal(number), words[2]}
}

// A NoAnswerError says that nobody answered in time, or until the context was over. Whether a Stand that was asked for
// was accepted is not known.
type NoAnswerError struct {
	// Address is where was asked last.
	Address string
	// Err is what went wrong there, or the error of the context.
	Err error
	// What went wrong there before the context was over, where that is Err; nil where nothing did.
	before error
}

// Error says where was asked, and what went wrong.
func (e *NoAnswerError) Error() string {
	return fmt.Sprintf("cinoweta: no answer of %s: %v", e.Address, e.Err)
}

// Unwrap gives what went wrong.
func (e *NoAnswerError) Unwrap() error {
	return e.Err
}

// A NoLeaderError says that no leader came to be known in the terms that were waited for: a node of the ring failed, or
// is full. To stand again and again uses the Stands of the nodes up, and helps nothing.
type NoLeaderError struct {
	Group string
	// Terms is how many were waited for, above Gone. Of a lock that is the number of [Lock.ResignAbove], where it is
	// greater than the term of the leader that is gone.
	Terms, Gone int
	// Faults are the nodes that are not well, as `node 3 full`, where the ring's status port is known and tells.
	Faults []string
}

// Error says in which terms, and which nodes are not well.
func (e *NoLeaderError) Error() string {
	text := fmt.Sprintf("cinoweta: %s: no leader in %d terms above %d", e.Group, e.Terms, e.Gone)
	if len(e.Faults) > 0 {
		text += ": " + strings.Join(e.Faults, ", ")
	}
	return text
}

// A LockTakenError says that another process held the lock for as long as was waited.
type LockTakenError struct {
	Group  string
	Holder Holder
	// Err is the error of the context that was over, or nil where that of TryAcquire and AcquireWithin was not.
	Err error
}

// Error says who holds the lock.
func (e *LockTakenError) Error() string {
	return fmt.Sprintf("cinoweta: %s: held by %v", e.Group, e.Holder)
}

// Unwrap gives the error of the context.
func (e *LockTakenError) Unwrap() error {
	return e.Err
}

// A LockLostError says that a lock was lost while its holder worked: it resigned, a greater term is known, or it gave up.
type LockLostError struct {
	Group string
	// Term is the one in which the lock was held.
	Term int
	// Later is the greater term that is known; 0 where the lock is lost for another cause.
	Later int
	// GaveUp says that no node that could tell answered for as long as the lock's options say.
	GaveUp bool
	// Err is what the work ended with, or nil.
	Err error
}

// Error says which term is over.
func (e *LockLostError) Error() string {
	text := fmt.Sprintf("cinoweta: %s: the lock of term %d is lost", e.Group, e.Term)
	if e.GaveUp {
		text += ": no node that could tell answered in time"
	}
	return text
}

// Unwrap gives what the work ended with.
func (e *LockLostError) Unwrap() error {
	return e.Err
}

// A ResignedError says that a lock was given back while it was waited for, so that it is not held.
type ResignedError struct {
	Group string
}

// Error says which lock.
func (e *ResignedError) Error() string {
	return fmt.Sprintf("cinoweta: %s: the lock was given back while it was waited for", e.Group)
}

// A WrongRingError says that the ports are not those of a ring, from its node 1 on, or not that of its status, which for
// a lock across hosts has to be told; or that the host is none.
type WrongRingError struct {
	// Text says what was found.
	Text string
}

// Error says what was found.
func (e *WrongRingError) Error() string {
	return "cinoweta: " + e.Text
}

// wrongAnswer says that none of a node was answered.
func wrongAnswer(answer string) *WrongRingError {
	return &WrongRingError{fmt.Sprintf("%q is no answer of a node", answer)}
}

// noAnswer says that nobody answered at an address, for this error or that of the context. The end of a time that its caller
// did not set is none of a context.
func noAnswer(ctx context.Context, address string, err error) *NoAnswerError {
	over, isLate := ended(ctx), errors.Is(err, context.DeadlineExceeded)
	switch {
	case over == nil && isLate:
		return &NoAnswerError{Address: address, Err: os.ErrDeadlineExceeded}
	case over == nil:
		return &NoAnswerError{Address: address, Err: err}
	case isLate || errors.Is(err, os.ErrDeadlineExceeded) || errors.Is(err, context.Canceled):
		return &NoAnswerError{Address: address, Err: over}
	default:
		return &NoAnswerError{Address: address, Err: over, before: err}
	}
}

// withoutContext says the same of a question whose context was not that of who calls: its end alone went wrong, if nothing
// did before.
func (e *NoAnswerError) withoutContext() *NoAnswerError {
	if e.before != nil {
		return &NoAnswerError{Address: e.Address, Err: e.before}
	}
	return &NoAnswerError{Address: e.Address, Err: os.ErrDeadlineExceeded}
}

// isPassing tells whether time or an operator mends the fault, as by a start or a Retire, and it is none of the question.
func isPassing(err error) bool {
	var noLeader *NoLeaderError
	if isNoAnswer(err) || errors.As(err, &noLeader) {
		return true
	}
	for _, cause := range []Refusal{ErrLimitReached, ErrFull, ErrOutOfMemory, ErrNodeFailed, ErrDeviceFailed} {
		if errors.Is(err, cause) {
			return true
		}
	}
	return false
}

// hasFailed tells whether the node's device failed. A Stand may be accepted all the same, also where it failed while
// the Stand was on its way.
func hasFailed(err error) bool {
	return errors.Is(err, ErrNodeFailed) || errors.Is(err, ErrDeviceFailed)
}

// isNoAnswer tells whether nobody answered.
func isNoAnswer(err error) bool {
	var fault *NoAnswerError
	return errors.As(err, &fault)
}
