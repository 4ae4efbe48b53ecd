package cinoweta

import (
	"context"
	"errors"
	"sync"
	"time"
)

// A node that left a look unanswered is asked by none for so long, where another one may be.
const silentRest = 10 * time.Second

// IsLost tells whether this process does not hold the lock any more: it resigned, a greater term is known, or it gives up,
// as its options may say. The ring is asked once a second at most, or five times within its GiveUp where that is less.
// Where no node answers, or one finds no memory to, nothing is known to be lost; for all locks of a [Ring] that is found
// out once a second.
func (l *Lock) IsLost(ctx context.Context) (bool, error) {
	err := l.lookInTurn(ctx)
	l.mutex.Lock()
	defer l.mutex.Unlock()
	if l.isHeld && l.how.GiveUp > 0 && time.Since(l.heard) >= l.how.GiveUp {
		l.hasGivenUp = true
		// Across hosts that may take time where nobody answers.
		go l.end().close()
	}
	return !l.isHeld, err
}

// isDue tells whether it is time for a look.
func (l *Lock) isDue() bool {
	l.mutex.Lock()
	defer l.mutex.Unlock()
	return l.isHeld && time.Since(l.asked) >= l.every
}

// lookInTurn looks where it is time for that, and another goroutine does not do so meanwhile, for which it waits.
func (l *Lock) lookInTurn(ctx context.Context) error {
	if !l.isDue() {
		return nil
	}
	select {
	case l.turn <- struct{}{}:
		defer func() { <-l.turn }()
	case <-ctx.Done():
		return noAnswer(ctx, l.looks.address(1), nil)
	}
	if !l.isDue() {
		return nil
	}
	return l.look(ctx)
}

// look asks another node than the last time who leads, and has the lock be lost where that is in a greater term.
func (l *Lock) look(ctx context.Context) error {
	begun := time.Now()
	known, isKnown, err := Led{}, false, error(nil)
	if !l.ring.silence.isWithin(l.every) {
		known, isKnown, err = l.ask(ctx)
	}
	if isNoAnswer(err) && ended(ctx) == nil {
		l.ring.silence.begin()
	}
	if ended(ctx) == nil && (isNoAnswer(err) || errors.Is(err, ErrOutOfMemory)) {
		err = nil
	}
	l.mutex.Lock()
	defer l.mutex.Unlock()
	if err == nil || ended(ctx) == nil {
		// One that its context ended is not waited for by others, which may have more time.
		l.asked = time.Now()
	}
	switch {
	case !l.isHeld:
		// It was given back meanwhile, and who waits for it anew goes on.
	case isKnown && known.Term > l.term:
		l.later = known.Term
		l.resign(0)
	case isKnown && known.Term == l.term:
		l.heard = begun
	}
	return err
}

// ask asks who leads: the node behind the one that was asked last, since that may lag, and as long as there is time those
// behind it, until one knows a term as great as this lock's. Where one gave no answer it is the next one's turn anyway.
func (l *Lock) ask(ctx context.Context) (known Led, isKnown bool, err error) {
	term, until := l.Term(), time.Now().Add(l.looks.timeout())
	for left := l.looks.nodes; left > 0; left-- {
		known, isKnown, err = l.looks.Latest(ctx, l.group, AnyNode)
		if isNoAnswer(err) {
			break
		}
		l.looks.pass(ctx)
		isTold := isKnown && known.Term >= term || err != nil && !errors.Is(err, ErrOutOfMemory)
		if isTold || time.Now().After(until) {
			break
		}
	}
	return known, isKnown, err
}

// awaitLoss looks whether the lock is lost until it is, or the context is over.
func (l *Lock) awaitLoss(ctx context.Context) error {
	for {
		length := l.every
		if l.how.GiveUp > 0 {
			length = atMost(length, time.Until(l.givesUp()))
		}
		sleep(ctx, length)
		if ctx.Err() != nil {
			return nil
		}
		isLost, err := l.isLostInTime(ctx)
		if isLost {
			l.mutex.Lock()
			defer l.mutex.Unlock()
			return &LockLostError{Group: l.group, Term: l.term, Later: l.later, GaveUp: l.hasGivenUp}
		}
		if err != nil && ctx.Err() == nil {
			return err
		}
	}
}

// isLostInTime tells the same as IsLost, and is not late where the lock is given up.
func (l *Lock) isLostInTime(ctx context.Context) (bool, error) {
	if l.how.GiveUp <= 0 {
		return l.IsLost(ctx)
	}
	limited, cancel := context.WithDeadline(ctx, l.givesUp())
	defer cancel()
	isLost, err := l.IsLost(limited)
	if isNoAnswer(err) && ended(ctx) == nil {
		// Another goroutine heard of the lock while this one's time ended.
		err = nil
	}
	return isLost, err
}

// givesUp is when the lock is given up, unless a node can tell before.
func (l *Lock) givesUp() time.Time {
	l.mutex.Lock()
	defer l.mutex.Unlock()
	return l.heard.Add(l.how.GiveUp)
}

// A silence is that of a ring that did not answer, and of those of its nodes that did not.
type silence struct {
	mutex sync.Mutex
	begun time.Time
	nodes map[int]time.Time
}

// begin has it begin now.
func (s *silence) begin() {
	s.mutex.Lock()
	defer s.mutex.Unlock()
	s.begun = time.Now()
}

// isWithin tells whether it began within this time.
func (s *silence) isWithin(length time.Duration) bool {
	s.mutex.Lock()
	defer s.mutex.Unlock()
	return !s.begun.IsZero() && time.Since(s.begun) < length
}

// hear takes whether a node answered.
func (s *silence) hear(node int, isTold bool) {
	s.mutex.Lock()
	defer s.mutex.Unlock()
	if isTold {
		delete(s.nodes, node)
		return
	}
	if s.nodes == nil {
		s.nodes = map[int]time.Time{}
	}
	s.nodes[node] = time.Now()
}

// isOf tells whether this node did not answer lately.
func (s *silence) isOf(node int) bool {
	s.mutex.Lock()
	defer s.mutex.Unlock()
	begun, isSilent := s.nodes[node]
	return isSilent && time.Since(begun) < silentRest
}
