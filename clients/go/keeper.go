package cinoweta

import (
	"context"
	"errors"
	"fmt"
	"sync"
	"time"
)

// A stand is what a lock is present by: its node stands so, as a session of this process was told.
type stand struct {
	group     string
	term, bid int
	// The Stand, and what the holder tells.
	lines []string
	// Who keeps it, within the mutex of the keepers, and the session that was told so last, which is the keeper's to know.
	keeper  *keeper
	session *session

	// answered is closed once the node answered, or with the error that is there instead, and ended once it is present no
	// more.
	answered, ended chan struct{}
	err             error
}

func newStand(group string, term, bid int, text string) *stand {
	lines := []string{fmt.Sprintf("stand %s %d %d", group, term, bid)}
	if text != "" {
		lines = append(lines, "tell "+group+" "+text)
	}
	return &stand{group: group, term: term, bid: bid, lines: lines, answered: make(chan struct{}), ended: make(chan struct{})}
}

// hear takes the node's answer.
func (s *stand) hear(answer string, session *session) {
	switch refused := refusal(answer); {
	case answer == "stood" || answer == fmt.Sprintf("no 3 already %d", s.bid):
		s.session = session
		s.settle(nil)
	case refused != nil:
		s.settle(refused)
	default:
		s.settle(wrongAnswer(answer))
	}
}

// settle says to who waits whether it is present.
func (s *stand) settle(err error) {
	select {
	case <-s.answered:
	default:
		s.err = err
		close(s.answered)
	}
}

// A keeper keeps one session open with a node, in which all stands of this process there are told, by a goroutine that
// alone asks over it, and opens another one where it breaks off. It holds one of the node's doors.
type keeper struct {
	address string
	every   time.Duration
	session *session
	// Its questions end with this context.
	over context.Context
	end  context.CancelFunc

	// Within the mutex of the keepers: the stands that are present, or come to be, and those that are so no more. That either
	// changed is told.
	held, gone []*stand
	changed    chan struct{}
}

// keep goes on until nothing is held any more.
func (k *keeper) keep() {
	defer k.end()
	for {
		k.await()
		held, gone := keepers.change(k)
		isOpen := k.session != nil
		err := k.step(held, gone)
		if k.session != nil && (err != nil || len(held) == 0) {
			k.session.close()
			k.session = nil
		}
		switch {
		case err != nil && isOpen:
			// That an old session ended says nothing of a new one.
			k.tell()
		case err != nil:
			for _, each := range held {
				each.settle(noAnswer(k.over, k.address, err))
			}
		}
		for _, each := range gone {
			close(each.ended)
		}
		if len(held) == 0 {
			return
		}
	}
}

// await waits until something changed, or the session was silent for a while.
func (k *keeper) await() {
	timer := time.NewTimer(k.every)
	defer timer.Stop()
	select {
	case <-k.changed:
	case <-timer.C:
	}
}

// tell tells that something changed.
func (k *keeper) tell() {
	select {
	case k.changed <- struct{}{}:
	default:
	}
}

// step has the node know who is present, and who is so no more. Behind an error the session is of no use.
func (k *keeper) step(held, gone []*stand) (err error) {
	if k.session == nil && len(held) > 0 {
		k.session, err = openSession(k.over, k.address, presenceDial)
	}
	if k.session == nil {
		return err
	}
	if err := k.resign(gone); err != nil {
		return err
	}
	return k.stand(held)
}

// resign says who is present no more. Where the node does not take that, the others are told in a new session.
func (k *keeper) resign(gone []*stand) error {
	for _, each := range gone {
		if each.session != k.session {
			continue
		}
		answer, err := k.session.ask(k.over, fmt.Sprintf("resign %s %d", each.group, each.term), patience)
		if err != nil {
			return err
		}
		if answer != "resigned" && answer != "none" {
			return errors.New("it takes no end")
		}
	}
	return nil
}

// stand tells those that the session was not told yet; where there are none a question, so that it is not silent.
func (k *keeper) stand(held []*stand) error {
	all := []*stand{}
	for _, each := range held {
		if each.session != k.session {
			all = append(all, each)
		}
	}
	if len(all) == 0 && len(held) > 0 {
		_, err := k.session.ask(k.over, "latest "+held[0].group, patience)
		return err
	}
	return inParts(all, k.standAtOnce)
}

// inParts hands these on, at most standsAtOnce at a time, up to the first fault.
func inParts[T any](all []T, tell func(some []T) error) error {
	for len(all) > 0 {
		some := all
		if len(some) > standsAtOnce {
			some = all[:standsAtOnce]
		}
		all = all[len(some):]
		if err := tell(some); err != nil {
			return err
		}
	}
	return nil
}

func (k *keeper) standAtOnce(some []*stand) error {
	lines := []string{}
	for _, each := range some {
		lines = append(lines, each.lines...)
	}
	answers, err := k.session.askAll(k.over, lines, patience)
	if err != nil {
		return err
	}
	for _, each := range some {
		// The Stand alone is answered: an earlier ringd knows no `tell`.
		each.hear(answers[0], k.session)
		answers = answers[len(each.lines):]
	}
	return nil
}

// keepers are those of this process, by the address of their node.
var keepers = allKeepers{at: map[string]*keeper{}}

type allKeepers struct {
	mutex sync.Mutex
	at    map[string]*keeper
}

// add has a stand be told at the node.
func (a *allKeepers) add(added *stand, address string, every time.Duration) {
	a.mutex.Lock()
	defer a.mutex.Unlock()
	k := a.at[address]
	if k == nil {
		over, end := context.WithCancel(context.Background())
		k = &keeper{address: address, every: every, over: over, end: end, changed: make(chan struct{}, 1)}
		a.at[address] = k
		go k.keep()
	}
	k.held, added.keeper = append(k.held, added), k
	k.tell()
}

// remove has a stand be told no more, and tells whether it was. The last one ends the session.
func (a *allKeepers) remove(removed *stand) bool {
	a.mutex.Lock()
	defer a.mutex.Unlock()
	k := removed.keeper
	if k == nil {
		return false
	}
	removed.keeper = nil
	for place, each := range k.held {
		if each == removed {
			k.held = append(k.held[:place], k.held[place+1:]...)
			break
		}
	}
	k.gone = append(k.gone, removed)
	if len(k.held) == 0 {
		delete(a.at, k.address)
		// What is asked yet is not waited for longer.
		time.AfterFunc(farewellLimit, k.end)
	}
	k.tell()
	return true
}

// change gives who is present at the keeper's node, or comes to be, and who is so no more since it was asked last.
func (a *allKeepers) change(k *keeper) (held, gone []*stand) {
	a.mutex.Lock()
	defer a.mutex.Unlock()
	held, gone = append(held, k.held...), k.gone
	k.gone = nil
	return held, gone
}
