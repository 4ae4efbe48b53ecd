package cinoweta

import (
	"context"
	"errors"
	"fmt"
	"math/rand"
	"sync"
	"time"
)

const (
	// So long a connection or an answer is waited for where a lock is shown.
	showLimit = time.Second
	// A shower rests for so long at most, and up to twice that.
	longestRest = 8 * time.Second
)

// showTimes are how often what shows a lock does something.
type showTimes struct {
	// So often a goroutine does what there is to do, and asks over its session, so that it is not silent. A lock is shown
	// once it was held for so long: one that was given back before costs nothing. Who resigns wakes nobody: the next one
	// is being elected then.
	every time.Duration
	// So often is looked whether the node has a door free beside: behind two looks where none was it is given back.
	looks time.Duration
	// So long it rests at first behind a fault, or where no door is free.
	rest time.Duration
}

var usualShowTimes = showTimes{500 * time.Millisecond, 2 * time.Second, time.Second}

// A shown is what one lock on one host is shown by: `ringd --status` tells of its holder as present, with its text.
type shown struct {
	group, text string
	term        int
	// The Stand, and what the holder tells; and the answer that says that the node stood so before.
	lines []string
	own   string
	since time.Time

	// Within the mutex of the showers: who shows it, and whether it was held for long enough.
	shower *shower
	isDue  bool
	// The shower's own: the session that was told of it last, and whether the node says that its term is over.
	session *session
	isOver  bool
}

func newShown(group string, led Led, text string) *shown {
	bid := led.Leader.Bid
	lines := []string{fmt.Sprintf("stand %s %d %d", group, led.Term, bid)}
	if text != "" {
		lines = append(lines, "tell "+group+" "+text)
	}
	own := fmt.Sprintf("no 3 already %d", bid)
	return &shown{group: group, text: text, term: led.Term, lines: lines, own: own, since: time.Now()}
}

// hear takes the node's answer to the Stand: an earlier ringd knows no `tell`. An error where it is to be asked again.
func (s *shown) hear(answer string, session *session) error {
	refused := refusal(answer)
	switch {
	case answer == "stood" || answer == s.own:
		s.session = session
	case refused == nil:
		return wrongAnswer(answer)
	case isOver(refused) || refused.Refusal == ErrAlreadyStands:
		s.isOver = true
	default:
		return refused
	}
	return nil
}

// A showPlace is a node, and where is told of it.
type showPlace struct {
	host                string
	first, status, node int
}

// A shower shows all locks that this process holds at one node, by a goroutine, in one session, which holds one of the
// node's doors, and only as long as it leaves another one free. Nobody waits for it.
type shower struct {
	place   showPlace
	times   showTimes
	session *session
	// When another session is tried, how long it rests next, when was looked for doors, and in how many none was free.
	again, looked time.Time
	rests         time.Duration
	taken         int

	// Within the mutex of the showers: the locks that are held, and those that may have been shown and are held no more.
	held, gone []*shown
}

// goOn goes on until nothing is held there any more.
func (s *shower) goOn() {
	for isOver := false; !isOver; {
		time.Sleep(s.times.every)
		var due, gone []*shown
		due, gone, isOver = showers.change(s)
		if s.step(due, gone) != nil {
			s.takeRest()
		}
	}
	s.end()
}

// takeRest gives the door back for a while, which is not the same for all processes.
func (s *shower) takeRest() {
	s.end()
	s.again = time.Now().Add(s.rests + time.Duration(rand.Int63n(int64(s.rests))))
	s.rests = atMost(2*s.rests, longestRest)
}

func (s *shower) end() {
	if s.session != nil {
		s.session.close()
		s.session = nil
	}
}

// step has the node know who is present, and who is so no more.
func (s *shower) step(due, gone []*shown) error {
	for _, each := range gone {
		if s.session != nil && each.session == s.session {
			line := fmt.Sprintf("resign %s %d", each.group, each.term)
			if _, err := s.session.ask(context.Background(), line, showLimit); err != nil {
				return err
			}
		}
	}
	left := []*shown{}
	for _, each := range due {
		if !each.isOver {
			left = append(left, each)
		}
	}
	if len(left) == 0 {
		s.end()
		return nil
	}
	if s.session == nil {
		if err := s.open(); err != nil || s.session == nil {
			return err
		}
	}
	return s.tell(left)
}

// open opens a session, where the time has come and another door stays free.
func (s *shower) open() error {
	if time.Now().Before(s.again) {
		return nil
	}
	free, err := s.free()
	if err != nil {
		return err
	}
	if free < 2 {
		return errors.New("no door is free")
	}
	s.taken = 0
	s.session, err = openSession(context.Background(), address(s.place.host, s.place.first+s.place.node-1), showLimit)
	return err
}

// tell tells those that the session was not told yet, or asks over it, so that it is not silent.
func (s *shower) tell(all []*shown) error {
	fresh := []*shown{}
	for _, each := range all {
		if each.session != s.session {
			fresh = append(fresh, each)
		}
	}
	if len(fresh) == 0 {
		return s.ask(all[0])
	}
	if err := inParts(fresh, s.tellAtOnce); err != nil {
		return err
	}
	s.rests = s.times.rest
	return nil
}

func (s *shower) tellAtOnce(some []*shown) error {
	lines := []string{}
	for _, each := range some {
		lines = append(lines, each.lines...)
	}
	answers, err := s.session.askAll(context.Background(), lines, showLimit)
	if err != nil {
		return err
	}
	for _, each := range some {
		if err := each.hear(answers[0], s.session); err != nil {
			return err
		}
		answers = answers[len(each.lines):]
	}
	return nil
}

// ask asks over the session, and now and then whether it keeps the last door.
func (s *shower) ask(some *shown) error {
	// A session has 10,000 lines beside those that tell.
	line := "latest " + some.group
	if some.text != "" {
		line = some.lines[1]
	}
	told, err := s.session.ask(context.Background(), line, showLimit)
	if err != nil {
		return err
	}
	some.isOver = some.text != "" && told == "none"
	if time.Since(s.looked) < s.times.looks {
		return nil
	}
	free, err := s.free()
	if err != nil {
		return err
	}
	s.taken++
	if free > 0 {
		s.taken = 0
	}
	if s.taken > 1 {
		return errors.New("no door is free")
	}
	return nil
}

// free is how many doors of the node are free, without the one that is kept.
func (s *shower) free() (int64, error) {
	s.looked = time.Now()
	ctx, cancel := context.WithTimeout(context.Background(), showLimit)
	defer cancel()
	told, err := Status(ctx, s.place.host, s.place.status)
	for _, node := range told.Nodes {
		if node.Node == s.place.node {
			return node.Sessions.Doors - node.Sessions.Busy, err
		}
	}
	return 0, err
}

// showers are those of this process.
var showers = allShowers{at: map[showPlace]*shower{}}

type allShowers struct {
	mutex sync.Mutex
	at    map[showPlace]*shower
}

// add has a lock be shown soon.
func (a *allShowers) add(added *shown, place showPlace, times showTimes) *shown {
	a.mutex.Lock()
	defer a.mutex.Unlock()
	s := a.at[place]
	if s == nil {
		s = &shower{place: place, times: times, rests: times.rest}
		a.at[place] = s
		go s.goOn()
	}
	s.held, added.shower = append(s.held, added), s
	return added
}

// remove has a lock be shown no more, if it is shown, soon.
func (a *allShowers) remove(removed *shown) {
	if removed == nil {
		return
	}
	a.mutex.Lock()
	defer a.mutex.Unlock()
	s := removed.shower
	for place, each := range s.held {
		if each == removed {
			s.held = append(s.held[:place], s.held[place+1:]...)
			break
		}
	}
	if removed.isDue {
		s.gone = append(s.gone, removed)
	}
}

// change gives what is held there for long enough, and what is so no more since it was asked last, and tells whether
// nothing is held any more: then it is over.
func (a *allShowers) change(s *shower) (due, gone []*shown, isOver bool) {
	a.mutex.Lock()
	defer a.mutex.Unlock()
	for _, each := range s.held {
		each.isDue = each.isDue || time.Since(each.since) >= s.times.every
		if each.isDue {
			due = append(due, each)
		}
	}
	gone, s.gone = s.gone, nil
	isOver = len(s.held) == 0
	if isOver {
		delete(a.at, s.place)
	}
	return due, gone, isOver
}
