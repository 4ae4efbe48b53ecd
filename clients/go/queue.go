package cinoweta

import (
	"bufio"
	"context"
	"fmt"
	"net"
	"os"
	"strconv"
	"strings"
	"sync"
	"time"
)

const (
	// So often who waits in line asks whether the beacon is there.
	askEvery = time.Second
	// So long who is not the first gives the first one to come to lead.
	grace = 200 * time.Millisecond
)

// A place is one in line at the beacon of a bid.
type place struct {
	bid  int
	conn net.Conn
	// What the beacon tells, a line each, until the connection ends; over is closed once nobody takes it any more.
	told chan string
	over chan struct{}
	// The place that was told last, who comes next where that was told with it, when was asked last, since when an answer is
	// missing, if one is, and whether it did not come for as long as it was waited for.
	number, next     int
	isNext, isSilent bool
	asked, missed    time.Time
}

// newPlace gives the place in line at the beacon of this bid that is told within so long for a line; nil where none is.
func newPlace(ctx context.Context, bid int, line string, limit time.Duration) *place {
	ctx, cancel := context.WithTimeout(ctx, limit)
	defer cancel()
	conn, err := dialBeacon(ctx, bid, limit)
	if err != nil {
		return nil
	}
	now := time.Now()
	made := &place{bid: bid, conn: conn, told: make(chan string), over: make(chan struct{}), asked: now, missed: now}
	go made.read()
	if made.send(line) {
		select {
		case told := <-made.told:
			made.next, made.isNext = made.hear(told)
		case <-ctx.Done():
		}
	}
	if made.number == 0 && !made.isNext {
		made.leave()
		return nil
	}
	return made
}

// read takes what the beacon tells.
func (p *place) read() {
	defer close(p.told)
	for lines := bufio.NewScanner(p.conn); lines.Scan(); {
		select {
		case p.told <- lines.Text():
		case <-p.over:
			return
		}
	}
}

// send sends a line, which takes no time where the beacon reads.
func (p *place) send(line string) bool {
	p.conn.SetWriteDeadline(time.Now().Add(beaconLimit))
	_, err := p.conn.Write([]byte(line + "\n"))
	return err == nil
}

// leave gives the place up.
func (p *place) leave() {
	close(p.over)
	p.conn.Close()
}

// hear takes a line of the beacon. It gives the bid of who comes next where that is told: its own holder's is 0, as the
// first one's is.
func (p *place) hear(line string) (next int, isNext bool) {
	word, behind, _ := strings.Cut(line, " ")
	number, err := strconv.ParseUint(behind, 10, 31)
	switch {
	case line == "turn":
		return 0, true
	case word == "after" && err == nil:
		return int(number), true
	case word == "place" && err == nil:
		p.number = int(number)
	}
	p.missed = time.Time{}
	return 0, false
}

// await waits in line until it is told who comes next: 0 where that is who waits. Else nobody is told: where the
// connection ended, no answer came for so long, or the context is over.
func (p *place) await(ctx context.Context, patience time.Duration) (next int, isNext bool) {
	for !p.isNext {
		wait := time.Until(p.asked.Add(askEvery))
		if !p.missed.IsZero() {
			wait = time.Until(p.missed.Add(patience))
		}
		timer := time.NewTimer(wait)
		select {
		case line, isTold := <-p.told:
			if p.next, p.isNext = p.hear(line); !isTold {
				timer.Stop()
				return 0, false
			}
		case <-timer.C:
			if !p.missed.IsZero() {
				// Where this process was paused it may have come, and is not read yet.
				p.isSilent = time.Since(p.missed) < patience+earlyEnd
				return 0, false
			}
			if !p.send(strconv.Itoa(p.bid)) {
				return 0, false
			}
			p.asked, p.missed = time.Now(), time.Now()
		case <-ctx.Done():
			timer.Stop()
			return 0, false
		}
		timer.Stop()
	}
	return p.next, true
}

// A queue is who waits for a lock on one host, since so many milliseconds of the Unix clock: in line at the beacon of one
// bid at a time.
type queue struct {
	own      int
	text     string
	patience time.Duration
	since    int64
	place    *place
}

// leave gives its place up.
func (q *queue) leave() {
	if q.place != nil {
		q.place.leave()
		q.place = nil
	}
}

// enter has it be in line at the beacon of this bid. False where that knows no line, or does not answer.
func (q *queue) enter(ctx context.Context, bid int) bool {
	if q.place != nil && q.place.bid == bid {
		return true
	}
	q.leave()
	line := fmt.Sprintf("wait %d %d %d %d %s", bid, q.own, q.since, os.Getpid(), q.text)
	q.place = newPlace(ctx, bid, line, atMost(beaconLimit, q.patience))
	return q.place != nil
}

// stay waits in line at the beacon of this bid until its holder is gone, or the context is over: false then. Where the
// holder resigned and another one comes next, it waits in line there.
func (q *queue) stay(ctx context.Context, bid int) bool {
	for ctx.Err() == nil {
		if !q.enter(ctx, bid) {
			// Without a line it is asked once a second.
			if !isThere(ctx, bid, q.patience) && ended(ctx) == nil {
				return true
			}
			sleep(ctx, longestPause)
			continue
		}
		next, isNext := q.place.await(ctx, q.patience)
		number, limit := q.place.number, q.patience
		if q.place.isSilent {
			// It was waited for as long already.
			limit = earlyEnd
		}
		if ctx.Err() != nil {
			return false
		}
		q.leave()
		if isNext {
			q.follow(ctx, next, time.Now().Add(grace))
			return true
		}
		if !isThere(ctx, bid, limit) && ended(ctx) == nil {
			q.letPass(ctx, number)
			return true
		}
	}
	return false
}

// letPass gives who was first in line of a holder that is gone the time to come to lead.
func (q *queue) letPass(ctx context.Context, number int) {
	if number > 1 {
		sleep(ctx, grace)
	}
}

// follow waits until then in line at the beacon of who comes next, so that it comes to lead; not where nobody is named.
func (q *queue) follow(ctx context.Context, next int, until time.Time) {
	waits, cancel := context.WithDeadline(ctx, until)
	defer cancel()
	for next != 0 && waits.Err() == nil {
		if !q.enter(waits, next) {
			<-waits.Done()
			return
		}
		behind, isNext := q.place.await(waits, q.patience)
		if waits.Err() != nil {
			return
		}
		q.leave()
		if next = behind; !isNext {
			<-waits.Done()
		}
	}
}

// The handed locks are those of a ring that this process gave back a moment ago, by group.
type handed struct {
	mutex sync.Mutex
	turns map[string]handover
}

// A handover leaves the turn until then to who comes next, whose bid is 0 where nobody is named.
type handover struct {
	next  int
	until time.Time
}

// put has a lock be given back now.
func (h *handed) put(group string, next int) {
	h.mutex.Lock()
	defer h.mutex.Unlock()
	if h.turns == nil {
		h.turns = map[string]handover{}
	}
	for group, turn := range h.turns {
		if time.Now().After(turn.until) {
			delete(h.turns, group)
		}
	}
	h.turns[group] = handover{next, time.Now().Add(grace)}
}

// take gives whose turn it is.
func (h *handed) take(group string) handover {
	h.mutex.Lock()
	defer h.mutex.Unlock()
	next := h.turns[group]
	delete(h.turns, group)
	return next
}
