package cinoweta

import (
	"context"
	"encoding/json"
	"fmt"
	"net/http"
	"strings"
	"sync/atomic"
	"syscall"
	"testing"
	"time"

	"cinoweta/internal/trial"
)

// A doorTeller tells of `red` as a teller does, and of so many doors of each node, of which so many serve others.
type doorTeller struct {
	*teller
	others, looks atomic.Int64
	doors         int64
}

func (d *doorTeller) ServeHTTP(writer http.ResponseWriter, request *http.Request) {
	if request.URL.Path != "/status" {
		d.teller.ServeHTTP(writer, request)
		return
	}
	d.looks.Add(1)
	told := RingStatus{Nodes: []NodeStatus{}}
	for place, node := range d.nodes {
		busy := d.others.Load() + int64(len(node.present()))
		sessions := SessionsStatus{Busy: busy, Doors: d.doors}
		told.Nodes = append(told.Nodes, NodeStatus{Node: place + 1, Sessions: sessions})
	}
	json.NewEncoder(writer).Encode(told)
}

// showing gives a ring of two nodes with four doors each, which is told of at this host.
func showing(t *testing.T, host string) (*Ring, []*node, *votes, *doorTeller) {
	votes := newVotes()
	ring, nodes := besideAt(t, host, tellable(votes.at(1)), tellable(votes.at(2)))
	for _, node := range nodes {
		node.takesResigns = true
	}
	told := &doorTeller{teller: &teller{votes: votes, nodes: nodes}, doors: 4}
	ring.Status = statusAt(t, host, told)
	return ring, nodes, votes, told
}

// tellable are the same answers of a node that is told what holders tell.
func tellable(own answer) answer {
	return func(line string) (string, bool) {
		if strings.HasPrefix(line, "tell ") {
			return "told", true
		}
		return own(line)
	}
}

// shownOf gives a lock that is shown within moments.
func shownOf(t *testing.T, ring *Ring, group, text string) *Lock {
	t.Helper()
	lock := NewLock(ring, group, LockOptions{Patience: 500 * time.Millisecond, Text: text})
	lock.showing = showTimes{20 * time.Millisecond, 20 * time.Millisecond, 10 * time.Millisecond}
	t.Cleanup(lock.Resign)
	return lock
}

// isShown tells whether who leads for `red` is present by its own node.
func isShown(nodes []*node, votes *votes) bool {
	led := votes.led()
	return led.Term > 0 && nodes[led.Leader.Node-1].isPresent("red", led)
}

// countShowers is how many showers there are.
func countShowers() int {
	showers.mutex.Lock()
	defer showers.mutex.Unlock()
	return len(showers.at)
}

func TestALockOnOneHostIsShownWhileItIsHeld(t *testing.T) {
	ring, nodes, votes, _ := showing(t, "")
	lock := shownOf(t, ring, "red", "a worker, b")
	must(t, lock.Acquire(background(t)))
	led := votes.led()
	node := nodes[led.Leader.Node-1]
	// Its session is not silent, and what it tells does not count.
	until(t, "what it tells", func() bool { return len(node.lines("tell red a worker, b")) > 3 })
	same(t, []any{isShown(nodes, votes), holds(t, lock), len(node.present())}, []any{true, true, 1})
	_, sight, err := leaderOf(background(t), "", ring.Status, "red", led.Leader.Node)
	must(t, err)
	same(t, sight, "{isPresent:true hasResigned:false text:a worker, b}")
	stand := fmt.Sprintf("stand red 1 %d", led.Leader.Bid)
	same(t, node.lines("stand"), []string{stand, stand})
	lock.Resign()
	until(t, "its end", func() bool { return !isShown(nodes, votes) && countShowers() == 0 })
	same(t, node.lines("resign"), "[resign red 1]")
	// And without a text.
	must(t, shownOf(t, ring, "red", "").Acquire(background(t)))
	until(t, "the next one", func() bool { return votes.led().Term == 2 && isShown(nodes, votes) })
}

func TestALockThatIsGivenBackSoonIsNeverShown(t *testing.T) {
	ring, nodes, _, told := showing(t, "")
	lock := shownOf(t, ring, "red", "a worker")
	lock.showing.every = time.Second
	for term := 1; term <= 5; term++ {
		must(t, lock.Acquire(background(t)))
		lock.Resign()
	}
	// The goroutine comes by while the next one is held, though not for a second.
	time.Sleep(600 * time.Millisecond)
	must(t, lock.Acquire(background(t)))
	time.Sleep(700 * time.Millisecond)
	lock.Resign()
	until(t, "their end", func() bool { return countShowers() == 0 })
	for begin, wanted := range map[string]int{"stand": 6, "tell": 0, "resign": 0} {
		same(t, len(nodes[0].lines(begin))+len(nodes[1].lines(begin)), wanted)
	}
	same(t, told.looks.Load(), 0)
}

func TestWithoutTheStatusPortNobodyIsTold(t *testing.T) {
	ring, nodes, _, _ := showing(t, "")
	ring.Status = 0
	must(t, shownOf(t, ring, "red", "a worker").Acquire(background(t)))
	time.Sleep(200 * time.Millisecond)
	same(t, []int{len(nodes[0].lines("stand")) + len(nodes[1].lines("stand")), countShowers()}, []int{1, 0})
}

func TestAllLocksAtANodeAreShownInOneDoor(t *testing.T) {
	ring, nodes, told := manyShown(t)
	locks := []*Lock{}
	for number := 0; number < 130; number++ {
		lock := shownOf(t, ring, fmt.Sprintf("g%03d", number), "a worker")
		must(t, lock.Acquire(background(t)))
		locks = append(locks, lock)
	}
	until(t, "all of them", func() bool { return arePresent(nodes, locks) })
	locks[3].Resign()
	until(t, "its end", func() bool { return arePresent(nodes, append(append([]*Lock{}, locks[:3]...), locks[4:]...)) })
	// One that is given back leaves the session of the others.
	told.others.Store(0)
	must(t, locks[3].Acquire(background(t)))
	until(t, "all again", func() bool { return arePresent(nodes, locks) })
}

// manyShown gives a ring that votes for each group apart, and is told of.
func manyShown(t *testing.T) (*Ring, []*node, *doorTeller) {
	votes := &groups{votes: map[string]*votes{}}
	ring, nodes := besideAt(t, "", votes.at(1), votes.at(2))
	for _, node := range nodes {
		node.takesResigns = true
	}
	told := &doorTeller{teller: &teller{votes: newVotes(), nodes: nodes}, doors: 4}
	ring.Status = statusAt(t, "", told)
	return ring, nodes, told
}

func TestWhereNoDoorIsFreeALockIsHeldUnshown(t *testing.T) {
	ring, nodes, votes, told := showing(t, "")
	told.others.Store(3)
	lock := shownOf(t, ring, "red", "a worker")
	must(t, lock.Acquire(background(t)))
	until(t, "looks", func() bool { return told.looks.Load() > 3 })
	same(t, []any{holds(t, lock), len(nodes[0].lines("stand")) + len(nodes[1].lines("stand"))}, []any{true, 1})
	// Later it is shown, and gives its door back where others come, though not for a moment.
	for _, others := range []int64{2, 0} {
		told.others.Store(others)
		until(t, "that it is shown", func() bool { return isShown(nodes, votes) })
		looks := told.looks.Load()
		told.others.Store(3)
		until(t, "its end", func() bool { return !isShown(nodes, votes) })
		same(t, told.looks.Load() > looks+1, true)
	}
	same(t, holds(t, lock), true)
	// Where no doors are told none is taken.
	told.doors = 0
	told.others.Store(0)
	time.Sleep(200 * time.Millisecond)
	same(t, isShown(nodes, votes), false)
}

func TestALockIsShownAgainBehindAStart(t *testing.T) {
	ring, nodes, votes, _ := showing(t, "")
	must(t, shownOf(t, ring, "red", "a worker").Acquire(background(t)))
	node, own := nodes[votes.led().Leader.Node-1], tellable(votes.at(votes.led().Leader.Node))
	for _, refused := range []answer{deaf, always("no 8 memory"), always("no 9 failed")} {
		until(t, "that it is shown", func() bool { return isShown(nodes, votes) })
		node.is(deaf)
		until(t, "its end", func() bool { return !isShown(nodes, votes) })
		node.is(refused)
		time.Sleep(100 * time.Millisecond)
		same(t, isShown(nodes, votes), false)
		node.is(own)
	}
	until(t, "that it is shown again", func() bool { return isShown(nodes, votes) })
}

func TestWhoseTermIsOverIsShownNoMore(t *testing.T) {
	for _, fault := range []string{"no 4 late", "no 5 stale 2", "no 23 retired 2", "no 3 already 5"} {
		ring, nodes, votes, _ := showing(t, "")
		for place, node := range nodes {
			own, node := tellable(votes.at(place+1)), node
			node.is(func(line string) (string, bool) {
				// The first Stand elects it.
				if strings.HasPrefix(line, "stand ") && len(node.lines(line)) > 1 {
					return fault, true
				}
				return own(line)
			})
		}
		lock := shownOf(t, ring, "red", "")
		must(t, lock.Acquire(background(t)))
		node := nodes[votes.led().Leader.Node-1]
		until(t, "its Stand", func() bool { return len(node.lines("stand")) == 2 })
		time.Sleep(100 * time.Millisecond)
		same(t, []any{len(node.lines("stand")), isShown(nodes, votes)}, []any{2, false})
		lock.Resign()
	}
	ring, nodes, votes, _ := showing(t, "")
	must(t, shownOf(t, ring, "red", "a worker").Acquire(background(t)))
	until(t, "that it is shown", func() bool { return isShown(nodes, votes) })
	// The node retired it, and tells nobody.
	nodes[votes.led().Leader.Node-1].is(always("none"))
	until(t, "its end", func() bool { return !isShown(nodes, votes) })
}

func TestNobodyWaitsForWhatIsShown(t *testing.T) {
	trial.Tried(t, testNobodyWaitsForWhatIsShown)
}

func testNobodyWaitsForWhatIsShown(t *testing.T) {
	ring, nodes, votes, _ := showing(t, "")
	silent := never(t)
	for place, node := range nodes {
		own := votes.at(place + 1)
		node.is(func(line string) (string, bool) {
			if strings.HasPrefix(line, "tell ") {
				return silent(line)
			}
			return own(line)
		})
	}
	for term := 1; term <= 3; term++ {
		lock, before := shownOf(t, ring, "red", "a worker"), time.Now()
		must(t, lock.Acquire(background(t)))
		trial.Took(t, time.Since(before), 0, 2*time.Second)
		// For whose answer is waited from then on.
		until(t, "what it tells", func() bool { return len(nodes[0].lines("tell"))+len(nodes[1].lines("tell")) > 0 })
		before = time.Now()
		lock.Resign()
		trial.Took(t, time.Since(before), 0, 500*time.Millisecond)
		same(t, lock.Term(), term)
	}
}

func TestAHolderThatIsShownIsOfItsKindAllTheSame(t *testing.T) {
	ring, nodes, votes, _ := showing(t, "")
	must(t, shownOf(t, ring, "red", "a worker").Acquire(background(t)))
	until(t, "that it is shown", func() bool { return isShown(nodes, votes) })
	lock := acrossOf(t, ring, LockOptions{})
	_, _, err := lock.Holder(background(t))
	for _, err := range []error{err, lock.Acquire(background(t)), lock.TryAcquire(background(t))} {
		same(t, strings.Contains(as[*WrongRingError](t, err).Text, ": held on one host, and this client is told"), true)
	}
	holder, isHeld, err := ring.Holder(background(t), "red", 0)
	must(t, err)
	same(t, []any{isHeld, holder.Text, holder.PID > 0}, []any{true, "a worker", true})
}

func TestFromAnotherHostAHolderIsToldOfAsItIsShown(t *testing.T) {
	ring, _, votes, _ := showing(t, "0.0.0.0")
	bid := 50_000_000
	votes.stand(1, Leader{1, bid})
	// Nobody sees from there whether it is held, but where it is shown.
	_, _, err := ring.Holder(background(t), "red", time.Millisecond)
	as[*WrongRingError](t, err)
	session, err := openSession(background(t), ring.address(1), time.Second)
	must(t, err)
	defer session.close()
	_, err = session.askAll(background(t), []string{fmt.Sprintf("stand red 1 %d", bid), "tell red a worker"}, time.Second)
	must(t, err)
	holder, isHeld, err := ring.Holder(background(t), "red", 0)
	must(t, err)
	same(t, []any{isHeld, holder}, []any{true, Holder{Led{1, Leader{1, bid}}, 0, "a worker"}})
}

func TestRingdShowsALockOfOneHost(t *testing.T) {
	trial.Tried(t, testRingdShowsALockOfOneHost)
}

func testRingdShowsALockOfOneHost(t *testing.T) {
	served := serve(t, usual)
	ring := served.ring(t)
	seen := func() sight {
		known, _, err := ring.Latest(background(t), "red", AnyNode)
		must(t, err)
		_, sight, err := leaderOf(background(t), ring.Host, ring.Status, "red", known.Leader.Node)
		must(t, err)
		return sight
	}
	first := served.locker(t)
	first.tells(t, "term 1")
	until(t, "the first", func() bool { return seen() == sight{true, false, "a Go program"} })
	first.signal(t, syscall.SIGKILL)
	until(t, "its end", func() bool { return seen() == sight{} })
	lock := NewLock(ring, "red", LockOptions{Text: "a test"})
	t.Cleanup(lock.Resign)
	must(t, lock.Acquire(background(t)))
	until(t, "the second", func() bool { return seen() == sight{true, false, "a test"} })
	// Nobody waits for a ring that is away.
	must(t, served.Process.Process.Signal(syscall.SIGSTOP))
	time.Sleep(700 * time.Millisecond)
	before := time.Now()
	lock.Resign()
	trial.Took(t, time.Since(before), 0, 500*time.Millisecond)
	must(t, served.Process.Process.Signal(syscall.SIGCONT))
	until(t, "its end", func() bool { return !seen().isPresent })
	must(t, lock.Run(background(t), func(context.Context, int) error {
		until(t, "the third", func() bool { return seen() == sight{true, false, "a test"} })
		// And again behind a start.
		served.Kill()
		must(t, served.Start())
		until(t, "the third again", func() bool { return seen() == sight{true, false, "a test"} })
		return nil
	}))
	until(t, "that it resigned", func() bool { return seen() == sight{false, true, ""} })
}
