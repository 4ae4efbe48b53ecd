package cinoweta

import (
	"context"
	"errors"
	"fmt"
	"net"
	"strings"
	"sync"
	"sync/atomic"
	"syscall"
	"testing"
	"time"

	"cinoweta/internal/trial"
)

func TestAnotherNodeIsAskedWhereOneDoesNotAnswer(t *testing.T) {
	ring, nodes := beside(t, deaf, newVotes().answer)
	_, isKnown, err := ring.Latest(background(t), "red", AnyNode)
	must(t, err)
	same(t, isKnown, false)
	same(t, []int{len(nodes[0].lines("")), len(nodes[1].lines(""))}, []int{1, 1})
}

func TestAStandStaysWithItsNode(t *testing.T) {
	ring, nodes := beside(t, deaf, newVotes().answer)
	ring.Timeout = 500 * time.Millisecond
	as[*NoAnswerError](t, ring.Stand(background(t), "red", 5, 10, 1))
	same(t, len(nodes[1].lines("")), 0)
}

func TestAQuestionIsAskedForNoLongerThanItsTimeout(t *testing.T) {
	trial.Tried(t, testAQuestionIsAskedForNoLongerThanItsTimeout)
}

func testAQuestionIsAskedForNoLongerThanItsTimeout(t *testing.T) {
	ring, nodes := beside(t, deaf, deaf)
	ring.Timeout = 1500 * time.Millisecond
	asks := func(answer answer, place int) {
		t.Helper()
		nodes[0].is(answer)
		nodes[1].is(answer)
		before := time.Now()
		_, _, err := ring.Latest(background(t), "red", place)
		as[*NoAnswerError](t, err)
		took := time.Since(before)
		trial.Took(t, took, 1400*time.Millisecond, 1900*time.Millisecond)
	}
	silent := never(t)
	asks(silent, 1)
	// The first one ends the session late.
	for _, place := range []int{1, AnyNode} {
		var count atomic.Int32
		asks(func(line string) (string, bool) {
			if count.Add(1) == 1 {
				time.Sleep(time.Second)
				return "", false
			}
			return silent(line)
		}, place)
	}
}

func TestAConnectionThatComesLateLeavesLessForTheAnswer(t *testing.T) {
	trial.Tried(t, testAConnectionThatComesLateLeavesLessForTheAnswer)
}

func testAConnectionThatComesLateLeavesLessForTheAnswer(t *testing.T) {
	leavesNone(t)
	listener, err := net.Listen("tcp", address(ownHost, 0))
	must(t, err)
	defer listener.Close()
	raw, err := listener.(*net.TCPListener).SyscallConn()
	must(t, err)
	// One connection waits to be accepted, and no other one. Who comes then is heard a second later.
	must(t, raw.Control(func(descriptor uintptr) { err = syscall.Listen(int(descriptor), 0) }))
	must(t, err)
	waits, err := net.Dial("tcp", listener.Addr().String())
	must(t, err)
	defer waits.Close()
	time.AfterFunc(300*time.Millisecond, func() {
		if conn, err := listener.Accept(); err == nil {
			conn.Close()
		}
	})
	ring, before := newRing(listener.Addr().(*net.TCPAddr).Port, 2), time.Now()
	ring.Timeout = 1500 * time.Millisecond
	_, _, err = ring.Latest(background(t), "red", 1)
	as[*NoAnswerError](t, err)
	took := time.Since(before)
	trial.Took(t, took, 1400*time.Millisecond, 1900*time.Millisecond)
}

func TestAlreadyIsOfAnotherProcess(t *testing.T) {
	ring, _ := beside(t, newVotes().answer, deaf)
	must(t, ring.Stand(background(t), "red", 5, 10, 1))
	is(t, ring.Stand(background(t), "red", 5, 10, 1), ErrAlreadyStands)
}

func TestAlreadyCountsAfterNoAnswerOfTheSameNode(t *testing.T) {
	ring, _ := beside(t, first("", "no 3 already 10", "no 3 already 11"), first("no 3 already 10"))
	must(t, ring.Stand(background(t), "red", 5, 10, 1))
	is(t, ring.Stand(background(t), "red", 5, 10, 1), ErrAlreadyStands)
	is(t, ring.Stand(background(t), "red", 5, 10, 2), ErrAlreadyStands)
}

func TestAlreadyCountsWhereTheDeviceFailed(t *testing.T) {
	for fault, cause := range map[string]Refusal{"no 9 failed": ErrNodeFailed, "no 15 device 1": ErrDeviceFailed} {
		ring, _ := beside(t, first(fault, "no 3 already 11", "no 3 already 10"), first("no 3 already 10"))
		is(t, ring.Stand(background(t), "red", 5, 10, 1), cause)
		is(t, ring.Stand(background(t), "red", 5, 10, 1), ErrAlreadyStands)
		is(t, ring.Stand(background(t), "red", 5, 10, 2), ErrAlreadyStands)
		must(t, ring.Stand(background(t), "red", 5, 10, 1))
	}
	ring, _ := beside(t, first("no 7 full", "no 3 already 10"), deaf)
	is(t, ring.Stand(background(t), "red", 5, 10, 1), ErrFull)
	is(t, ring.Stand(background(t), "red", 5, 10, 1), ErrAlreadyStands)
}

func TestAStandThatItsContextEndedMayBeAccepted(t *testing.T) {
	votes := newVotes()
	ring, nodes := beside(t, func(line string) (string, bool) {
		told, isTold := votes.answer(line)
		time.Sleep(300 * time.Millisecond)
		return told, isTold
	}, deaf)
	ctx, cancel := context.WithTimeout(background(t), 100*time.Millisecond)
	defer cancel()
	err := ring.Stand(ctx, "red", 5, 10, 1)
	as[*NoAnswerError](t, err)
	is(t, err, context.DeadlineExceeded)
	nodes[0].is(votes.answer)
	must(t, ring.Stand(background(t), "red", 5, 10, 1))
}

func TestWhatIsRememberedIsBounded(t *testing.T) {
	var known unanswered
	for term := 1; term < 1_100; term++ {
		known.add(stood{1, fmt.Sprint(term)})
		known.add(stood{1, fmt.Sprint(term)})
	}
	same(t, len(known.stands), 1_024)
	for sent, isKnown := range map[stood]bool{{1, "75"}: false, {1, "76"}: true, {2, "76"}: false} {
		same(t, known.has(sent), isKnown)
	}
}

func TestALateAnswerIsNotThatOfAnotherLine(t *testing.T) {
	ring, _ := beside(t, func(line string) (string, bool) {
		if line == "latest red" {
			time.Sleep(300 * time.Millisecond)
			return "term 5 leader 1 10", true
		}
		return "none", true
	}, deaf)
	ring.Timeout = 100 * time.Millisecond
	_, _, err := ring.Latest(background(t), "red", 1)
	as[*NoAnswerError](t, err)
	time.Sleep(400 * time.Millisecond)
	ring.Timeout = 3 * time.Second
	_, isKnown, err := ring.Latest(background(t), "blue", 1)
	must(t, err)
	same(t, isKnown, false)
}

func TestAQuestionThatWasLeftEndsItsSession(t *testing.T) {
	trial.Tried(t, testAQuestionThatWasLeftEndsItsSession)
}

func testAQuestionThatWasLeftEndsItsSession(t *testing.T) {
	ring, nodes := beside(t, always("none"), deaf)
	_, _, err := ring.Latest(background(t), "blue", 1)
	must(t, err)
	nodes[0].is(never(t))
	ctx, cancel := context.WithCancel(background(t))
	time.AfterFunc(50*time.Millisecond, cancel)
	before := time.Now()
	_, _, err = ring.Latest(ctx, "red", 1)
	as[*NoAnswerError](t, err)
	is(t, err, context.Canceled)
	trial.Took(t, time.Since(before), 0, 2*time.Second)
	same(t, ring.session == nil, true)
	nodes[0].is(always("none"))
	_, isKnown, err := ring.Latest(background(t), "blue", 1)
	must(t, err)
	same(t, isKnown, false)
}

func TestASessionIsEndedOnceNothingIsAskedOverIt(t *testing.T) {
	ring, nodes := beside(t, newVotes().answer, deaf)
	for begun := time.Now(); time.Since(begun) < 1500*time.Millisecond; {
		_, _, err := ring.Latest(background(t), "red", 1)
		must(t, err)
	}
	same(t, nodes[0].sessions(), 1)
	until(t, "the end of its session", func() bool {
		ring.take(background(t))
		defer ring.give()
		return ring.session == nil
	})
	_, _, err := ring.Latest(background(t), "red", 1)
	must(t, err)
	same(t, nodes[0].sessions(), 2)
}

func TestOneWaitsForTheOtherUntilItsContextEnds(t *testing.T) {
	trial.Tried(t, testOneWaitsForTheOtherUntilItsContextEnds)
}

func testOneWaitsForTheOtherUntilItsContextEnds(t *testing.T) {
	ring, nodes := beside(t, always("none"), deaf)
	var asks sync.WaitGroup
	for range make([]struct{}, 20) {
		asks.Add(1)
		go func() {
			defer asks.Done()
			if _, _, err := ring.Latest(context.Background(), "red", 1); err != nil {
				t.Error(err)
			}
		}()
	}
	asks.Wait()
	nodes[0].is(never(t))
	asks.Add(1)
	left, leave := context.WithCancel(background(t))
	go func() {
		defer asks.Done()
		ring.Latest(left, "red", 1)
	}()
	until(t, "the question", func() bool { return len(nodes[0].lines("")) == 21 })
	ctx, cancel := context.WithTimeout(background(t), 50*time.Millisecond)
	defer cancel()
	before := time.Now()
	_, _, err := ring.Latest(ctx, "red", 1)
	is(t, err, context.DeadlineExceeded)
	trial.Took(t, time.Since(before), 0, 2*time.Second)
	leave()
	asks.Wait()
}

func TestAnswersThatAreNone(t *testing.T) {
	for _, told := range []string{"stood", "leader 1 x", "HTTP/1.1 400", "term 1 leader 1", "term 1 leader 1 99999999999"} {
		ring, _ := beside(t, always(told), deaf)
		_, _, err := ring.Latest(background(t), "red", AnyNode)
		as[*WrongRingError](t, err)
	}
	for _, told := range []string{strings.Repeat("x", 10_000_000), strings.Repeat("x", 256), "none\nnone"} {
		ring, _ := beside(t, always(told), always(told))
		ring.Timeout = 300 * time.Millisecond
		_, _, err := ring.Latest(background(t), "red", AnyNode)
		as[*NoAnswerError](t, err)
	}
}

func TestWho(t *testing.T) {
	ring, _ := beside(t, newVotes().lead(9, 2, 5).answer, deaf)
	leader, isKnown, err := ring.Who(background(t), "red", 9, 1)
	must(t, err)
	same(t, leader, Leader{2, 5})
	same(t, isKnown, true)
	_, isKnown, err = ring.Who(background(t), "red", 8, 1)
	must(t, err)
	same(t, isKnown, false)
}

func TestANodeRetires(t *testing.T) {
	ring, nodes := beside(t, deaf, newVotes().lead(9, 1, 5).answer)
	_, err := ring.Retire(background(t), "red", 10, 2)
	is(t, err, ErrUndecided)
	// What it gave up already is given up.
	for _, step := range [][2]int{{8, 8}, {8, 8}, {3, 8}, {9, 9}} {
		floor, err := ring.Retire(background(t), "red", step[0], 2)
		must(t, err)
		same(t, floor, step[1])
	}
	_, _, err = ring.Who(background(t), "red", 8, 2)
	is(t, err, ErrRetired)
	same(t, as[*RefusedError](t, err).Floor(), 9)
	same(t, err, "cinoweta: no 23 retired 9")
	same(t, len(nodes[0].lines("")), 0)
}

func TestARetireThatGotNoAnswerIsAskedAgain(t *testing.T) {
	ring, nodes := beside(t, first("", "no 23 retired 5"), deaf)
	floor, err := ring.Retire(background(t), "red", 5, 1)
	must(t, err)
	same(t, floor, 5)
	same(t, nodes[0].lines(""), []string{"retire red 5", "retire red 5"})
}

func TestWhatIsNoAnswerToARetire(t *testing.T) {
	ring, _ := beside(t, first("no 23 retired 4", "no 23 gone", "no 25 line", "stood"), deaf)
	for _, cause := range []Refusal{ErrRetired, ErrRetired, ErrBadLine} {
		_, err := ring.Retire(background(t), "red", 5, 1)
		is(t, err, cause)
	}
	_, err := ring.Retire(background(t), "red", 5, 1)
	as[*WrongRingError](t, err)
}

func TestEachRefusalIsOfItsKind(t *testing.T) {
	causes := map[int]Refusal{1: ErrBadName, 2: ErrBadNumber, 3: ErrAlreadyStands, 4: ErrLate, 5: ErrStale,
		6: ErrLimitReached, 7: ErrFull, 8: ErrOutOfMemory, 9: ErrNodeFailed, 15: ErrDeviceFailed, 23: ErrRetired,
		25: ErrBadLine, 26: ErrUndecided, 28: ErrTooFar, 99: 99}
	for number := range causes {
		told := fmt.Sprintf("no %d some text", number)
		ring, _ := beside(t, always(told), deaf)
		err := ring.Stand(background(t), "red", 5, 10, 1)
		for other, cause := range causes {
			same(t, errors.Is(err, cause), number == other)
		}
		same(t, *as[*RefusedError](t, err), RefusedError{Refusal(number), "some text"})
		same(t, strings.HasPrefix(err.Error(), "cinoweta: "+told), true)
		// What to do stands behind where no other sentence of the package says it.
		same(t, err.Error() == "cinoweta: "+told, number != 28)
	}
	same(t, (&RefusedError{ErrTooFar, "far 9"}).Farthest(), 9)
	for _, fault := range []*RefusedError{{ErrStale, "far 9"}, {ErrTooFar, "far"}, {ErrTooFar, "far x"}} {
		same(t, fault.Farthest(), 0)
	}
	for _, fault := range []*RefusedError{{ErrStale, "retired 9"}, {ErrRetired, "retired"}, {ErrRetired, "retired x"}} {
		same(t, fault.Floor(), 0)
	}
	for _, none := range []string{"none", "no 5", "no x stale", "no -5 stale", "nope 5 stale"} {
		same(t, refusal(none) == nil, true)
	}
}

func TestPorts(t *testing.T) {
	ring, err := ParseRing("7101-7103")
	must(t, err)
	same(t, []int{ring.first, ring.Nodes()}, []int{7101, 3})
	for _, ports := range []string{"7101", "7103-7101", "7101-7101", "7101-7117", "0-2", "65535-65536", "a-b", "",
		"7101-7103 ", "7101-7103\n"} {
		_, err := ParseRing(ports)
		as[*WrongRingError](t, err)
	}
}

func TestRingFromEnv(t *testing.T) {
	for _, row := range []struct {
		ring, status string
		wanted       int
	}{{"7101-7103", "", 0}, {"7101-7103", "7100", 7100}, {"7101-7103", "x", -1}, {"", "7100", -1},
		{"7101-7103", "127.0.0.1:7100", 7100}, {"ring.example:7101-7103", "ring.example:7100", 7100},
		{"7101-7103", "10.0.0.5:7100", -1}, {"7101-7103", ":7100", -1},
		{"localhost:7101-7103", "localhost:7100", 7100}, {"localhost:7101-7103", "127.0.0.1:7100", 7100},
		{"7101-7103", "localhost:7100", 7100}, {"localhost:7101-7103", "7100", 7100}, {"LocalHost:7101-7103", "localhost:7100", 7100},
		{"[fd00::5]:7101-7103", "[FD00:0::5]:7100", 7100}, {"[fd00::5]:7101-7103", "[fd00::6]:7100", -1},
		{"localhost:7101-7103", "ring.example:7100", -1}, {"ring.example:7101-7103", "other.example:7100", -1},
		{"7101-7103", "0", -1}, {"7101-7103", "127.0.0.1:0", -1}, {"7101-7103", "65535", 65_535}, {"7101-7103", "65536", -1},
		{"7101-7103", "007100", -1}, {"7101-7103", "+7100", -1}, {"7101-7103", "7100 ", -1}, {"7101-7103", "127.0.0.1", -1},
		{"7101-7103", "127.0.0.1:", -1}, {"7101-7103", "::7100", -1}, {"[fd00::5]:7101-7103", "fd00::5:7100", -1},
		{"7101-7103", "[127.0.0.1]:7100", -1}} {
		t.Setenv("CINOWETA_RING", row.ring)
		t.Setenv("CINOWETA_STATUS", row.status)
		ring, err := RingFromEnv()
		if row.wanted < 0 {
			as[*WrongRingError](t, err)
			continue
		}
		must(t, err)
		same(t, []int{ring.first, ring.Nodes(), ring.Status}, []int{7101, 3, row.wanted})
	}
}

func TestTheStatusPortOfARing(t *testing.T) {
	ring, err := NewRing(7101, 7103)
	must(t, err)
	same(t, ring.SetStatus("10.0.0.5:7100"), "cinoweta: 10.0.0.5:7100: the ring is one of 127.0.0.1")
	same(t, as[*WrongRingError](t, ring.SetStatus("")).Text, `"": a port is told as 7100, or as 10.0.0.5:7100`)
	same(t, ring.Status, 0)
	must(t, ring.SetStatus("7100"))
	ring.Host = "fd00::5"
	must(t, ring.SetStatus("[fd00::5]:7200"))
	as[*WrongRingError](t, ring.SetStatus("[fd00::6]:7300"))
	same(t, ring.Status, 7200)
}

func TestLinesThatAreNone(t *testing.T) {
	ring, nodes := beside(t, newVotes().answer, deaf)
	if _, _, err := ring.Latest(background(t), "red\nstand red 1 1", AnyNode); err == nil {
		t.Fatal("two lines are asked")
	}
	for _, node := range []int{-1, AnyNode, 3} {
		if err := ring.Stand(background(t), "red", 1, 1, node); err == nil || isNoAnswer(err) {
			t.Fatalf("node %d is asked", node)
		}
	}
	const wanted = "cinoweta: there is no node 9: the ring has the nodes 1 to 2"
	same(t, ring.Stand(background(t), "red", 1, 1, 9), wanted)
	_, err := ring.Campaign(background(t), "red", CampaignOptions{Node: 9})
	same(t, err, wanted)
	same(t, len(nodes[0].lines("")), 0)
}

func TestARingThatNothingMadeIsNone(t *testing.T) {
	ring := &Ring{Status: 1}
	_, _, latest := ring.Latest(background(t), "red", AnyNode)
	_, campaign := ring.Campaign(background(t), "red", CampaignOptions{})
	_, watch := ring.Watch("red", 0).Next(background(t))
	_, _, holder := ring.Holder(background(t), "red", 0)
	lock := NewLock(ring, "red", LockOptions{})
	lock.Resign()
	_, lost := lock.IsLost(background(t))
	must(t, lost)
	run := lock.Run(background(t), func(context.Context, int) error { return nil })
	for _, err := range []error{ring.Stand(background(t), "red", 1, 1, 1), latest, campaign, watch, holder,
		lock.Acquire(background(t)), lock.TryAcquire(background(t)), run} {
		same(t, as[*WrongRingError](t, err).Text, "a Ring is made by NewRing, ParseRing or RingFromEnv")
	}
	must(t, ring.Close())
}
