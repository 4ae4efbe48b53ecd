package cinoweta

import (
	"context"
	"errors"
	"fmt"
	"net"
	"os"
	"regexp"
	"sort"
	"strings"
	"sync"
	"sync/atomic"
	"syscall"
	"testing"
	"time"

	"cinoweta/internal/trial"
)

// lockOf gives a lock of `red`, which is given back at the end of the test.
func lockOf(t *testing.T, ring *Ring, how LockOptions) *Lock {
	t.Helper()
	if how.Patience == 0 {
		how.Patience = 500 * time.Millisecond
	}
	lock := NewLock(ring, "red", how)
	t.Cleanup(lock.Resign)
	return lock
}

// holds tells whether the lock is held.
func holds(t *testing.T, lock *Lock) bool {
	t.Helper()
	isLost, err := lock.IsLost(background(t))
	must(t, err)
	return !isLost
}

// elected gives a ring of two nodes that know the same.
func elected(t *testing.T) (*Ring, []*node, *votes) {
	votes := newVotes()
	ring, nodes := beside(t, votes.at(1), votes.at(2))
	return ring, nodes, votes
}

// tells collects what a lock tells of whom it waits for.
type tells struct {
	mutex sync.Mutex
	texts []string
}

func (s *tells) tell(text string) {
	s.mutex.Lock()
	defer s.mutex.Unlock()
	s.texts = append(s.texts, text)
}

func (s *tells) all() string {
	s.mutex.Lock()
	defer s.mutex.Unlock()
	return strings.Join(s.texts, "\n")
}

func TestALockIsHeldWhileItsWorkRuns(t *testing.T) {
	ring, _, votes := elected(t)
	lock := lockOf(t, ring, LockOptions{Text: "a worker"})
	same(t, holds(t, lock), false)
	must(t, lock.Run(background(t), func(ctx context.Context, term int) error {
		same(t, []int{term, lock.Term()}, []int{1, 1})
		same(t, []bool{holds(t, lock), isThere(ctx, votes.bid(1), time.Second)}, []bool{true, true})
		holder, isHeld, err := ring.Holder(ctx, "red", time.Second)
		must(t, err)
		same(t, isHeld, true)
		same(t, []any{holder.Term, holder.Leader.Bid, holder.PID, holder.Text}, []any{1, votes.bid(1), os.Getpid(), "a worker"})
		if lock.Acquire(ctx) == nil {
			t.Error("it is acquired twice")
		}
		return nil
	}))
	_, isHeld, err := ring.Holder(background(t), "red", time.Second)
	must(t, err)
	same(t, []bool{holds(t, lock), isThere(background(t), votes.bid(1), time.Second), isHeld}, []bool{false, false, false})
	failed := errors.New("the work failed")
	same(t, lock.Run(background(t), func(_ context.Context, term int) error {
		same(t, term, 2)
		return failed
	}), failed)
	same(t, ring.session == nil, true)
}

func TestARankIsOneDigit(t *testing.T) {
	ring, nodes, votes := elected(t)
	for _, rank := range []int{-1, 10} {
		same(t, lockOf(t, ring, LockOptions{Rank: rank}).Acquire(background(t)), "cinoweta: a lock's rank is 0 to 9")
	}
	same(t, len(nodes[0].lines(""))+len(nodes[1].lines("")), 0)
	must(t, lockOf(t, ring, LockOptions{Rank: 9}).Acquire(background(t)))
	same(t, votes.bid(1)/bidRank, 9)
}

func TestPatienceIsAboveZero(t *testing.T) {
	ring, _, _ := elected(t)
	must(t, lockOf(t, ring, LockOptions{}).Acquire(background(t)))
	for _, patience := range []time.Duration{0, -1} {
		as[*LockTakenError](t, NewLock(ring, "red", LockOptions{Patience: patience}).TryAcquire(background(t)))
		_, isHeld, err := ring.Holder(background(t), "red", patience)
		must(t, err)
		same(t, isHeld, true)
	}
}

func TestNobodyHoldsALock(t *testing.T) {
	ring, _, votes := elected(t)
	for _, bid := range []int{-1, 10, 0, 99_999_999, 999_999_999} {
		if bid >= 0 {
			votes.lead(bid+1, 1, bid)
		}
		_, isHeld, err := ring.Holder(background(t), "red", 0)
		must(t, err)
		same(t, isHeld, false)
	}
}

func TestWhoHoldsALockIsToldInTime(t *testing.T) {
	trial.Tried(t, testWhoHoldsALockIsToldInTime)
}

func testWhoHoldsALockIsToldInTime(t *testing.T) {
	ring, _, votes := elected(t)
	must(t, lockOf(t, ring, LockOptions{Text: "nightly"}).Acquire(background(t)))
	other := lockOf(t, ring, LockOptions{})
	acquires := map[time.Duration]func(context.Context) error{0: other.TryAcquire, 300 * time.Millisecond: other.Acquire}
	for wait, acquire := range acquires {
		before := time.Now()
		ctx, cancel := context.WithTimeout(background(t), wait)
		if wait == 0 {
			ctx = background(t)
		}
		err := acquire(ctx)
		cancel()
		taken := as[*LockTakenError](t, err)
		same(t, []any{taken.Group, taken.Holder.PID, taken.Holder.Term}, []any{"red", os.Getpid(), 1})
		wanted := fmt.Sprintf(`^cinoweta: red: held by process %d \(nightly\), which leads at node \d in term 1$`, os.Getpid())
		same(t, regexp.MustCompile(wanted).MatchString(err.Error()), true)
		same(t, errors.Is(err, context.DeadlineExceeded), wait > 0)
		same(t, errors.Is(err, context.Canceled), false)
		took := time.Since(before)
		trial.Took(t, took, wait, wait+time.Second)
	}
	same(t, len(votes.stood), 1)
	same(t, holds(t, other), false)
}

func TestALockIsTakenOnceTheHolderResigns(t *testing.T) {
	ring, _, _ := elected(t)
	holder, told := lockOf(t, ring, LockOptions{}), tells{}
	must(t, holder.Acquire(background(t)))
	time.AfterFunc(300*time.Millisecond, holder.Resign)
	second := lockOf(t, ring, LockOptions{Tell: func(text string) {
		told.tell(text)
		// Who waits holds no door.
		same(t, ring.session == nil, true)
	}})
	must(t, second.Acquire(background(t)))
	same(t, second.Term(), 2)
	wanted := fmt.Sprintf(`^waits for process %d, which leads at node \d in term 1$`, os.Getpid())
	same(t, regexp.MustCompile(wanted).MatchString(told.all()), true)
}

func TestALeaderThatHoldsNoLockIsGone(t *testing.T) {
	ring, _, votes := elected(t)
	// Nobody is at the port of this bid.
	votes.lead(20, 2, 0)
	lock := lockOf(t, ring, LockOptions{Keep: 3})
	must(t, lock.Acquire(background(t)))
	same(t, lock.Term(), 21)
	until(t, "the floor", func() bool { return votes.retired() == 18 })
}

func TestRetiresAreWaitedFor(t *testing.T) {
	trial.Tried(t, testRetiresAreWaitedFor)
}

func testRetiresAreWaitedFor(t *testing.T) {
	ring, nodes, votes := elected(t)
	votes.lead(20, 1, 10)
	lock := lockOf(t, ring, LockOptions{})
	// It was not acquired yet.
	lock.AwaitRetires(background(t))
	for place, node := range nodes {
		at := votes.at(place + 1)
		node.is(func(line string) (string, bool) {
			if strings.HasPrefix(line, "retire") {
				time.Sleep(200 * time.Millisecond)
			}
			return at(line)
		})
	}
	must(t, lock.Acquire(background(t)))
	lock.Resign()
	begun := time.Now()
	ctx, cancel := context.WithTimeout(background(t), 50*time.Millisecond)
	defer cancel()
	lock.AwaitRetires(ctx)
	trial.Took(t, time.Since(begun), 0, 200*time.Millisecond)
	lock.AwaitRetires(background(t))
	same(t, [][]string{nodes[0].lines("retire"), nodes[1].lines("retire")}, [][]string{{"retire red 19"}, {"retire red 19"}})
	same(t, time.Since(begun) >= 300*time.Millisecond, true)
}

func TestALockIsHeldWhereNodesDoNotRetire(t *testing.T) {
	votes := newVotes().lead(20, 2, 0)
	answer := func(line string) (string, bool) {
		if strings.HasPrefix(line, "retire") {
			return "no 7 full", true
		}
		return votes.answer(line)
	}
	ring, _ := beside(t, answer, func(line string) (string, bool) {
		if strings.HasPrefix(line, "retire") {
			return answer(line)
		}
		return votes.at(2)(line)
	})
	lock := lockOf(t, ring, LockOptions{})
	must(t, lock.Acquire(background(t)))
	same(t, []any{lock.Term(), holds(t, lock), votes.retired()}, []any{21, true, 0})
}

func TestARingThatIsAwayIsWaitedFor(t *testing.T) {
	// The first line asks who leads, the second one stands, the third one asks again.
	for _, from := range []int{2, 3} {
		from := from
		ring, nodes, votes := elected(t)
		ring.Timeout = 100 * time.Millisecond
		var lines atomic.Int32
		for place, node := range nodes {
			own := votes.at(place + 1)
			node.is(func(line string) (string, bool) {
				told, _ := own(line)
				number := int(lines.Add(1))
				return told, number < from || number >= 12
			})
		}
		told := tells{}
		lock := lockOf(t, ring, LockOptions{Tell: told.tell})
		must(t, lock.Acquire(background(t)))
		same(t, []any{lock.Term(), holds(t, lock), len(votes.stood)}, []any{1, true, 1})
		same(t, strings.HasPrefix(told.all(), "waits for the ring"), true)
	}
}

func TestARingThatNeverAnsweredIsWaitedFor(t *testing.T) {
	votes, told := newVotes(), tells{}
	ring, nodes := beside(t, deaf, deaf)
	ring.Timeout = 100 * time.Millisecond
	lock := lockOf(t, ring, LockOptions{Tell: told.tell})
	as[*NoAnswerError](t, lock.TryAcquire(background(t)))
	same(t, []any{lock.sign == nil, told.all()}, []any{true, ""})
	time.AfterFunc(500*time.Millisecond, func() {
		nodes[0].is(votes.at(1))
		nodes[1].is(votes.at(2))
	})
	must(t, lock.Acquire(background(t)))
	same(t, []any{lock.Term(), strings.HasPrefix(told.all(), "waits for the ring: cinoweta: no answer of ")}, []any{1, true})
}

func TestWhoTakesALockAgainWaitsForARingThatIsAway(t *testing.T) {
	ring, nodes, votes := elected(t)
	ring.Timeout = 100 * time.Millisecond
	lock := lockOf(t, ring, LockOptions{})
	must(t, lock.Acquire(background(t)))
	lock.Resign()
	for _, node := range nodes {
		node.is(deaf)
	}
	time.AfterFunc(500*time.Millisecond, func() {
		for place, node := range nodes {
			node.is(votes.at(place + 1))
		}
	})
	must(t, lock.Acquire(background(t)))
	same(t, lock.Term(), 2)
}

func TestARingThatIsAwayIsWaitedForSoLong(t *testing.T) {
	trial.Tried(t, testARingThatIsAwayIsWaitedForSoLong)
}

func testARingThatIsAwayIsWaitedForSoLong(t *testing.T) {
	ring, _ := beside(t, first("none"), deaf)
	ring.Timeout = 100 * time.Millisecond
	lock := lockOf(t, ring, LockOptions{})
	before := time.Now()
	as[*NoAnswerError](t, lock.TryAcquire(background(t)))
	trial.Took(t, time.Since(before), 0, time.Second)
	ctx, cancel := context.WithTimeout(background(t), 500*time.Millisecond)
	defer cancel()
	before = time.Now()
	as[*NoAnswerError](t, lock.Acquire(ctx))
	took := time.Since(before)
	trial.Took(t, took, 400*time.Millisecond, 2*time.Second)
}

func TestARingThatRefusesIsWaitedFor(t *testing.T) {
	for _, fault := range []string{"no 6 limit", "no 7 full", "no 8 memory", "no 9 failed", "no 15 device 1"} {
		ring, nodes, votes := elected(t)
		var left atomic.Int32
		left.Store(6)
		for place, node := range nodes {
			own := votes.at(place + 1)
			node.is(func(line string) (string, bool) {
				if !strings.HasPrefix(line, "stand") || left.Add(-1) < 0 {
					return own(line)
				}
				// A Stand is there or not where the device failed, also as long as it was on its way.
				if strings.Contains(fault, "device") || strings.Contains(fault, "failed") {
					own(line)
				}
				return fault, true
			})
		}
		told := tells{}
		lock := lockOf(t, ring, LockOptions{Tell: told.tell})
		must(t, lock.Acquire(background(t)))
		same(t, []any{lock.Term(), holds(t, lock), len(votes.stood)}, []any{1, true, 1})
		same(t, told.all(), "waits for the ring: cinoweta: "+fault)
	}
}

func TestAStandThatAFullNodeHasIsItsOwn(t *testing.T) {
	// The answer to the first one is lost.
	votes := newVotes()
	var lost sync.Once
	full := func(node int) answer {
		return func(line string) (string, bool) {
			told, isTold := votes.at(node)(line)
			if !strings.HasPrefix(line, "stand") {
				return told, isTold
			}
			lost.Do(func() { isTold = false })
			return "no 7 full", isTold
		}
	}
	ring, _ := beside(t, full(1), full(2))
	lock := lockOf(t, ring, LockOptions{})
	ctx, cancel := context.WithTimeout(background(t), 5*time.Second)
	defer cancel()
	must(t, lock.Acquire(ctx))
	same(t, []any{lock.Term(), len(votes.stood)}, []any{1, 1})
}

func TestARingThatElectsNobodyIsWaitedForSoLong(t *testing.T) {
	ring, _, votes := elected(t)
	votes.deposed = true
	told := tells{}
	lock := lockOf(t, ring, LockOptions{Tell: told.tell})
	lock.wait = 50 * time.Millisecond
	as[*NoLeaderError](t, lock.TryAcquire(background(t)))
	ctx, cancel := context.WithTimeout(background(t), 500*time.Millisecond)
	defer cancel()
	err := lock.Acquire(ctx)
	same(t, isPassing(err), true)
	same(t, told.all(), "waits for the ring: cinoweta: red: no leader in 3 terms above 0")
	same(t, []any{lock.sign == nil, len(votes.stood)}, []any{true, 3})
}

func TestATryTakesTwoSecondsAtMost(t *testing.T) {
	trial.Tried(t, testATryTakesTwoSecondsAtMost)
}

func testATryTakesTwoSecondsAtMost(t *testing.T) {
	ring, nodes, votes := elected(t)
	votes.deposed, ring.Timeout = true, DefaultTimeout
	lock := lockOf(t, ring, LockOptions{})
	try := func() error {
		before := time.Now()
		err := lock.TryAcquire(background(t))
		took := time.Since(before)
		trial.Took(t, took, time.Second, 4*time.Second)
		same(t, lock.sign == nil, true)
		// That of who calls is not over.
		same(t, errors.Is(err, context.DeadlineExceeded) || errors.Is(err, context.Canceled), false)
		return err
	}
	none := as[*NoLeaderError](t, try())
	same(t, []int{none.Terms, none.Gone}, []int{1, 0})
	for _, node := range nodes {
		node.is(never(t))
	}
	as[*NoAnswerError](t, try())
	// The context of who calls ends it before.
	ctx, cancel := context.WithTimeout(background(t), 100*time.Millisecond)
	defer cancel()
	is(t, lock.TryAcquire(ctx), context.DeadlineExceeded)
}

func TestALockIsAcquiredWithinATime(t *testing.T) {
	trial.Tried(t, testALockIsAcquiredWithinATime)
}

func testALockIsAcquiredWithinATime(t *testing.T) {
	ring, _, votes := elected(t)
	holder := lockOf(t, ring, LockOptions{})
	must(t, holder.Acquire(background(t)))
	other := lockOf(t, ring, LockOptions{})
	before := time.Now()
	taken := as[*LockTakenError](t, other.AcquireWithin(background(t), 300*time.Millisecond))
	took := time.Since(before)
	same(t, []any{taken.Holder.Term, taken.Err}, []any{1, nil})
	trial.Took(t, took, 300*time.Millisecond, time.Second)
	// The context of who calls ends it before.
	ctx, cancel := context.WithTimeout(background(t), 100*time.Millisecond)
	defer cancel()
	is(t, other.AcquireWithin(ctx, time.Minute), context.DeadlineExceeded)
	time.AfterFunc(100*time.Millisecond, holder.Resign)
	must(t, other.AcquireWithin(background(t), time.Minute))
	same(t, []int{other.Term(), len(votes.stood)}, []int{2, 2})
}

func TestAHolderThatIsSilentIsOutwaitedByAShortWait(t *testing.T) {
	ring, _, votes := elected(t)
	votes.lead(1, 1, serverOf(t, func(net.Conn) { time.Sleep(2 * time.Second) }))
	lock := lockOf(t, ring, LockOptions{})
	before := time.Now()
	must(t, lock.AcquireWithin(background(t), 50*time.Millisecond))
	same(t, []any{lock.Term(), time.Since(before) >= 400*time.Millisecond}, []any{2, true})
}

func TestARingHasTheWaitOfWhoAcquires(t *testing.T) {
	trial.Tried(t, testARingHasTheWaitOfWhoAcquires)
}

func testARingHasTheWaitOfWhoAcquires(t *testing.T) {
	ring, nodes, _ := elected(t)
	ring.Timeout = DefaultTimeout
	for _, node := range nodes {
		node.is(never(t))
	}
	for _, row := range []struct{ wait, least time.Duration }{{100 * time.Millisecond, 2 * time.Second}, {3 * time.Second, 3 * time.Second}} {
		before := time.Now()
		err := lockOf(t, ring, LockOptions{}).AcquireWithin(background(t), row.wait)
		as[*NoAnswerError](t, err)
		took := time.Since(before)
		trial.Took(t, took, row.least, row.least+time.Second)
		same(t, errors.Is(err, context.DeadlineExceeded), false)
	}
}

func TestWhatKeptARingFromAnAnswerIsTold(t *testing.T) {
	ring, nodes, _ := elected(t)
	ring.Timeout = DefaultTimeout
	for _, node := range nodes {
		node.end()
	}
	err := lockOf(t, ring, LockOptions{}).TryAcquire(background(t))
	is(t, as[*NoAnswerError](t, err), syscall.ECONNREFUSED)
	same(t, errors.Is(err, context.DeadlineExceeded), false)
	ctx, cancel := context.WithTimeout(background(t), 200*time.Millisecond)
	defer cancel()
	is(t, lockOf(t, ring, LockOptions{}).Acquire(ctx), context.DeadlineExceeded)
}

func TestALockIsLostOnceAGreaterTermIsKnown(t *testing.T) {
	ring, nodes, votes := elected(t)
	ring.Timeout = 500 * time.Millisecond
	lock := lockOf(t, ring, LockOptions{})
	must(t, lock.Acquire(background(t)))
	lock.every = 0
	memory := always("no 8 memory")
	for _, answers := range [][]answer{{deaf, deaf}, {memory, memory}, {votes.at(1), votes.at(2)}} {
		nodes[0].is(answers[0])
		nodes[1].is(answers[1])
		same(t, holds(t, lock), true)
	}
	votes.lead(2, 2, 5)
	same(t, holds(t, lock), false)
	// Another node may not know it yet.
	nodes[0].is(always("none"))
	nodes[1].is(always("none"))
	same(t, holds(t, lock), false)
	nodes[0].is(votes.at(1))
	nodes[1].is(votes.at(2))
	must(t, lock.Acquire(background(t)))
	same(t, lock.Term(), 3)
	nodes[0].is(always("HTTP/1.1 400"))
	nodes[1].is(always("HTTP/1.1 400"))
	_, err := lock.IsLost(background(t))
	as[*WrongRingError](t, err)
}

func TestARingThatIsAwayIsFoundOutOnceForAllLocks(t *testing.T) {
	trial.Tried(t, testARingThatIsAwayIsFoundOutOnceForAllLocks)
}

func testARingThatIsAwayIsFoundOutOnceForAllLocks(t *testing.T) {
	ring, nodes, votes := elected(t)
	locks := []*Lock{}
	for number := range make([]struct{}, 20) {
		lock := NewLock(ring, fmt.Sprint("red-", number), LockOptions{})
		votes := newVotes()
		nodes[0].is(votes.at(1))
		nodes[1].is(votes.at(2))
		must(t, lock.Acquire(background(t)))
		defer lock.Resign()
		locks = append(locks, lock)
	}
	nodes[0].is(deaf)
	nodes[1].is(deaf)
	time.Sleep(lookEvery)
	before := time.Now()
	for _, lock := range locks {
		same(t, holds(t, lock), true)
	}
	took := time.Since(before)
	trial.Took(t, took, 500*time.Millisecond, 1500*time.Millisecond)
	// It is asked again a second later.
	time.Sleep(lookEvery)
	votes.lead(2, 1, 5)
	nodes[0].is(votes.at(1))
	nodes[1].is(votes.at(2))
	for _, lock := range locks {
		same(t, holds(t, lock), false)
	}
}

func TestALookEndsWithItsContext(t *testing.T) {
	ring, nodes, _ := elected(t)
	lock := lockOf(t, ring, LockOptions{})
	must(t, lock.Acquire(background(t)))
	lock.every = 0
	nodes[0].is(deaf)
	nodes[1].is(deaf)
	ctx, cancel := context.WithTimeout(background(t), 50*time.Millisecond)
	defer cancel()
	isLost, err := lock.IsLost(ctx)
	is(t, err, context.DeadlineExceeded)
	same(t, isLost, false)
}

func TestTheRingIsAskedOnceASecond(t *testing.T) {
	ring, nodes, _ := elected(t)
	lock := lockOf(t, ring, LockOptions{})
	must(t, lock.Acquire(background(t)))
	asked := func() int { return len(nodes[0].lines("")) + len(nodes[1].lines("")) }
	// Right behind an answer nobody is asked, behind a pause once.
	for _, wanted := range []int{0, 1, 1} {
		before, begun := asked(), time.Now()
		for range make([]struct{}, 1_000) {
			same(t, holds(t, lock), true)
		}
		// Once more for each second that this took.
		came, most := asked()-before, wanted+int(time.Since(begun)/lookEvery)
		same(t, came >= wanted && came <= most, true)
		time.Sleep(lookEvery + 100*time.Millisecond)
	}
}

func TestTheNextTermIsAboveTheNumberThatTurnedAWriteAway(t *testing.T) {
	ring, _, _ := elected(t)
	lock := lockOf(t, ring, LockOptions{})
	must(t, lock.Acquire(background(t)))
	lock.ResignAbove(41)
	same(t, holds(t, lock), false)
	must(t, lock.Acquire(background(t)))
	same(t, lock.Term(), 42)
}

func TestWhoHoldsALockInATermUpToThatNumberIsWaitedFor(t *testing.T) {
	ring, nodes, votes := elected(t)
	holder, err := newBeacon(0, "a holder")
	must(t, err)
	t.Cleanup(func() { holder.close() })
	votes.lead(2, 1, holder.bid())
	lock, ahead := lockOf(t, ring, LockOptions{}), lockOf(t, ring, LockOptions{})
	for number, lock := range map[int]*Lock{2: lock, 41: ahead} {
		lock.ResignAbove(number)
		lock.ResignAbove(number - 1)
		taken := as[*LockTakenError](t, lock.TryAcquire(background(t)))
		same(t, []any{taken.Holder.Term, taken.Holder.Text}, []any{2, "a holder"})
	}
	same(t, len(nodes[0].lines("stand"))+len(nodes[1].lines("stand")), 0)
	holder.close()
	must(t, lock.TryAcquire(background(t)))
	lock.Resign()
	must(t, ahead.TryAcquire(background(t)))
	same(t, []int{lock.Term(), ahead.Term()}, []int{3, 42})
}

func TestNobodyNeedLeadUpToThatNumber(t *testing.T) {
	ring, nodes, votes := elected(t)
	lock := lockOf(t, ring, LockOptions{})
	lock.ResignAbove(2)
	must(t, lock.TryAcquire(background(t)))
	same(t, lock.Term(), 3)
	lock.ResignAbove(6)
	votes.deposed, lock.wait = true, 50*time.Millisecond
	none := as[*NoLeaderError](t, lock.TryAcquire(background(t)))
	same(t, []int{none.Terms, none.Gone}, []int{3, 6})
	terms := []string{}
	for _, line := range append(nodes[0].lines("stand"), nodes[1].lines("stand")...) {
		terms = append(terms, strings.Fields(line)[2])
	}
	sort.Strings(terms)
	same(t, terms, []string{"3", "7", "8", "9"})
}

func TestOfGoroutinesThatAcquireALockOneDoes(t *testing.T) {
	ring, _, votes := elected(t)
	lock, ended := lockOf(t, ring, LockOptions{}), make(chan error)
	const count = 20
	for range make([]struct{}, count) {
		go func() { ended <- lock.Acquire(background(t)) }()
	}
	refused := 0
	for range make([]struct{}, count) {
		if err := <-ended; err != nil {
			same(t, err, "cinoweta: red: the lock is held, or waited for")
			refused++
		}
	}
	same(t, []any{refused, lock.Term(), holds(t, lock), len(votes.stood)}, []any{count - 1, 1, true, 1})
}

func TestALockThatIsGivenBackWhileItIsWaitedForIsNotHeld(t *testing.T) {
	trial.Tried(t, testALockThatIsGivenBackWhileItIsWaitedForIsNotHeld)
}

func testALockThatIsGivenBackWhileItIsWaitedForIsNotHeld(t *testing.T) {
	ring, _, votes := elected(t)
	holder := lockOf(t, ring, LockOptions{})
	must(t, holder.Acquire(background(t)))
	lock, told := lockOf(t, ring, LockOptions{}), tells{}
	lock.how.Tell = told.tell
	before := time.Now()
	time.AfterFunc(300*time.Millisecond, lock.Resign)
	err := lock.Acquire(background(t))
	same(t, as[*ResignedError](t, err), "cinoweta: red: the lock was given back while it was waited for")
	took := time.Since(before)
	trial.Took(t, took, 300*time.Millisecond, 1300*time.Millisecond)
	same(t, []any{lock.sign == nil, holds(t, lock), len(votes.stood)}, []any{true, false, 1})
	// It may be waited for anew.
	as[*LockTakenError](t, lock.TryAcquire(background(t)))
	holder.Resign()
	must(t, lock.Acquire(background(t)))
	same(t, []any{lock.Term(), holds(t, lock)}, []any{2, true})
}

func TestALockThatIsGivenBackAsItIsWonIsNotHeld(t *testing.T) {
	ring, _, votes := elected(t)
	lock := lockOf(t, ring, LockOptions{})
	_, err := lock.begin(func() {})
	must(t, err)
	bid := lock.sign.bid()
	votes.stand(6, Leader{1, bid})
	lock.Resign()
	as[*ResignedError](t, lock.settle(Led{6, Leader{1, bid}}, time.Now(), nil))
	same(t, []any{lock.sign == nil, holds(t, lock), isThere(background(t), bid, time.Second)}, []any{true, false, false})
	// Nobody need look whether the one who led in that term is there.
	same(t, lock.gone, 6)
	must(t, lock.Acquire(background(t)))
	same(t, lock.Term(), 7)
}

func TestWorkEndsOnceTheLockIsLost(t *testing.T) {
	ring, nodes, votes := elected(t)
	lock := lockOf(t, ring, LockOptions{})
	lock.every = 50 * time.Millisecond
	work := func(change func()) error {
		return lock.Run(background(t), func(ctx context.Context, term int) error {
			change()
			<-ctx.Done()
			return ctx.Err()
		})
	}
	err := work(func() { votes.lead(9, 2, 5) })
	lost := as[*LockLostError](t, err)
	same(t, []any{lost.Group, lost.Term, lost.Later, lost.Err}, []any{"red", 1, 9, context.Canceled})
	same(t, err, "cinoweta: red: the lock of term 1 is lost")
	lost = as[*LockLostError](t, work(func() { lock.ResignAbove(20) }))
	same(t, []int{lost.Term, lost.Later}, []int{10, 0})
	as[*WrongRingError](t, work(func() {
		nodes[0].is(always("HTTP/1.1 400"))
		nodes[1].is(always("HTTP/1.1 400"))
	}))
	same(t, lock.Term(), 21)
}

func TestALockThatIsHeldAlreadyIsHeldWhileItsWorkRuns(t *testing.T) {
	ring, _, votes := elected(t)
	lock := lockOf(t, ring, LockOptions{})
	lock.every = 50 * time.Millisecond
	failed := errors.New("the work failed")
	must(t, lock.AcquireWithin(background(t), 0))
	same(t, lock.RunHeld(background(t), func(ctx context.Context, term int) error {
		same(t, []any{term, holds(t, lock)}, []any{1, true})
		return failed
	}), failed)
	same(t, holds(t, lock), false)
	must(t, lock.AcquireWithin(background(t), 0))
	same(t, as[*LockLostError](t, lock.RunHeld(background(t), func(ctx context.Context, _ int) error {
		votes.lead(9, 2, 5)
		<-ctx.Done()
		return nil
	})).Later, 9)
	// One that is not held is lost.
	same(t, as[*LockLostError](t, lock.RunHeld(background(t), func(ctx context.Context, _ int) error {
		<-ctx.Done()
		return nil
	})).Term, 2)
}

func TestWorkEndsWithTheContextOfItsCaller(t *testing.T) {
	ring, _, votes := elected(t)
	lock := lockOf(t, ring, LockOptions{})
	ctx, cancel := context.WithCancel(background(t))
	err := lock.Run(ctx, func(ctx context.Context, _ int) error {
		cancel()
		<-ctx.Done()
		return ctx.Err()
	})
	is(t, err, context.Canceled)
	same(t, isThere(background(t), votes.bid(1), time.Second), false)
}
