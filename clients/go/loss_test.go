package cinoweta

import (
	"context"
	"fmt"
	"sync"
	"testing"
	"time"

	"cinoweta/internal/trial"
)

// become has all nodes answer so after this time.
func become(nodes []*node, after time.Duration, answer answer) {
	time.AfterFunc(after, func() {
		for _, node := range nodes {
			node.is(answer)
		}
	})
}

func TestALookThatIsLateEndsNoWait(t *testing.T) {
	ring, nodes, votes := elected(t)
	lock := lockOf(t, ring, LockOptions{})
	must(t, lock.Acquire(background(t)))
	lock.every = 0
	asked, goesOn := make(chan bool, 1), make(chan bool)
	late := func(line string) (string, bool) {
		asked <- true
		<-goesOn
		return votes.at(1)(line)
	}
	nodes[0].is(late)
	looked := make(chan error, 1)
	go func() {
		_, err := lock.IsLost(background(t))
		looked <- err
	}()
	<-asked
	nodes[0].is(votes.at(1))
	// It is given back, had by another one, and waited for, before the answer comes.
	lock.Resign()
	ring.handed.take("red")
	other := lockOf(t, ring, LockOptions{})
	must(t, other.Acquire(background(t)))
	ended := make(chan error, 1)
	go func() { ended <- lock.Acquire(background(t)) }()
	until(t, "its wait", func() bool { return holderWaits(lock) })
	close(goesOn)
	must(t, <-looked)
	other.Resign()
	must(t, <-ended)
	same(t, lock.Term(), 3)
}

// holderWaits tells whether somebody waits for the lock.
func holderWaits(lock *Lock) bool {
	lock.mutex.Lock()
	defer lock.mutex.Unlock()
	return lock.leave != nil
}

// toldInLooks looks so often that the lock is lost at most.
func toldInLooks(t *testing.T, lock *Lock, count int) {
	t.Helper()
	for look := 1; holds(t, lock); look++ {
		if look == count {
			t.Fatalf("it is not lost in %d looks", count)
		}
	}
}

func TestALossIsToldWhereANodeLags(t *testing.T) {
	for lags := range make([]struct{}, 2) {
		ring, nodes, votes := elected(t)
		lock := lockOf(t, ring, LockOptions{})
		lock.every = 0
		must(t, lock.Acquire(background(t)))
		led := votes.led()
		nodes[lags].is(always(fmt.Sprintf("term 1 leader %d %d", led.Leader.Node, led.Leader.Bid)))
		same(t, []bool{holds(t, lock), holds(t, lock), holds(t, lock)}, []bool{true, true, true})
		votes.lead(2, 2, 5)
		toldInLooks(t, lock, 3)
	}
}

func TestALossIsToldWhereANodeIsSilent(t *testing.T) {
	for silent := range make([]struct{}, 2) {
		ring, nodes, votes := elected(t)
		ring.Timeout = 100 * time.Millisecond
		lock := lockOf(t, ring, LockOptions{})
		lock.every = 0
		must(t, lock.Acquire(background(t)))
		nodes[silent].is(never(t))
		votes.lead(2, 2, 5)
		toldInLooks(t, lock, 3)
	}
}

// gaveUp has a lock be held that is given up after a second and a half, while the nodes change, and gives after how long it was
// lost, for which it had to be given up.
func gaveUp(t *testing.T, change func(nodes []*node)) time.Duration {
	t.Helper()
	ring, nodes, votes := elected(t)
	lock := lockOf(t, ring, LockOptions{GiveUp: 1500 * time.Millisecond})
	var begun time.Time
	err := lock.Run(background(t), func(ctx context.Context, _ int) error {
		begun = time.Now()
		change(nodes)
		<-ctx.Done()
		return nil
	})
	took, lost := time.Since(begun), as[*LockLostError](t, err)
	same(t, []any{lost.Term, lost.GaveUp}, []any{1, true})
	same(t, err, "cinoweta: red: the lock of term 1 is lost: no node that could tell answered in time")
	same(t, []bool{holds(t, lock), lock.sign == nil}, []bool{false, true})
	until(t, "the end of its beacon", func() bool { return !isThere(background(t), votes.bid(1), time.Second) })
	return took
}

func TestWhoIsCutOffGivesUp(t *testing.T) {
	trial.Tried(t, testWhoIsCutOffGivesUp)
}

func testWhoIsCutOffGivesUp(t *testing.T) {
	// Nodes that are away, that hang, that have not heard of the term, and that find no memory tell nothing.
	silent := func(string) (string, bool) { return never(t)("") }
	for _, answer := range []answer{deaf, silent, always("none"), always("no 8 memory")} {
		took := gaveUp(t, func(nodes []*node) { become(nodes, 0, answer) })
		trial.Took(t, took, 1300*time.Millisecond, 1800*time.Millisecond)
	}
	// The last answer came a second behind the begin, or a little later.
	took := gaveUp(t, func(nodes []*node) { become(nodes, 1500*time.Millisecond, deaf) })
	trial.Took(t, took, 2300*time.Millisecond, 3200*time.Millisecond)
}

func TestWhoHearsOfOneNodeDoesNotGiveUp(t *testing.T) {
	ring, nodes, _ := elected(t)
	lock := lockOf(t, ring, LockOptions{GiveUp: 3 * time.Second})
	must(t, lock.Run(background(t), func(ctx context.Context, _ int) error {
		// The one that is asked first has not heard of the term.
		nodes[0].is(always("none"))
		sleep(ctx, 5*time.Second)
		return ctx.Err()
	}))
}

func TestALockOfAShortGiveUpIsHeldWhereNodesAnswer(t *testing.T) {
	for _, length := range []time.Duration{250 * time.Millisecond, time.Second} {
		ring, _, _ := elected(t)
		lock := lockOf(t, ring, LockOptions{GiveUp: length})
		must(t, lock.Run(background(t), func(ctx context.Context, _ int) error {
			sleep(ctx, 3*length)
			return ctx.Err()
		}))
	}
}

func TestOneNodeThatIsSilentHasNobodyGiveUp(t *testing.T) {
	for silent := range make([]struct{}, 3) {
		votes := newVotes()
		ring, nodes := beside(t, votes.at(1), votes.at(2), votes.at(3))
		lock := lockOf(t, ring, LockOptions{GiveUp: time.Second})
		never := never(t)
		must(t, lock.Run(background(t), func(ctx context.Context, _ int) error {
			nodes[silent].is(never)
			sleep(ctx, 3*time.Second)
			return ctx.Err()
		}))
		// It was asked once.
		same(t, len(nodes[silent].lines("latest")) <= 3, true)
	}
}

func TestNodesThatHaveNotHeardOfTheTermHaveNobodyGiveUp(t *testing.T) {
	votes := newVotes()
	ring, nodes := beside(t, votes.at(1), votes.at(2), votes.at(3), votes.at(4), votes.at(5), votes.at(6), votes.at(7))
	lock := lockOf(t, ring, LockOptions{GiveUp: time.Second})
	must(t, lock.Run(background(t), func(ctx context.Context, _ int) error {
		for _, node := range nodes[:3] {
			node.is(always("none"))
		}
		for _, node := range nodes[4:] {
			node.is(always("no 8 memory"))
		}
		sleep(ctx, 3*time.Second)
		return ctx.Err()
	}))
}

func TestALookAtNodesThatLagIsBounded(t *testing.T) {
	trial.Tried(t, testALookAtNodesThatLagIsBounded)
}

func testALookAtNodesThatLagIsBounded(t *testing.T) {
	votes := newVotes()
	ring, nodes := beside(t, votes.at(1), votes.at(2), votes.at(3), votes.at(4), votes.at(5), votes.at(6), votes.at(7))
	ring.Timeout = 300 * time.Millisecond
	lock := lockOf(t, ring, LockOptions{})
	must(t, lock.Acquire(background(t)))
	lock.every = 0
	for _, node := range nodes {
		node.is(func(string) (string, bool) {
			time.Sleep(200 * time.Millisecond)
			return "none", true
		})
	}
	before := time.Now()
	same(t, holds(t, lock), true)
	trial.Took(t, time.Since(before), 0, 900*time.Millisecond)
}

func TestALossIsToldForAllLocksWhereANodeIsSilent(t *testing.T) {
	trial.Tried(t, testALossIsToldForAllLocksWhereANodeIsSilent)
}

func testALossIsToldForAllLocksWhereANodeIsSilent(t *testing.T) {
	ring, nodes, _ := elected(t)
	locks, all := []*Lock{}, groups{votes: map[string]*votes{}}
	for place, node := range nodes {
		node.is(all.at(place + 1))
	}
	for number := range make([]struct{}, 20) {
		lock := NewLock(ring, fmt.Sprint("red-", number), LockOptions{})
		must(t, lock.Acquire(background(t)))
		defer lock.Resign()
		locks = append(locks, lock)
	}
	nodes[0].is(never(t))
	for _, votes := range all.votes {
		votes.lead(2, 2, 5)
	}
	before, left := time.Now(), len(locks)
	for left > 0 && time.Since(before) < 20*time.Second {
		left = 0
		for _, lock := range locks {
			if holds(t, lock) {
				left++
			}
		}
		time.Sleep(50 * time.Millisecond)
	}
	same(t, left, 0)
	trial.Took(t, time.Since(before), 0, 6*time.Second)
}

func TestGoroutinesThatLookAtALockAskOnce(t *testing.T) {
	ring, nodes, votes := elected(t)
	lock := lockOf(t, ring, LockOptions{})
	must(t, lock.Acquire(background(t)))
	looks := func() time.Duration {
		time.Sleep(lookEvery + 100*time.Millisecond)
		var looks sync.WaitGroup
		before := time.Now()
		for range make([]struct{}, 20) {
			looks.Add(1)
			go func() {
				defer looks.Done()
				if isLost, err := lock.IsLost(background(t)); isLost || err != nil {
					t.Error(isLost, err)
				}
			}()
		}
		looks.Wait()
		return time.Since(before)
	}
	asked := func() int { return len(nodes[0].lines("latest")) + len(nodes[1].lines("latest")) }
	before := asked()
	same(t, []any{looks() < lookEvery, asked() - before}, []any{true, 1})
	// One of them waits for a ring that hangs.
	hangs := never(t)
	nodes[0].is(hangs)
	nodes[1].is(hangs)
	same(t, looks() < 2*lookEvery, true)
	// Who waits for another one's look does so until its context is over.
	time.Sleep(lookEvery + 100*time.Millisecond)
	lock.turn <- struct{}{}
	ctx, cancel := context.WithTimeout(background(t), 50*time.Millisecond)
	defer cancel()
	_, err := lock.IsLost(ctx)
	is(t, err, context.DeadlineExceeded)
	<-lock.turn
	nodes[0].is(votes.at(1))
	nodes[1].is(votes.at(2))
}

func TestALookThatItsContextEndedKeepsNoOtherOne(t *testing.T) {
	ring, nodes, votes := elected(t)
	lock := lockOf(t, ring, LockOptions{})
	must(t, lock.Acquire(background(t)))
	time.Sleep(lookEvery)
	hangs := never(t)
	nodes[0].is(hangs)
	nodes[1].is(hangs)
	ctx, cancel := context.WithTimeout(background(t), 50*time.Millisecond)
	defer cancel()
	_, err := lock.IsLost(ctx)
	is(t, err, context.DeadlineExceeded)
	votes.lead(2, 2, 5)
	nodes[0].is(votes.at(1))
	nodes[1].is(votes.at(2))
	same(t, holds(t, lock), false)
}

func TestALookThatItsGiveUpEndsIsNoFault(t *testing.T) {
	ring, nodes, _ := elected(t)
	lock := lockOf(t, ring, LockOptions{GiveUp: time.Minute})
	must(t, lock.Acquire(background(t)))
	lock.every = 0
	hear := func(behind time.Duration) {
		lock.mutex.Lock()
		defer lock.mutex.Unlock()
		lock.heard = time.Now().Add(behind - time.Minute)
	}
	hangs := never(t)
	hear(200 * time.Millisecond)
	nodes[0].is(func(line string) (string, bool) {
		hear(time.Minute)
		return hangs(line)
	})
	isLost, err := lock.isLostInTime(background(t))
	must(t, err)
	same(t, isLost, false)
}

func TestWhoLooksSeldomAsksBeforeItGivesUp(t *testing.T) {
	trial.Tried(t, testWhoLooksSeldomAsksBeforeItGivesUp)
}

func testWhoLooksSeldomAsksBeforeItGivesUp(t *testing.T) {
	ring, nodes, _ := elected(t)
	lock := lockOf(t, ring, LockOptions{GiveUp: 1500 * time.Millisecond})
	must(t, lock.Acquire(background(t)))
	time.Sleep(2 * time.Second)
	same(t, holds(t, lock), true)
	become(nodes, 0, deaf)
	// A look that is not asked for anew tells so too.
	time.Sleep(1200 * time.Millisecond)
	before := time.Now()
	for holds(t, lock) {
		time.Sleep(10 * time.Millisecond)
	}
	took := time.Since(before)
	trial.Took(t, took, 100*time.Millisecond, 1200*time.Millisecond)
	// Taken again, it is held anew.
	same(t, lock.hasGivenUp, true)
}

func TestALockThatIsLostToALaterLeaderIsNotGivenUp(t *testing.T) {
	ring, _, votes := elected(t)
	lock := lockOf(t, ring, LockOptions{GiveUp: time.Minute})
	lock.every = 50 * time.Millisecond
	err := lock.Run(background(t), func(ctx context.Context, _ int) error {
		votes.lead(9, 2, 5)
		<-ctx.Done()
		return nil
	})
	same(t, as[*LockLostError](t, err).GaveUp, false)
}

func TestWhoIsCutOffAcrossHostsGivesUpInTime(t *testing.T) {
	trial.Tried(t, testWhoIsCutOffAcrossHostsGivesUpInTime)
}

func testWhoIsCutOffAcrossHostsGivesUpInTime(t *testing.T) {
	ring, nodes, votes, _ := across(t, otherHost)
	lock := acrossOf(t, ring, LockOptions{GiveUp: 1500 * time.Millisecond})
	must(t, lock.Acquire(background(t)))
	same(t, giveUpOf(votes.bid(1)), 2*time.Second)
	before := time.Now()
	// Nobody answers what it says at its end either.
	become(nodes, 0, never(t))
	as[*LockLostError](t, lock.awaitLoss(background(t)))
	took := time.Since(before)
	trial.Took(t, took, 1300*time.Millisecond, 1800*time.Millisecond)
}
