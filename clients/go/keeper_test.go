package cinoweta

import (
	"context"
	"fmt"
	"sort"
	"strings"
	"sync/atomic"
	"testing"
	"time"

	"cinoweta/internal/trial"
)

// many gives a ring of two nodes with three doors each, which vote for each group apart.
func many(t *testing.T) (*Ring, []*node, *groups) {
	votes := &groups{votes: map[string]*votes{}}
	ring, nodes := besideAt(t, otherHost, votes.at(1), votes.at(2))
	for _, node := range nodes {
		node.serves(3)
	}
	// Nobody else leads, so that nobody is looked for.
	ring.Status = 1
	return ring, nodes, votes
}

// holdAll gives so many locks, which are held: of the groups g00, g01 and so on.
func holdAll(t *testing.T, ring *Ring, nodes []*node, count int, how LockOptions) []*Lock {
	t.Helper()
	how.AcrossHosts = true
	locks := []*Lock{}
	for number := 0; number < count; number++ {
		lock := NewLock(ring, fmt.Sprintf("g%02d", number), how)
		t.Cleanup(lock.Resign)
		must(t, lock.Acquire(background(t)))
		locks = append(locks, lock)
	}
	until(t, "their sessions", func() bool { return arePresent(nodes, locks) })
	return locks
}

// arePresent tells whether these locks are present, and no other one, by a session a node at most.
func arePresent(nodes []*node, locks []*Lock) bool {
	groups, wanted := []string{}, []string{}
	for _, node := range nodes {
		present := node.present()
		if len(present) > 1 {
			return false
		}
		for _, some := range present {
			groups = append(groups, some...)
		}
	}
	for _, lock := range locks {
		wanted = append(wanted, lock.group)
	}
	sort.Strings(groups)
	return fmt.Sprint(groups) == fmt.Sprint(wanted)
}

// kept is how many keepers there are.
func kept() int {
	keepers.mutex.Lock()
	defer keepers.mutex.Unlock()
	return len(keepers.at)
}

func TestFortyLocksTakeADoorANode(t *testing.T) {
	ring, nodes, _ := many(t)
	locks := holdAll(t, ring, nodes, 40, LockOptions{})
	for _, lock := range locks {
		same(t, holds(t, lock), true)
		lock.Resign()
	}
	// The last one closes it.
	until(t, "the end of the sessions", func() bool { return len(nodes[0].present())+len(nodes[1].present()) == 0 })
	same(t, []int{len(nodes[0].lines("resign ")) + len(nodes[1].lines("resign ")), kept()}, []int{40, 0})
	// And the next first one opens it again.
	must(t, locks[0].Acquire(background(t)))
	until(t, "its session", func() bool { return arePresent(nodes, locks[:1]) })
}

func TestAllArePresentAgainInAnotherSession(t *testing.T) {
	ring, nodes, votes := many(t)
	locks := holdAll(t, ring, nodes, 40, LockOptions{Text: "a worker"})
	for range make([]struct{}, 2) {
		nodes[0].is(deaf)
		nodes[1].is(deaf)
		until(t, "the end of the sessions", func() bool { return len(nodes[0].present())+len(nodes[1].present()) == 0 })
		nodes[0].is(votes.at(1))
		nodes[1].is(votes.at(2))
		until(t, "other sessions", func() bool { return arePresent(nodes, locks) })
	}
	for _, lock := range locks {
		text := "tell " + lock.group + " a worker"
		same(t, len(nodes[0].lines(text))+len(nodes[1].lines(text)) >= 3, true)
	}
}

func TestASessionThatEndedMeanwhileKeepsNoLockWaiting(t *testing.T) {
	ring, nodes, _ := many(t)
	locks, told := holdAll(t, ring, nodes, 9, LockOptions{}), tells{}
	for _, node := range nodes {
		node.mutex.Lock()
		for _, conn := range node.conns {
			conn.Close()
		}
		node.mutex.Unlock()
	}
	lock := NewLock(ring, "h", LockOptions{AcrossHosts: true, Tell: told.tell})
	t.Cleanup(lock.Resign)
	must(t, lock.Acquire(background(t)))
	until(t, "all of them", func() bool { return arePresent(nodes, append(locks, lock)) })
	same(t, told.all(), "")
}

func TestWhoIsRefusedAgainKeepsNoOtherOne(t *testing.T) {
	ring, nodes, votes := many(t)
	locks := holdAll(t, ring, nodes, 10, LockOptions{})
	for place, node := range nodes {
		own := votes.at(place + 1)
		node.is(deaf)
		until(t, "the end of the session", func() bool { return len(node.present()) == 0 })
		node.is(func(line string) (string, bool) {
			if strings.HasPrefix(line, "stand g00 ") {
				return "no 8 memory", true
			}
			return own(line)
		})
	}
	until(t, "the others", func() bool { return arePresent(nodes, locks[1:]) })
	nodes[0].is(votes.at(1))
	nodes[1].is(votes.at(2))
	until(t, "all of them", func() bool { return arePresent(nodes, locks) })
}

func TestWhoResignsLeavesTheOthersPresent(t *testing.T) {
	ring, nodes, _ := many(t)
	locks := holdAll(t, ring, nodes, 20, LockOptions{})
	sessions := nodes[0].sessions() + nodes[1].sessions()
	locks[0].Resign()
	until(t, "its end", func() bool { return arePresent(nodes, locks[1:]) })
	time.Sleep(2 * presenceEvery)
	same(t, []any{arePresent(nodes, locks[1:]), nodes[0].sessions() + nodes[1].sessions()}, []any{true, sessions})
	// Where the node does not take it, it is present no more all the same.
	for _, node := range nodes {
		node.mutex.Lock()
		node.takesResigns = false
		node.mutex.Unlock()
	}
	locks[1].Resign()
	until(t, "its end", func() bool { return arePresent(nodes, locks[2:]) })
	for _, lock := range locks[2:] {
		same(t, holds(t, lock), true)
	}
}

func TestGoroutinesTakeAndResignSideBySide(t *testing.T) {
	ring, nodes, _ := many(t)
	for _, node := range nodes {
		node.serves(9)
	}
	ended := make(chan error)
	for number := 0; number < 4; number++ {
		lock := NewLock(ring.within(ring.timeout()), fmt.Sprint("g", number), LockOptions{AcrossHosts: true})
		lock.ring.Status = 1
		go func() {
			var err error
			for turn := 0; turn < 10 && err == nil; turn++ {
				err = lock.Run(context.Background(), func(context.Context, int) error {
					for _, some := range append(nodes[0].present(), nodes[1].present()...) {
						if strings.Contains(strings.Join(some, " "), lock.group) {
							return nil
						}
					}
					return fmt.Errorf("%s is not present", lock.group)
				})
			}
			ended <- err
		}()
	}
	for number := 0; number < 4; number++ {
		must(t, <-ended)
	}
	same(t, kept(), 0)
	until(t, "the end of the sessions", func() bool { return len(nodes[0].present())+len(nodes[1].present()) == 0 })
}

// shows has `slow` be present at a node of the ring.
func shows(t *testing.T, ctx context.Context, ring *Ring, node int) error {
	presence, err := newPresence(ring, "slow", 0, "", 0)
	must(t, err)
	return presence.show(ctx, Led{1, Leader{node, presence.bid()}})
}

func TestASlowNodeKeepsNoLockAtAnotherOne(t *testing.T) {
	trial.Tried(t, testASlowNodeKeepsNoLockAtAnotherOne)
}

func testASlowNodeKeepsNoLockAtAnotherOne(t *testing.T) {
	ring, nodes, votes := many(t)
	nodes[1].is(never(t))
	ended := make(chan error, 1)
	go func() { ended <- shows(t, background(t), ring.within(time.Second), 2) }()
	until(t, "its question", func() bool { return len(nodes[1].lines("stand")) > 0 })
	before := time.Now()
	presence, err := newPresence(ring, "red", 0, "", 0)
	must(t, err)
	_, err = ring.Campaign(background(t), "red", CampaignOptions{Node: 1})
	must(t, err)
	presence.own = votes.votes["red"].bid(1)
	must(t, presence.show(background(t), Led{1, Leader{1, presence.own}}))
	presence.close()
	trial.Took(t, time.Since(before), 0, time.Second)
	same(t, as[*NoAnswerError](t, <-ended).Address, ring.address(2))
}

func TestWhoWaitsForASlowNodeLeavesAtOnce(t *testing.T) {
	trial.Tried(t, testWhoWaitsForASlowNodeLeavesAtOnce)
}

func testWhoWaitsForASlowNodeLeavesAtOnce(t *testing.T) {
	ring, nodes, votes := many(t)
	locks := holdAll(t, ring, nodes, 9, LockOptions{})
	var count atomic.Int32
	silent := never(t)
	for place, node := range nodes {
		own := votes.at(place + 1)
		node.is(func(line string) (string, bool) {
			if strings.HasPrefix(line, "stand slow ") {
				count.Add(1)
				return silent(line)
			}
			return own(line)
		})
	}
	ctx, cancel := context.WithCancel(background(t))
	ended := make(chan error, 1)
	go func() { ended <- shows(t, ctx, ring, 1) }()
	until(t, "its question", func() bool { return count.Load() > 0 })
	before := time.Now()
	cancel()
	is(t, <-ended, context.Canceled)
	trial.Took(t, time.Since(before), 0, time.Second)
	// The session that it waited for is opened anew for who is there.
	until(t, "the others", func() bool { return arePresent(nodes, locks) })
}

func TestANodeThatIsAwayIsToldToAllWhoWait(t *testing.T) {
	ring, nodes, _ := many(t)
	for _, answer := range []answer{deaf, always("no 25 line")} {
		nodes[0].is(answer)
		ended := make(chan error)
		for range make([]struct{}, 40) {
			go func() { ended <- shows(t, background(t), ring, 1) }()
		}
		for range make([]struct{}, 40) {
			if err := <-ended; !isNoAnswer(err) {
				is(t, err, ErrBadLine)
			}
		}
		same(t, kept(), 0)
	}
}
