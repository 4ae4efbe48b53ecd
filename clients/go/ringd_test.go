package cinoweta

import (
	"context"
	"encoding/json"
	"fmt"
	"os"
	"sort"
	"strings"
	"syscall"
	"testing"
	"time"

	"cinoweta/internal/trial"
)

// usual is the capacity of a ring where none is said.
const usual = 65_536

// latest waits until the node knows a leader of the term, and gives it.
func latest(t *testing.T, ring *Ring, term, node int) Led {
	t.Helper()
	var known Led
	until(t, "the leader", func() bool {
		var err error
		known, _, err = ring.Latest(background(t), "red", node)
		must(t, err)
		return known.Term >= term
	})
	return known
}

func TestRingdIsAsked(t *testing.T) {
	ring := serve(t, usual).ring(t)
	must(t, ring.Stand(background(t), "red", 5, 10, 1))
	for node := 1; node <= ring.Nodes(); node++ {
		same(t, latest(t, ring, 5, node), Led{5, Leader{1, 10}})
		leader, isKnown, err := ring.Who(background(t), "red", 5, node)
		must(t, err)
		same(t, []any{leader, isKnown}, []any{Leader{1, 10}, true})
	}
	for _, row := range []struct {
		group           string
		term, bid, node int
		cause           Refusal
	}{{"RED", 5, 10, 1, ErrBadName}, {"red", 0, 10, 1, ErrBadNumber}, {"red", 5, 10, 1, ErrAlreadyStands},
		{"red", 5, 10, 2, ErrLate}, {"red", 4, 10, 3, ErrStale}, {"red red", 5, 10, 3, ErrBadLine}} {
		is(t, ring.Stand(background(t), row.group, row.term, row.bid, row.node), row.cause)
	}
	_, err := ring.Retire(background(t), "red", 6, 1)
	is(t, err, ErrUndecided)
	floor, err := ring.Retire(background(t), "red", 5, 1)
	must(t, err)
	same(t, floor, 5)
	is(t, ring.Stand(background(t), "red", 4, 10, 1), ErrRetired)
}

func TestRingdTellsOfItself(t *testing.T) {
	served := serve(t, usual)
	ring := served.ring(t)
	is(t, ring.Stand(background(t), "RED", 5, 10, 1), ErrBadName)
	must(t, ring.Stand(background(t), "red", 5, 10, 1))
	same(t, latest(t, ring, 5, 3).Term, 5)
	faults, err := Health(background(t), ring.Host, ring.Status)
	must(t, err)
	same(t, len(faults), 0)
	told, err := Status(background(t), ring.Host, ring.Status)
	must(t, err)
	same(t, []any{told.Dir, len(told.Nodes), len(told.Ring)}, []any{served.Dir, 3, 32})
	first := told.Nodes[0]
	same(t, []any{first.Node, first.Port, first.State, first.Stands.Taken}, []any{1, served.First, "well", 1})
	// Those from 3 to 9 are told before they come.
	refusals := []RefusalCount{{ErrBadName, 1}}
	for number := ErrAlreadyStands; number <= ErrNodeFailed; number++ {
		refusals = append(refusals, RefusalCount{number, 0})
	}
	same(t, first.Sessions.Refusals, refusals)
	led, err := Leaders(background(t), ring.Host, ring.Status, 3)
	must(t, err)
	same(t, led, []GroupLed{{"red", Led{5, Leader{1, 10}}}})
	// The types have all that is told.
	_, text, err := get(background(t), ring.Host, ring.Status, "/status")
	must(t, err)
	decoder := json.NewDecoder(strings.NewReader(string(text)))
	decoder.DisallowUnknownFields()
	must(t, decoder.Decode(&RingStatus{}))
}

func TestRingdOfAnotherHostIsAsked(t *testing.T) {
	ring := serveAt(t, otherHost, usual).ring(t)
	election, err := ring.Campaign(background(t), "red", CampaignOptions{})
	must(t, err)
	same(t, []any{ring.Host, election.IsMine}, []any{otherHost, true})
	_, err = Health(background(t), ring.Host, ring.Status)
	must(t, err)
	must(t, ring.Stand(background(t), "blue", 1, 10, 1))
	// Nobody listens at 127.0.0.1.
	ring.Host, ring.Timeout = "", 100*time.Millisecond
	as[*NoAnswerError](t, ring.Stand(background(t), "blue", 2, 10, 1))
}

func TestOfManyThatCampaignAtOnceOneLeads(t *testing.T) {
	served := serve(t, usual)
	type ended struct {
		election Election
		err      error
	}
	for gone := 0; gone < 5; gone++ {
		all, leads := make(chan ended), map[Led]int{}
		for range make([]struct{}, 6) {
			ring := served.ring(t)
			go func(how CampaignOptions) {
				election, err := ring.Campaign(context.Background(), "red", how)
				all <- ended{election, err}
			}(CampaignOptions{Gone: gone})
		}
		mine := 0
		for range make([]struct{}, 6) {
			one := <-all
			must(t, one.err)
			leads[one.election.Led]++
			if one.election.IsMine {
				mine++
			}
		}
		same(t, []int{len(leads), mine}, []int{1, 1})
	}
}

func TestAKillOfRingdIsOutlived(t *testing.T) {
	served := serve(t, usual)
	ring := served.ring(t)
	// How long a start takes is for the machine to say.
	ring.Timeout = time.Minute
	election, err := ring.Campaign(background(t), "red", CampaignOptions{})
	must(t, err)
	served.Kill()
	started := make(chan error)
	time.AfterFunc(500*time.Millisecond, func() { started <- served.Start() })
	// Another node may answer first, and hear of it only now.
	_, _, err = ring.Latest(background(t), "red", AnyNode)
	must(t, err)
	must(t, <-started)
	same(t, latest(t, ring, 1, 1), election.Led)
	again, err := ring.Campaign(background(t), "red", CampaignOptions{})
	must(t, err)
	same(t, again, Election{election.Led, false})
}

func TestLeadersAreWatched(t *testing.T) {
	served := serve(t, usual)
	ring, watch := served.ring(t), served.ring(t).Watch("red", 0)
	for gone := 0; gone < 3; gone++ {
		election, err := ring.Campaign(background(t), "red", CampaignOptions{Gone: gone})
		must(t, err)
		led, err := watch.Next(background(t))
		must(t, err)
		same(t, led, election.Led)
	}
}

// A ring of 4,096 bytes is full by some ninety terms, unless some are retired.
const small = 4_096

func TestAFullRingIsTold(t *testing.T) {
	ring := serve(t, small).ring(t)
	var err error
	// Of a group that was used once nothing may be retired.
	for number := 0; number < 300 && err == nil; number++ {
		_, err = ring.Campaign(background(t), fmt.Sprint("group-", number), CampaignOptions{Node: 1})
	}
	is(t, err, ErrFull)
}

func TestARingThatRetiresIsNeverFull(t *testing.T) {
	ring, gone := serve(t, small).ring(t), 0
	for gone < 200 {
		election, err := ring.Campaign(background(t), "red", CampaignOptions{Gone: gone, Node: gone%3 + 1})
		must(t, err)
		same(t, election.IsMine, true)
		// On a slow machine that is not the first term that it stood for.
		gone = election.Term
	}
	for node := 1; node <= ring.Nodes(); node++ {
		same(t, latest(t, ring, gone, node).Term, gone)
		until(t, "a floor", func() bool {
			floor, err := ring.Retire(background(t), "red", gone-DefaultKeep, node)
			return err == nil && floor == gone-DefaultKeep
		})
	}
}

// takeTurns has so many lockers hold the lock of `red`, one behind the other, in terms that rise.
func takeTurns(t *testing.T, served served, count int, how LockOptions) {
	t.Helper()
	turns, ended := make(chan int, 2*count), make(chan error)
	for range make([]struct{}, count) {
		lock := NewLock(served.ring(t), "red", how)
		go func() {
			ended <- lock.Run(context.Background(), func(_ context.Context, term int) error {
				turns <- term
				time.Sleep(300 * time.Millisecond)
				turns <- -term
				return nil
			})
		}()
	}
	for range make([]struct{}, count) {
		must(t, <-ended)
	}
	before := 0
	for range make([]struct{}, count) {
		term := <-turns
		same(t, []any{term > before, <-turns}, []any{true, -term})
		before = term
	}
}

func TestLocksAreHeldOneBehindTheOther(t *testing.T) {
	takeTurns(t, serve(t, usual), 4, LockOptions{})
}

// A worked is a turn in which a worker held the lock of `red`.
type worked struct {
	worker     int
	begun, end time.Time
}

// takeAgain has so many workers hold the lock for 50 ms, and take it again at once, until there were so many turns.
func takeAgain(t *testing.T, served served, workers, count int) []worked {
	t.Helper()
	ctx, cancel := context.WithCancel(background(t))
	defer cancel()
	turns, ended := make(chan worked, count+workers), make(chan error)
	for worker := range make([]struct{}, workers) {
		worker, lock := worker, NewLock(served.ring(t), "red", LockOptions{})
		go func() {
			var err error
			for err == nil {
				if err = lock.Acquire(ctx); err == nil {
					begun := time.Now()
					time.Sleep(50 * time.Millisecond)
					turns <- worked{worker, begun, time.Now()}
					lock.Resign()
				}
			}
			ended <- err
		}()
	}
	held := []worked{}
	for len(held) < count {
		held = append(held, <-turns)
	}
	cancel()
	for range make([]struct{}, workers) {
		is(t, <-ended, context.Canceled)
	}
	return held
}

func TestWhoWaitsComesNext(t *testing.T) {
	const workers, count = 4, 40
	held := takeAgain(t, serve(t, usual), workers, count)
	turns, waits := make([]int, workers), []time.Duration{}
	for number, turn := range held {
		turns[turn.worker]++
		if number > 0 {
			waits = append(waits, turn.begun.Sub(held[number-1].end))
		}
	}
	sort.Slice(waits, func(one, other int) bool { return waits[one] < waits[other] })
	t.Logf("turns %v, from a resign to the next holder %v in the middle, %v at most", turns, waits[count/2], waits[count-2])
	for _, own := range turns {
		same(t, own >= count/5 && own <= count/3, true)
	}
	// Who looks once a second needs half a second in the middle.
	same(t, waits[0] > 0 && waits[count/2] < 600*time.Millisecond, true)
}

func TestWhoIsPausedLosesTheLock(t *testing.T) {
	served := serve(t, usual)
	first := served.locker(t)
	first.tells(t, "term 1")
	second := served.locker(t)
	second.tells(t, fmt.Sprintf("waits for process %d (a Go program)", first.command.Process.Pid))
	second.isSilent(t, 1_500*time.Millisecond)
	first.signal(t, syscall.SIGSTOP)
	second.tells(t, "term 2")
	first.signal(t, syscall.SIGCONT)
	first.tells(t, "lost 1")
	second.isSilent(t, 100*time.Millisecond)
}

func TestWhoIsKilledLosesTheLockAtOnce(t *testing.T) {
	served := serve(t, usual)
	first := served.locker(t)
	first.tells(t, "term 1")
	lock := NewLock(served.ring(t), "red", LockOptions{Patience: time.Minute})
	time.AfterFunc(300*time.Millisecond, func() { first.command.Process.Kill() })
	must(t, lock.Acquire(background(t)))
	defer lock.Resign()
	same(t, lock.Term(), 2)
}

func TestWhoEndsGivesTheLockBack(t *testing.T) {
	served := serve(t, usual)
	first := served.locker(t)
	first.tells(t, "term 1")
	second := served.locker(t)
	second.tells(t, "waits for process")
	first.signal(t, syscall.SIGTERM)
	first.tells(t, "ended")
	second.tells(t, "term 2")
}

func TestARingThatIsDownEndsNoLock(t *testing.T) {
	served := serve(t, usual)
	first := served.locker(t)
	first.tells(t, "term 1")
	served.Kill()
	first.isSilent(t, 4*time.Second)
	must(t, served.Start())
	first.isSilent(t, 2*time.Second)
	holder, isHeld, err := served.ring(t).Holder(background(t), "red", 0)
	must(t, err)
	same(t, []any{isHeld, holder.Term, holder.PID}, []any{true, 1, first.command.Process.Pid})
}

func TestWhoWaitsForALockWaitsForARingThatIsDown(t *testing.T) {
	served := serve(t, usual)
	first := served.locker(t)
	first.tells(t, "term 1")
	ring, told := served.ring(t), make(chan string, 100)
	ring.Timeout = 500 * time.Millisecond
	lock, ended := NewLock(ring, "red", LockOptions{Tell: func(text string) { told <- text }}), make(chan error)
	go func() { ended <- lock.Acquire(context.Background()) }()
	same(t, strings.HasPrefix(<-told, "waits for process"), true)
	served.Kill()
	first.command.Process.Kill()
	for range make([]struct{}, 3) {
		same(t, strings.HasPrefix(<-told, "waits for the ring"), true)
	}
	must(t, served.Start())
	must(t, <-ended)
	defer lock.Resign()
	same(t, lock.Term(), 2)
}

// The Python package and this one hold the same locks.
func TestLocksOfPythonAndOfGoExcludeEachOther(t *testing.T) {
	served := serve(t, usual)
	ring := served.ring(t)
	script := []string{"lock", "--patience", "1", "--text", "a job in Python", "red", "--", "sh", "-c",
		"echo term $CINOWETA_TERM; exec sleep 60"}
	python := served.python(t, script...)
	python.tells(t, "term 1")
	holder, isHeld, err := ring.Holder(background(t), "red", 0)
	must(t, err)
	same(t, []any{isHeld, holder.PID, holder.Text}, []any{true, python.command.Process.Pid, "a job in Python"})
	lock := NewLock(ring, "red", LockOptions{Patience: time.Second, Text: "a job in Go"})
	same(t, as[*LockTakenError](t, lock.TryAcquire(background(t))).Holder, holder)
	locker := served.locker(t)
	locker.tells(t, fmt.Sprintf("waits for process %d (a job in Python)", holder.PID))
	locker.isSilent(t, 1_500*time.Millisecond)
	python.signal(t, syscall.SIGSTOP)
	locker.tells(t, "term 2")
	python.signal(t, syscall.SIGCONT)
	python.tells(t, "cinoweta: red: term 1 is over")

	locker.signal(t, syscall.SIGKILL)
	must(t, lock.Acquire(background(t)))
	same(t, lock.Term(), 3)
	told := served.python(t, "holder", "red").tells(t, "term 3")
	same(t, strings.HasSuffix(told, fmt.Sprintf("process %d a job in Go", os.Getpid())), true)
	own := fmt.Sprintf("process %d (a job in Go)", os.Getpid())
	served.python(t, "lock", "--wait", "0", "red", "--", "true").tells(t, "cinoweta: red: held by "+own)
	python = served.python(t, script...)
	python.tells(t, "cinoweta: red: waits for "+own)
	python.isSilent(t, 1_500*time.Millisecond)
	same(t, holds(t, lock), true)
	lock.Resign()
	python.tells(t, "term 4")
}

// A waiter in Python waits in line at a beacon in Go, and the other way round.
func TestWhoWaitsInPythonAndInGoComesNext(t *testing.T) {
	trial.Tried(t, testWhoWaitsInPythonAndInGoComesNext)
}

func testWhoWaitsInPythonAndInGoComesNext(t *testing.T) {
	served := serve(t, usual)
	ring := served.ring(t)
	lock, second := NewLock(ring, "red", LockOptions{}), NewLock(served.ring(t), "red", LockOptions{Text: "a job in Go"})
	must(t, lock.Acquire(background(t)))
	script := []string{"lock", "--text", "a job in Python", "red", "--", "sh", "-c", "echo term $CINOWETA_TERM; exec sleep 60"}
	python := served.python(t, script...)
	told := fmt.Sprint(python.command.Process.Pid, " a job in Python")
	until(t, "its place", func() bool { return strings.HasSuffix(lock.sign.(*beacon).tellWaiters(), told) })
	ended := make(chan error, 1)
	go func() { ended <- second.Acquire(context.Background()) }()
	defer second.Resign()
	until(t, "the second place", func() bool { return strings.HasPrefix(lock.sign.(*beacon).tellWaiters(), "waiters 2\n") })
	lock.Resign()
	python.tells(t, "term 2")
	// The other one went on to wait there.
	known := latest(t, ring, 2, 1)
	until(t, "its line", func() bool {
		asked := fmt.Sprint("waiters ", known.Leader.Bid)
		answer, _ := askBeacon(background(t), known.Leader.Bid, asked, time.Second)
		return strings.HasPrefix(answer, "waiters 1\n") && strings.HasSuffix(answer, fmt.Sprint(os.Getpid(), " a job in Go"))
	})
	same(t, len(ended), 0)
	before := time.Now()
	python.signal(t, syscall.SIGTERM)
	must(t, <-ended)
	trial.Took(t, time.Since(before), 0, 5*time.Second)
	same(t, second.Term(), 3)
}

// serveAcross serves a ring of another host, which ends the session of a silent client.
func serveAcross(t *testing.T) served {
	t.Helper()
	return serveAt(t, otherHost, usual, "--idle", "2")
}

// isHeld looks that the lock of `red` is held across hosts in this term.
func isHeld(t *testing.T, ring *Ring, term int) {
	t.Helper()
	holder, isHeld, err := NewLock(ring, "red", LockOptions{AcrossHosts: true}).Holder(background(t))
	must(t, err)
	same(t, []any{isHeld, holder.Term, holder.PID, holder.Text}, []any{true, term, 0, ""})
}

// isFree waits until nobody holds that lock: ringd sees the end of a session a moment later.
func isFree(t *testing.T, ring *Ring) {
	t.Helper()
	until(t, "the end of the lock", func() bool {
		_, isHeld, err := NewLock(ring, "red", LockOptions{AcrossHosts: true}).Holder(background(t))
		must(t, err)
		return !isHeld
	})
}

func TestLocksAcrossHostsAreHeldOneBehindTheOther(t *testing.T) {
	served := serveAcross(t)
	takeTurns(t, served, 3, LockOptions{AcrossHosts: true})
	isFree(t, served.ring(t))
}

func TestWhoIsKilledOrPausedLosesALockAcrossHosts(t *testing.T) {
	served := serveAcross(t)
	first := served.acrossLocker(t)
	first.tells(t, "term 1")
	isHeld(t, served.ring(t), 1)
	second := served.acrossLocker(t)
	second.tells(t, "waits for node")
	second.isSilent(t, 2_500*time.Millisecond)
	first.signal(t, syscall.SIGKILL)
	second.tells(t, "term 2")
	third := served.acrossLocker(t)
	third.tells(t, "waits for node")
	third.isSilent(t, 2_500*time.Millisecond)
	second.signal(t, syscall.SIGSTOP)
	third.tells(t, "term 3")
	second.signal(t, syscall.SIGCONT)
	second.tells(t, "lost 2")
	third.isSilent(t, 100*time.Millisecond)
	third.signal(t, syscall.SIGTERM)
	third.tells(t, "ended")
	isFree(t, served.ring(t))
}

func TestALockAcrossHostsOutlivesStartsOfRingd(t *testing.T) {
	served := serveAcross(t)
	first := served.acrossLocker(t)
	first.tells(t, "term 1")
	second := served.acrossLocker(t)
	second.tells(t, "waits for node")
	for range make([]struct{}, 3) {
		served.Kill()
		second.tells(t, "waits for the ring")
		must(t, served.Start())
		second.tells(t, "waits for node")
		second.isSilent(t, 2_500*time.Millisecond)
		isHeld(t, served.ring(t), 1)
	}
	first.isSilent(t, 100*time.Millisecond)
}

func TestLocksAcrossHostsOfPythonAndOfGoExcludeEachOther(t *testing.T) {
	served := serveAcross(t)
	ring := served.ring(t)
	words := []string{"--across-hosts", "--status", fmt.Sprint(ring.Status), "red"}
	script := append(append([]string{"lock"}, words...), "--", "sh", "-c", "echo term $CINOWETA_TERM; exec sleep 60")
	python := served.python(t, script...)
	python.tells(t, "term 1")
	isHeld(t, ring, 1)
	lock := NewLock(ring, "red", LockOptions{AcrossHosts: true})
	as[*LockTakenError](t, lock.TryAcquire(background(t)))
	python.signal(t, syscall.SIGTERM)
	must(t, lock.Acquire(background(t)))
	same(t, lock.Term(), 2)
	served.python(t, append([]string{"holder"}, words...)...).tells(t, "term 2")
	python = served.python(t, script...)
	python.tells(t, "cinoweta: red: waits for node")
	python.isSilent(t, 2_500*time.Millisecond)
	same(t, holds(t, lock), true)
	lock.Resign()
	python.tells(t, "term 3")
}

func TestAThousandLocksAcrossHostsTakeADoorANode(t *testing.T) {
	served := serve(t, 1_048_576)
	ring, locks := served.ring(t), []*Lock{}
	for number := 0; number < 1_000; number++ {
		lock := NewLock(ring, fmt.Sprint("g", number), LockOptions{AcrossHosts: true})
		t.Cleanup(lock.Resign)
		must(t, lock.Acquire(background(t)))
		locks = append(locks, lock)
	}
	told := func() []int64 {
		status, err := Status(background(t), ring.Host, ring.Status)
		must(t, err)
		busy := []int64{}
		for _, node := range status.Nodes {
			busy = append(busy, node.Sessions.Busy)
		}
		return busy
	}
	until(t, "a door a node", func() bool { return fmt.Sprint(told()) == "[1 1 1]" })
	for _, lock := range locks {
		_, isHeld, err := lock.Holder(background(t))
		must(t, err)
		same(t, isHeld, true)
	}
	for _, lock := range locks {
		lock.Resign()
	}
	until(t, "no door", func() bool { return fmt.Sprint(told()) == "[0 0 0]" })
}
