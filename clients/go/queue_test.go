package cinoweta

import (
	"bufio"
	"context"
	"errors"
	"fmt"
	"io"
	"net"
	"strings"
	"sync/atomic"
	"syscall"
	"testing"
	"time"

	"cinoweta/internal/trial"
)

// A caller speaks to a beacon in lines.
type caller struct {
	conn  net.Conn
	lines *bufio.Reader
}

func call(t *testing.T, beacon *beacon) *caller {
	t.Helper()
	conn, err := net.Dial("tcp", beacon.listener.Addr().String())
	must(t, err)
	t.Cleanup(func() { conn.Close() })
	conn.SetDeadline(time.Now().Add(20 * time.Second))
	return &caller{conn, bufio.NewReader(conn)}
}

// wait has it wait in line with this bid, since that millisecond.
func (c *caller) wait(t *testing.T, beacon *beacon, bid int, since int64, text string) {
	t.Helper()
	c.says(t, fmt.Sprintf("wait %d %d %d 7 %s", beacon.bid(), bid, since, text))
}

func (c *caller) says(t *testing.T, line string) {
	t.Helper()
	_, err := c.conn.Write([]byte(line + "\n"))
	must(t, err)
}

// hears looks that the beacon tells these lines; "" where it ends the connection.
func (c *caller) hears(t *testing.T, lines ...string) {
	t.Helper()
	for _, wanted := range lines {
		c.hear(t, wanted)
	}
}

// hear looks that the beacon tells this line, or ends the connection, and gives what it told.
func (c *caller) hear(t *testing.T, wanted string) {
	t.Helper()
	line, err := c.lines.ReadString('\n')
	same(t, strings.TrimSuffix(line, "\n"), wanted)
	if isEnd := errors.Is(err, io.EOF) || errors.Is(err, syscall.ECONNRESET); isEnd != (wanted == "") {
		t.Fatalf("came %v behind %q", err, wanted)
	}
}

// skips drops the places that the beacon tells, up to this line.
func (c *caller) skips(t *testing.T, wanted string) {
	t.Helper()
	for {
		begin, err := c.lines.Peek(5)
		if err != nil || string(begin) != "place" {
			c.hear(t, wanted)
			return
		}
		_, err = c.lines.ReadString('\n')
		must(t, err)
	}
}

// beaconOf gives a beacon that tells of `a holder`.
func beaconOf(t *testing.T) *beacon {
	t.Helper()
	leavesNone(t)
	made, err := newBeacon(0, "a holder")
	must(t, err)
	t.Cleanup(func() { made.close() })
	return made
}

func TestABeaconKeepsWhoWaitsInLine(t *testing.T) {
	beacon := beaconOf(t)
	first, second, third, ranked := call(t, beacon), call(t, beacon), call(t, beacon), call(t, beacon)
	second.wait(t, beacon, 20, 700, "b")
	second.hears(t, "place 1")
	third.wait(t, beacon, 30, 1<<40, "")
	third.hears(t, "place 2")
	// It waits for longer, elsewhere.
	first.wait(t, beacon, 10, 500, "a b")
	first.hears(t, "place 1")
	second.hears(t, "place 2")
	third.hears(t, "place 3")
	// A rank goes first.
	ranked.wait(t, beacon, 2*bidRank, 999_999_999_999_999, "ä")
	ranked.hears(t, "place 1")
	first.hears(t, "place 2")
	asks := call(t, beacon)
	asks.says(t, fmt.Sprint("waiters ", beacon.bid()))
	asks.hears(t, "waiters 4", "200000000 7 ä", "10 7 a b", "20 7 b", "30 7 ", "")
	// Who leaves, who waits anew with its bid, and who says what is no line, gives its place up.
	ranked.conn.Close()
	first.hears(t, "place 1")
	again := call(t, beacon)
	again.wait(t, beacon, 20, 600, "b")
	again.hears(t, "place 2")
	second.skips(t, "")
	first.says(t, "wait")
	first.hears(t, "")
	again.hears(t, "place 1")
	again.says(t, fmt.Sprint(beacon.bid()))
	again.hears(t, fmt.Sprint(beacon.bid()))
	same(t, beacon.close(), 20)
	again.hears(t, "turn", "")
	third.skips(t, "after 20")
	third.hears(t, "")
}

func TestLinesThatABeaconDoesNotKeep(t *testing.T) {
	beacon := beaconOf(t)
	own := fmt.Sprint(beacon.bid())
	for _, line := range []string{"", "wait", "wait " + own, "wait " + own + " 5 0", "wait " + own + " 0 0 7 a", "wait 5 5 0 7 a",
		"wait " + own + " 5 x 7 a", "wait " + own + " 5 -1 7 a", "wait " + own + " 5 0 1234567890 a",
		"wait " + own + " 1234567890 0 7 a", "wait " + own + " 5 1234567890123456 7 a", "wait " + own + " x 0 7 a",
		"wait " + own + " 5 0 7 a\tb", "wait " + own + " 5 0 7 \xff", "wait " + own + " 5 0 7 " + strings.Repeat("x", 201),
		"wait " + own + " 5 0 7 " + strings.Repeat("ä", 150), strings.Repeat("x", 10_000), "hello"} {
		asks := call(t, beacon)
		asks.conn.Write([]byte(line + "\n"))
		asks.hears(t, "")
	}
	// The text may be left out, or be as long as it may.
	for bid, behind := range map[int]string{5: "", 6: " ", 7: " " + strings.Repeat("ä", 100)} {
		asks := call(t, beacon)
		asks.says(t, fmt.Sprintf("wait %s %d 0 7%s", own, bid, behind))
		asks.hears(t, "place 1")
		asks.conn.Close()
		until(t, "its end", func() bool { return beacon.tellWaiters() == "waiters 0" })
	}
}

func TestWhoWaitsInLineIsNotPushedOut(t *testing.T) {
	trial.NeedsDescriptors(t, 1_200)
	beacon := beaconOf(t)
	waiters := []*caller{}
	for place := range make([]struct{}, mostWaiters) {
		waiter := call(t, beacon)
		waiter.wait(t, beacon, 5+place, int64(place), "")
		waiter.hears(t, fmt.Sprint("place ", 1+place))
		waiters = append(waiters, waiter)
	}
	// No further one is taken, and connections that ask nothing push none out.
	beyond := call(t, beacon)
	beyond.wait(t, beacon, 1_000, 0, "")
	beyond.hears(t, "")
	silent(t, beacon, mostClients+50)
	for _, waiter := range waiters {
		waiter.says(t, fmt.Sprint(beacon.bid()))
		waiter.hears(t, fmt.Sprint(beacon.bid()))
	}
	same(t, beacon.close(), 5)
	waiters[0].hears(t, "turn", "")
	waiters[mostWaiters-1].hears(t, "after 5", "")
}

func TestWhoWaitsInLineAndIsSilentIsLetGo(t *testing.T) {
	trial.Tried(t, testWhoWaitsInLineAndIsSilentIsLetGo)
}

func testWhoWaitsInLineAndIsSilentIsLetGo(t *testing.T) {
	beacon := beaconOf(t)
	before, silent, asks := time.Now(), call(t, beacon), call(t, beacon)
	silent.wait(t, beacon, 5, 0, "")
	silent.hears(t, "place 1")
	asks.wait(t, beacon, 6, 1, "")
	asks.hears(t, "place 2")
	time.Sleep(silentLimit - 500*time.Millisecond)
	asks.says(t, fmt.Sprint(beacon.bid()))
	asks.hears(t, fmt.Sprint(beacon.bid()))
	silent.hears(t, "")
	took := time.Since(before)
	trial.Took(t, took, silentLimit, silentLimit+time.Second)
	asks.hears(t, "place 1")
}

func TestWhoIsToldTheEndDoesNotHoldItUp(t *testing.T) {
	trial.Tried(t, testWhoIsToldTheEndDoesNotHoldItUp)
}

func testWhoIsToldTheEndDoesNotHoldItUp(t *testing.T) {
	beacon := beaconOf(t)
	waiter := call(t, beacon)
	waiter.wait(t, beacon, 5, 0, "")
	waiter.hears(t, "place 1")
	// What it sent last is not read.
	_, err := waiter.conn.Write([]byte("half a line"))
	must(t, err)
	before := time.Now()
	same(t, beacon.close(), 5)
	same(t, beacon.close(), 0)
	trial.Took(t, time.Since(before), 0, time.Second)
	waiter.hears(t, "turn")
}

// inLine has so many locks of `red` wait for it, one behind the other, and gives them with their ends.
func inLine(t *testing.T, ring *Ring, holder *beacon, count int) ([]*Lock, []chan error) {
	t.Helper()
	locks, ended := []*Lock{}, []chan error{}
	for place := range make([]struct{}, count) {
		lock, end := lockOf(t, ring, LockOptions{Text: fmt.Sprint("lock ", place)}), make(chan error, 1)
		go func() { end <- lock.Acquire(background(t)) }()
		until(t, "its place", func() bool { return strings.Contains(holder.tellWaiters(), lock.how.Text) })
		locks, ended = append(locks, lock), append(ended, end)
	}
	return locks, ended
}

// leads gives a beacon that leads for `red` in term 1.
func leads(t *testing.T, votes *votes) *beacon {
	t.Helper()
	holder, err := newBeacon(0, "a holder")
	must(t, err)
	t.Cleanup(func() { holder.close() })
	votes.stand(1, Leader{1, holder.bid()})
	return holder
}

func TestLocksAreHeldInTheOrderInWhichTheyAreWaitedFor(t *testing.T) {
	trial.Tried(t, testLocksAreHeldInTheOrderInWhichTheyAreWaitedFor)
}

func testLocksAreHeldInTheOrderInWhichTheyAreWaitedFor(t *testing.T) {
	ring, _, votes := elected(t)
	holder := leads(t, votes)
	locks, ended := inLine(t, ring, holder, 5)
	holder.close()
	for place, lock := range locks {
		before := time.Now()
		must(t, <-ended[place])
		trial.Took(t, time.Since(before), 0, askEvery)
		same(t, lock.Term(), 2+place)
		for _, end := range ended[place+1:] {
			same(t, len(end), 0)
		}
		// The others came to wait there.
		until(t, "the line", func() bool {
			return strings.HasPrefix(lock.sign.(*beacon).tellWaiters(), fmt.Sprint("waiters ", len(locks)-place-1))
		})
		lock.Resign()
	}
}

func TestWhoGaveALockBackComesLast(t *testing.T) {
	trial.Tried(t, testWhoGaveALockBackComesLast)
}

func testWhoGaveALockBackComesLast(t *testing.T) {
	ring, _, _ := elected(t)
	first := lockOf(t, ring, LockOptions{Text: "again"})
	must(t, first.Acquire(background(t)))
	locks, ended := inLine(t, ring, first.sign.(*beacon), 2)
	first.Resign()
	again := make(chan error, 1)
	go func() { again <- first.Acquire(background(t)) }()
	for place, lock := range locks {
		must(t, <-ended[place])
		same(t, len(again), 0)
		until(t, "who gave it back", func() bool {
			return strings.HasSuffix(lock.sign.(*beacon).tellWaiters(), " again")
		})
		lock.Resign()
	}
	must(t, <-again)
	same(t, first.Term(), 4)
	// Where nobody waits it is there at once, and where who comes next does not, within the grace.
	first.Resign()
	before := time.Now()
	must(t, first.Acquire(background(t)))
	trial.Took(t, time.Since(before), 0, askEvery)
	waiter := call(t, first.sign.(*beacon))
	waiter.wait(t, first.sign.(*beacon), 5, 0, "")
	waiter.hears(t, "place 1")
	first.Resign()
	before = time.Now()
	must(t, first.Acquire(background(t)))
	took := time.Since(before)
	trial.Took(t, took, grace, grace+askEvery)
}

func TestWhoIsFirstInLineOfAHolderThatIsKilledComesNext(t *testing.T) {
	trial.Tried(t, testWhoIsFirstInLineOfAHolderThatIsKilledComesNext)
}

func testWhoIsFirstInLineOfAHolderThatIsKilledComesNext(t *testing.T) {
	ring, _, votes := elected(t)
	holder := leads(t, votes)
	locks, ended := inLine(t, ring, holder, 2)
	before := time.Now()
	holder.listener.Close()
	holder.mutex.Lock()
	for _, waiter := range holder.waiters {
		waiter.conn.Close()
	}
	holder.mutex.Unlock()
	must(t, <-ended[0])
	trial.Took(t, time.Since(before), 0, askEvery)
	time.Sleep(grace)
	same(t, []int{locks[0].Term(), len(ended[1])}, []int{2, 0})
	locks[0].Resign()
	must(t, <-ended[1])
}

// standsIn gives a listener that stands in for a beacon, and leads for `red` in term 1. Each connection is handled so.
func standsIn(t *testing.T, votes *votes, handle func(conn net.Conn, line string)) net.Listener {
	t.Helper()
	listener, err := net.Listen("tcp", address(ownHost, 0))
	must(t, err)
	t.Cleanup(func() { listener.Close() })
	votes.stand(1, Leader{1, listener.Addr().(*net.TCPAddr).Port * bidSpread})
	go func() {
		for conn, err := listener.Accept(); err == nil; conn, err = listener.Accept() {
			go func(conn net.Conn) {
				defer conn.Close()
				for lines := bufio.NewScanner(conn); lines.Scan(); {
					handle(conn, lines.Text())
				}
			}(conn)
		}
	}()
	return listener
}

func TestWhoIsNotFirstInLineOfAHolderThatIsKilledWaitsForAMoment(t *testing.T) {
	trial.Tried(t, testWhoIsNotFirstInLineOfAHolderThatIsKilledWaitsForAMoment)
}

func testWhoIsNotFirstInLineOfAHolderThatIsKilledWaitsForAMoment(t *testing.T) {
	for place, least := range map[int]time.Duration{1: 0, 2: grace} {
		place := place
		ring, _, votes := elected(t)
		killed := make(chan time.Time, 1)
		var listener net.Listener
		ready := make(chan struct{})
		listener = standsIn(t, votes, func(conn net.Conn, line string) {
			<-ready
			if !strings.HasPrefix(line, "wait") {
				fmt.Fprintln(conn, strings.TrimPrefix(line, "holder "))
				return
			}
			fmt.Fprintln(conn, "place", place)
			time.Sleep(100 * time.Millisecond)
			listener.Close()
			killed <- time.Now()
			conn.Close()
		})
		close(ready)
		must(t, lockOf(t, ring, LockOptions{}).Acquire(background(t)))
		took := time.Since(<-killed)
		trial.Took(t, took, least, least+askEvery)
	}
}

func TestAHolderThatIsPausedIsGoneForWhoWaitsInLine(t *testing.T) {
	trial.Tried(t, testAHolderThatIsPausedIsGoneForWhoWaitsInLine)
}

func testAHolderThatIsPausedIsGoneForWhoWaitsInLine(t *testing.T) {
	ring, _, votes := elected(t)
	var paused atomic.Bool
	var waits atomic.Int32
	standsIn(t, votes, func(conn net.Conn, line string) {
		switch {
		case paused.Load():
		case strings.HasPrefix(line, "wait"):
			waits.Add(1)
			fmt.Fprintln(conn, "place 1")
		default:
			fmt.Fprintln(conn, line)
		}
	})
	lock := lockOf(t, ring, LockOptions{Patience: time.Second})
	ended, before := make(chan error, 1), time.Now()
	go func() { ended <- lock.Acquire(background(t)) }()
	time.AfterFunc(2500*time.Millisecond, func() { paused.Store(true) })
	must(t, <-ended)
	took := time.Since(before)
	trial.Took(t, took, 3*time.Second, 5500*time.Millisecond)
	// It was asked over the connection that was kept.
	same(t, waits.Load(), 1)
}

func TestAHolderThatEndsAConnectionMayAnswerLate(t *testing.T) {
	ring, _, votes := elected(t)
	var waits atomic.Int32
	standsIn(t, votes, func(conn net.Conn, line string) {
		switch {
		case strings.HasPrefix(line, "wait"):
			waits.Add(1)
			fmt.Fprintln(conn, "place 1")
			time.Sleep(100 * time.Millisecond)
			conn.Close()
		case strings.HasPrefix(line, "holder"):
			fmt.Fprintln(conn, strings.TrimPrefix(line, "holder "))
		default:
			time.Sleep(600 * time.Millisecond)
			fmt.Fprintln(conn, line)
		}
	})
	ctx, cancel := context.WithTimeout(background(t), 3*time.Second)
	defer cancel()
	as[*LockTakenError](t, lockOf(t, ring, LockOptions{Patience: DefaultPatience}).Acquire(ctx))
	same(t, []any{len(votes.stood), waits.Load() > 1}, []any{1, true})
}

func TestWhoWasPausedMissedNoAnswer(t *testing.T) {
	holder := beaconOf(t)
	for late, isSilent := range map[time.Duration]bool{0: true, time.Minute: false} {
		line := fmt.Sprintf("wait %d 5 0 7 ", holder.bid())
		place := newPlace(background(t), holder.bid(), line, time.Second)
		place.missed = time.Now().Add(-time.Second - late)
		_, isNext := place.await(background(t), time.Second)
		same(t, []bool{isNext, place.isSilent}, []bool{false, isSilent})
		place.leave()
	}
}

func TestABeaconWithoutALineIsAskedOnceASecond(t *testing.T) {
	trial.Tried(t, testABeaconWithoutALineIsAskedOnceASecond)
}

func testABeaconWithoutALineIsAskedOnceASecond(t *testing.T) {
	ring, _, votes := elected(t)
	var asked atomic.Int32
	listener := standsIn(t, votes, func(conn net.Conn, line string) {
		if asked.Add(1); strings.HasPrefix(line, "wait") {
			conn.Close()
			return
		}
		fmt.Fprintln(conn, strings.TrimPrefix(line, "holder "))
	})
	lock := lockOf(t, ring, LockOptions{})
	ended := make(chan error, 1)
	go func() { ended <- lock.Acquire(background(t)) }()
	time.Sleep(2500 * time.Millisecond)
	same(t, []any{len(ended), asked.Load() < 12}, []any{0, true})
	before := time.Now()
	listener.Close()
	must(t, <-ended)
	trial.Took(t, time.Since(before), 0, 1500*time.Millisecond)
	same(t, lock.Term(), 2)
}

func TestWhoWaitsInLineLeavesItWithItsContext(t *testing.T) {
	trial.Tried(t, testWhoWaitsInLineLeavesItWithItsContext)
}

func testWhoWaitsInLineLeavesItWithItsContext(t *testing.T) {
	ring, _, votes := elected(t)
	holder := leads(t, votes)
	ctx, cancel := context.WithTimeout(background(t), 300*time.Millisecond)
	defer cancel()
	before := time.Now()
	as[*LockTakenError](t, lockOf(t, ring, LockOptions{}).Acquire(ctx))
	trial.Took(t, time.Since(before), 0, time.Second)
	until(t, "an empty line", func() bool { return holder.tellWaiters() == "waiters 0" })
}
