package cinoweta

import (
	"io"
	"net"
	"strconv"
	"strings"
	"syscall"
	"testing"
	"time"

	"cinoweta/internal/trial"
)

func TestWhatABeaconMayTell(t *testing.T) {
	wide, long := strings.Repeat("ä", 101), strings.Repeat("x", 201)
	for _, text := range []string{"a\nb", long, wide, "\xff"} {
		if _, err := newBeacon(0, text); err == nil {
			t.Fatalf("%q is taken", text)
		}
	}
}

func TestBidsThatNoBeaconMade(t *testing.T) {
	trial.Tried(t, testBidsThatNoBeaconMade)
}

func testBidsThatNoBeaconMade(t *testing.T) {
	leavesNone(t)
	// 0 names the port 0, the second one the port 65,573.
	same(t, portOf(99_999_999), 65_573)
	before := time.Now()
	for _, bid := range []int{0, 99_999_999, 10, 999_999_999} {
		same(t, isThere(background(t), bid, 30*time.Second), false)
	}
	trial.Took(t, time.Since(before), 0, 3*time.Second)
}

func TestABeaconAnswersToItsOwnBidAlone(t *testing.T) {
	leavesNone(t)
	beacon, err := newBeacon(3, strings.Repeat("ä", 100))
	must(t, err)
	defer beacon.close()
	same(t, beacon.bid()/bidRank, 3)
	same(t, isThere(background(t), beacon.bid(), time.Second), true)
	other := beacon.bid() + 1
	if portOf(other) != portOf(beacon.bid()) {
		other = beacon.bid() - 1
	}
	same(t, isThere(background(t), other, time.Second), false)
	holder, isTold := holderOf(background(t), Led{1, Leader{1, beacon.bid()}}, time.Second)
	same(t, []any{isTold, holder.Text}, []any{true, strings.Repeat("ä", 100)})
}

func TestABeaconThatIsSilentIsNotThere(t *testing.T) {
	trial.Tried(t, testABeaconThatIsSilentIsNotThere)
}

func testABeaconThatIsSilentIsNotThere(t *testing.T) {
	leavesNone(t)
	listener, err := net.Listen("tcp", address("", 0))
	must(t, err)
	defer listener.Close()
	before := time.Now()
	bid := listener.Addr().(*net.TCPAddr).Port * bidSpread
	same(t, isThere(background(t), bid, 200*time.Millisecond), false)
	took := time.Since(before)
	trial.Took(t, took, 200*time.Millisecond, time.Second)
}

// answers answers to the first line with this text.
func answers(text string) func(conn net.Conn) {
	return func(conn net.Conn) {
		conn.Read(make([]byte, longestQuestion))
		conn.Write([]byte(text))
	}
}

// serverOf gives the bid of a server that does so with one connection after the other, before it ends each. The last
// one it answers as a beacon of that bid.
func serverOf(t *testing.T, does ...func(conn net.Conn)) int {
	t.Helper()
	leavesNone(t)
	listener, err := net.Listen("tcp", address(ownHost, 0))
	must(t, err)
	t.Cleanup(func() { listener.Close() })
	bid := listener.Addr().(*net.TCPAddr).Port * bidSpread
	go func() {
		for _, do := range append(does, answers(strconv.Itoa(bid)+"\n")) {
			conn, err := listener.Accept()
			if err != nil {
				return
			}
			do(conn)
			conn.Close()
		}
	}()
	return bid
}

func TestABeaconIsAskedAgainWhereThatMayHelp(t *testing.T) {
	trial.Tried(t, testABeaconIsAskedAgainWhereThatMayHelp)
}

func testABeaconIsAskedAgainWhereThatMayHelp(t *testing.T) {
	slow := func(conn net.Conn) {
		conn.Read(make([]byte, longestQuestion))
		time.Sleep(beaconLimit)
	}
	reset := func(conn net.Conn) {
		conn.Read(make([]byte, longestQuestion))
		conn.(*net.TCPConn).SetLinger(0)
	}
	sees := func(wanted bool, does ...func(conn net.Conn)) {
		t.Helper()
		before := time.Now()
		same(t, isThere(background(t), serverOf(t, does...), 30*time.Second), wanted)
		trial.Took(t, time.Since(before), 0, 3*time.Second)
	}
	sees(true, slow)
	sees(true, reset, reset)
	for _, text := range []string{"", "1", "none\n", strings.Repeat("x", 300)} {
		sees(false, answers(text), answers(text), answers(text))
	}
}

// wanting has no descriptor be free for this time, and gives what waits until one is.
func wanting(t *testing.T, length time.Duration) (restore func()) {
	t.Helper()
	var limit syscall.Rlimit
	must(t, syscall.Getrlimit(syscall.RLIMIT_NOFILE, &limit))
	none, restored := limit, make(chan error)
	none.Cur = 3
	must(t, syscall.Setrlimit(syscall.RLIMIT_NOFILE, &none))
	time.AfterFunc(length, func() { restored <- syscall.Setrlimit(syscall.RLIMIT_NOFILE, &limit) })
	return func() { must(t, <-restored) }
}

func TestABeaconIsAskedAgainWhereDescriptorsAreWanting(t *testing.T) {
	leavesNone(t)
	beacon, err := newBeacon(0, "")
	must(t, err)
	defer beacon.close()
	restore := wanting(t, 300*time.Millisecond)
	isSeen := isThere(background(t), beacon.bid(), 30*time.Second)
	restore()
	same(t, isSeen, true)
}

func TestABeaconThatCouldNotBeAskedIsNotGone(t *testing.T) {
	leavesNone(t)
	beacon, err := newBeacon(0, "")
	must(t, err)
	defer beacon.close()
	restore := wanting(t, 600*time.Millisecond)
	isSeen := isThere(background(t), beacon.bid(), 200*time.Millisecond)
	_, isTold := holderOf(background(t), Led{1, Leader{1, beacon.bid()}}, 200*time.Millisecond)
	restore()
	same(t, []bool{isSeen, isTold}, []bool{true, false})
	// Once it may be asked it is seen whether it is there.
	same(t, isThere(background(t), beacon.bid(), time.Second), true)
	beacon.close()
	same(t, isThere(background(t), beacon.bid(), time.Second), false)
}

func TestAnotherServerIsNoBeacon(t *testing.T) {
	for _, told := range []string{"none", "HTTP/1.1 400", "5 7 text", "holder"} {
		_, nodes := beside(t, always(told), deaf)
		bid := nodes[0].listener.Addr().(*net.TCPAddr).Port * bidSpread
		same(t, isThere(background(t), bid, time.Second), false)
		_, isTold := holderOf(background(t), Led{1, Leader{1, bid}}, time.Second)
		same(t, isTold, false)
	}
}

func TestAClientThatIsSilentDoesNotKeepABeacon(t *testing.T) {
	leavesNone(t)
	beacon, err := newBeacon(0, "")
	must(t, err)
	defer beacon.close()
	conn, err := net.Dial("tcp", beacon.listener.Addr().String())
	must(t, err)
	defer conn.Close()
	same(t, isThere(background(t), beacon.bid(), 2*time.Second), true)
}

// silent opens so many connections to a beacon, which ask nothing.
func silent(t *testing.T, beacon *beacon, count int) []net.Conn {
	t.Helper()
	conns := make([]net.Conn, count)
	for place := range conns {
		conn, err := net.Dial("tcp", beacon.listener.Addr().String())
		must(t, err)
		t.Cleanup(func() { conn.Close() })
		conns[place] = conn
	}
	return conns
}

func TestClientsThatAreSilentDoNotTakeABeaconFromOthers(t *testing.T) {
	trial.Tried(t, testClientsThatAreSilentDoNotTakeABeaconFromOthers)
}

func testClientsThatAreSilentDoNotTakeABeaconFromOthers(t *testing.T) {
	leavesNone(t)
	beacon, err := newBeacon(0, "")
	must(t, err)
	defer beacon.close()
	// Also more than are answered side by side: who came first is told to come again.
	for _, count := range []int{100, mostClients + 50} {
		begun := time.Now()
		conns := silent(t, beacon, count)
		before := time.Now()
		same(t, isThere(background(t), beacon.bid(), 30*time.Second), true)
		trial.Took(t, time.Since(before), 0, 2*time.Second)
		// On a slow machine it was left before, since it asked nothing.
		if count > mostClients && time.Since(begun) < beaconLimit {
			conns[0].SetDeadline(time.Now().Add(30 * time.Second))
			_, err = conns[0].Read(make([]byte, 1))
			is(t, err, syscall.ECONNRESET)
		}
	}
	beacon.mutex.Lock()
	defer beacon.mutex.Unlock()
	same(t, len(beacon.clients) <= mostClients, true)
}

func TestABeaconEndsWithItsClients(t *testing.T) {
	trial.Tried(t, testABeaconEndsWithItsClients)
}

func testABeaconEndsWithItsClients(t *testing.T) {
	leavesNone(t)
	beacon, err := newBeacon(0, "")
	must(t, err)
	conns := silent(t, beacon, 20)
	same(t, isThere(background(t), beacon.bid(), time.Second), true)
	before := time.Now()
	beacon.close()
	for _, conn := range conns {
		_, err = conn.Read(make([]byte, 1))
		is(t, err, io.EOF)
	}
	trial.Took(t, time.Since(before), 0, beaconLimit)
	same(t, isThere(background(t), beacon.bid(), 30*time.Second), false)
}
