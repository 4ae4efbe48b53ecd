package cinoweta

import (
	"bufio"
	"context"
	"errors"
	"fmt"
	"io"
	"net"
	"os"
	"sort"
	"strconv"
	"strings"
	"sync"
	"syscall"
	"time"
	"unicode"
	"unicode/utf8"
)

const (
	// A bid is rank * bidRank + port * bidSpread + a random number below bidSpread.
	bidRank, bidSpread = 100_000_000, 1_525
	// The lines that a beacon takes, and what it tells of its holder, are no longer, in bytes.
	longestQuestion, longestText = 300, 200
	// So long a beacon waits for a client's line, and for that of one that waits in line. Who ends a connection sooner than
	// in earlyEnd did not wait, and is no beacon of this bid.
	beaconLimit, silentLimit, earlyEnd = 500 * time.Millisecond, 5 * time.Second, 400 * time.Millisecond
	// So long it takes at most to tell those who wait that its holder resigned.
	farewellLimit = 500 * time.Millisecond
	// So many clients that asked nothing yet a beacon serves side by side, and so many wait in line. Where one more comes,
	// who came first of those has its connection reset, behind which it asks again.
	mostClients, mostWaiters = 256, 256
	// No port is greater.
	lastPort = 65_535
)

// portOf is the port that a bid names, which may be none.
func portOf(bid int) int {
	return bid % bidRank / bidSpread
}

// A beacon answers at a port of 127.0.0.1 while this process runs, and is neither paused nor killed: to its bid with
// its bid, and to `holder` and its bid with the process and the text too. So others of its host see whether who leads
// is still there. Who waits keeps a connection, and is told its place in line, and who comes next where the holder
// resigns. docs/SESSIONS.md tells the lines.
type beacon struct {
	own      int
	listener net.Listener
	answers  map[string]string

	mutex sync.Mutex
	// Those that asked nothing yet, in the order in which they came, and those that wait, whose turn comes first first.
	clients, waiters []*client
	isOver           bool
}

// A client is a connection to a beacon.
type client struct {
	conn net.Conn
	// Of one that waits in line, the bid with which it will stand, what others are told of it, since when it waits, in
	// milliseconds of the Unix clock, and its place, with what wakes who tells it that.
	own   int
	text  string
	since int64
	place int
	moved chan struct{}
}

// requireText gives an error where a holder may not tell this of itself.
func requireText(text string) error {
	if !isLine(text) || len(text) > longestText {
		return errors.New("cinoweta: a holder's text is one printable line of 200 bytes at most")
	}
	return nil
}

func newBeacon(rank int, text string) (*beacon, error) {
	if err := requireText(text); err != nil {
		return nil, err
	}
	number, err := randomBelow(bidSpread)
	if err != nil {
		return nil, err
	}
	listener, err := net.Listen("tcp", address(ownHost, 0))
	if err != nil {
		return nil, fmt.Errorf("cinoweta: %w", err)
	}
	bid := rank*bidRank + listener.Addr().(*net.TCPAddr).Port*bidSpread + number
	own := strconv.Itoa(bid)
	answers := map[string]string{own: own, "holder " + own: fmt.Sprintf("%s %d %s", own, os.Getpid(), text)}
	made := &beacon{own: bid, listener: listener, answers: answers}
	go made.serve()
	return made, nil
}

// bid is that which names its port.
func (b *beacon) bid() int {
	return b.own
}

// show has nothing to do: it answers already.
func (b *beacon) show(context.Context, Led) error {
	return nil
}

// serve answers until the beacon is closed, each client beside the others, so that none keeps it from another one.
func (b *beacon) serve() {
	for {
		conn, err := b.listener.Accept()
		if errors.Is(err, net.ErrClosed) {
			return
		}
		if err != nil {
			// Descriptors are wanting, say.
			time.Sleep(shortestPause)
			continue
		}
		go b.answer(b.enter(conn))
	}
}

// enter has a connection be one of those that asked nothing yet.
func (b *beacon) enter(conn net.Conn) *client {
	b.mutex.Lock()
	defer b.mutex.Unlock()
	made := &client{conn: conn}
	if b.isOver {
		conn.Close()
		return made
	}
	if len(b.clients) == mostClients {
		reset(b.clients[0].conn)
		b.clients = without(b.clients, b.clients[0])
	}
	b.clients = append(b.clients, made)
	return made
}

// leave ends the connection of a client.
func (b *beacon) leave(gone *client) {
	gone.conn.Close()
	b.mutex.Lock()
	defer b.mutex.Unlock()
	b.clients, b.waiters = without(b.clients, gone), without(b.waiters, gone)
	b.arrange()
	if gone.moved != nil {
		close(gone.moved)
	}
}

// answer answers a client's lines until one is none, or it is silent for too long.
func (b *beacon) answer(asks *client) {
	defer b.leave(asks)
	lines := bufio.NewReaderSize(asks.conn, longestQuestion+1)
	for isKept := true; isKept; {
		limit := beaconLimit
		if asks.moved != nil {
			limit = silentLimit
		}
		asks.conn.SetReadDeadline(time.Now().Add(limit))
		line, err := lines.ReadSlice('\n')
		if err != nil {
			return
		}
		isKept = b.answerLine(asks, string(line[:len(line)-1]))
	}
}

// answerLine answers a line, and tells whether the connection is kept.
func (b *beacon) answerLine(asks *client, line string) bool {
	answer, isKnown := b.answers[line]
	switch {
	case line == fmt.Sprint("waiters ", b.own):
		answer = b.tellWaiters()
	case !isKnown:
		return asks.moved == nil && b.keep(asks, line)
	}
	asks.conn.SetWriteDeadline(time.Now().Add(beaconLimit))
	_, err := asks.conn.Write([]byte(answer + "\n"))
	return err == nil && asks.moved != nil
}

// tellWaiters tells who waits in line.
func (b *beacon) tellWaiters() string {
	b.mutex.Lock()
	defer b.mutex.Unlock()
	lines := []string{fmt.Sprint("waiters ", len(b.waiters))}
	for _, waiter := range b.waiters {
		lines = append(lines, waiter.text)
	}
	return strings.Join(lines, "\n")
}

// keep has a client wait in line from now on, where its line says so, and there is room for it.
func (b *beacon) keep(asks *client, line string) bool {
	words := append(strings.SplitN(line, " ", 6), "")
	if len(words) < 6 || words[0] != "wait" || words[1] != strconv.Itoa(b.own) || !isLine(words[5]) || len(words[5]) > longestText {
		return false
	}
	told := [3]int64{}
	for place, longest := range [...]int{9, 15, 9} {
		number, err := strconv.ParseUint(words[2+place], 10, 63)
		if err != nil || len(words[2+place]) > longest {
			return false
		}
		told[place] = int64(number)
	}
	own := int(told[0])
	b.mutex.Lock()
	defer b.mutex.Unlock()
	if b.isOver || own == 0 || len(b.waiters) == mostWaiters {
		return false
	}
	for _, known := range b.waiters {
		if known.own == own {
			known.conn.Close()
		}
	}
	asks.own, asks.since = own, told[1]
	asks.text, asks.moved = fmt.Sprintf("%d %d %s", own, told[2], words[5]), make(chan struct{}, 1)
	b.clients, b.waiters = without(b.clients, asks), append(b.waiters, asks)
	b.arrange()
	go b.tellPlaces(asks)
	return true
}

// arrange gives each who waits its place: the greatest rank comes first, then who waited longest.
func (b *beacon) arrange() {
	sort.SliceStable(b.waiters, func(one, other int) bool {
		ranks := [...]int{b.waiters[one].own / bidRank, b.waiters[other].own / bidRank}
		return ranks[0] > ranks[1] || ranks[0] == ranks[1] && b.waiters[one].since < b.waiters[other].since
	})
	for place, waiter := range b.waiters {
		if waiter.place == place+1 {
			continue
		}
		waiter.place = place + 1
		select {
		case waiter.moved <- struct{}{}:
		default:
		}
	}
}

// tellPlaces tells who waits its place whenever that changed, until it leaves.
func (b *beacon) tellPlaces(waiter *client) {
	for range waiter.moved {
		b.mutex.Lock()
		line := fmt.Sprintf("place %d\n", waiter.place)
		if b.isOver {
			line = ""
		} else {
			waiter.conn.SetWriteDeadline(time.Now().Add(beaconLimit))
		}
		b.mutex.Unlock()
		if _, err := waiter.conn.Write([]byte(line)); err != nil {
			waiter.conn.Close()
		}
	}
}

// close ends the beacon, and its goroutines with it. The first of those who wait is told that it is its turn, the others
// who that is. It gives the bid of the first one, 0 where nobody waits.
func (b *beacon) close() int {
	b.listener.Close()
	b.mutex.Lock()
	defer b.mutex.Unlock()
	if b.isOver {
		return 0
	}
	b.isOver = true
	first, until := 0, time.Now().Add(farewellLimit)
	for place, waiter := range b.waiters {
		line := "turn\n"
		if place == 0 {
			first = waiter.own
		} else {
			line = fmt.Sprintf("after %d\n", first)
		}
		waiter.conn.SetWriteDeadline(until)
		waiter.conn.Write([]byte(line))
		// Who answers it ends the connection.
		waiter.conn.SetReadDeadline(until.Add(-farewellLimit))
	}
	for _, asks := range b.clients {
		asks.conn.Close()
	}
	return first
}

// without gives those clients without this one.
func without(clients []*client, gone *client) []*client {
	for place, client := range clients {
		if client == gone {
			return append(clients[:place], clients[place+1:]...)
		}
	}
	return clients
}

// reset ends a connection so that its other end does not take that for the beacon's.
func reset(conn net.Conn) {
	if link, isLink := conn.(*net.TCPConn); isLink {
		link.SetLinger(0)
	}
	conn.Close()
}

// isLine tells whether a text may be printed on one line.
func isLine(text string) bool {
	for _, letter := range text {
		if !unicode.IsPrint(letter) {
			return false
		}
	}
	return utf8.ValidString(text)
}

// askBeacon gives what the beacon of this bid answers to a line within so long; nothing where it does not. It is asked
// again where a connection came to nothing for another cause than that it is gone, as want of descriptors: where that was
// so, it was not asked for so long.
func askBeacon(ctx context.Context, bid int, line string, limit time.Duration) (answer string, isAsked bool) {
	ctx, cancel := context.WithTimeout(ctx, limit)
	defer cancel()
	isAsked = true
	// Of a process that ends, what it listens at may be closed a moment later than what it was connected to.
	for pause := stoodPause; ; pause = atMost(shortestPause, 2*pause) {
		answer, err := askBeaconOnce(ctx, bid, line, limit)
		if err == nil || errors.Is(err, errGone) {
			return answer, true
		}
		isAsked = isAsked && !isWanting(err)
		if ended(ctx) != nil {
			return "", isAsked
		}
		sleep(ctx, pause)
	}
}

// errGone says that a beacon is sure not to be there.
var errGone = errors.New("the beacon is gone")

// isWanting tells whether a connection came to nothing for want of something here.
func isWanting(err error) bool {
	for _, cause := range []error{syscall.EMFILE, syscall.ENFILE, syscall.ENOBUFS, syscall.ENOMEM, syscall.EADDRNOTAVAIL} {
		if errors.Is(err, cause) {
			return true
		}
	}
	return false
}

// askBeaconOnce gives the same over one connection; errGone where the beacon is sure not to be there.
func askBeaconOnce(ctx context.Context, bid int, line string, limit time.Duration) (string, error) {
	// From here on, so that a pause of this process makes no end an early one.
	begun := time.Now()
	conn, err := dialBeacon(ctx, bid, limit)
	if err != nil {
		return "", err
	}
	defer conn.Close()
	defer endWith(ctx, conn)()
	answer, err := exchange(conn, line+"\n", longestQuestion+longestText, 1)
	isEarly := time.Since(begun) < earlyEnd
	if errors.Is(err, errTooLong) || errors.Is(err, io.EOF) && isEarly {
		err = errGone
	}
	return answer, err
}

// dialBeacon gives a connection to the beacon of this bid; errGone where it is sure that there is none.
func dialBeacon(ctx context.Context, bid int, limit time.Duration) (net.Conn, error) {
	port := portOf(bid)
	if kindOf(bid) != isOnOneHost || port > lastPort {
		return nil, errGone
	}
	conn, err := dial(ctx, address(ownHost, port), limit)
	if errors.Is(err, syscall.ECONNREFUSED) {
		return nil, errGone
	}
	// Where nobody listens, the system may join a connection to itself, which would answer all that is sent.
	if err == nil && conn.LocalAddr().String() == conn.RemoteAddr().String() {
		conn.Close()
		return nil, errGone
	}
	return conn, err
}

// isThere tells whether who stood with this bid answers within so long, or could not be asked for that long. Where the
// context is over, nobody knows.
func isThere(ctx context.Context, bid int, limit time.Duration) bool {
	isSeen, isAsked := seesBeacon(ctx, bid, limit)
	return isSeen || !isAsked
}

// seesBeacon tells whether who stood with this bid answers within so long, and whether it was asked for that long.
func seesBeacon(ctx context.Context, bid int, limit time.Duration) (isSeen, isAsked bool) {
	line := strconv.Itoa(bid)
	answer, isAsked := askBeacon(ctx, bid, line, limit)
	return answer == line, isAsked
}
