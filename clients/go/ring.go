package cinoweta

import (
	"context"
	"errors"
	"fmt"
	"os"
	"regexp"
	"strconv"
	"strings"
	"time"
)

const (
	// AnyNode stands for whichever node of a ring answers.
	AnyNode = 0
	// DefaultTimeout is how long a question is asked.
	DefaultTimeout = 10 * time.Second

	// A connection and its answer are waited for so long before another node is asked: not longer than is left of the
	// timeout, but for leastPatience anyway.
	patience, leastPatience = 3 * time.Second, 50 * time.Millisecond
	// A session over which nothing was asked for so long is ended: it holds one of the node's doors.
	idleLimit = 500 * time.Millisecond
	// The first pause before that.
	againPause = 50 * time.Millisecond
)

var (
	portText   = regexp.MustCompile(`^([0-9]{1,5})$`)
	portsText  = regexp.MustCompile(`^([0-9]{1,5})-([0-9]{1,5})$`)
	whoText    = regexp.MustCompile(`^leader ([0-9]+) ([0-9]+)$`)
	latestText = regexp.MustCompile(`^term ([0-9]+) leader ([0-9]+) ([0-9]+)$`)
)

// A Ring is one whose nodes listen at ports of a host side by side, as [NewRing], [ParseRing] and [RingFromEnv] make it;
// any other one gives a [WrongRingError] whatever is asked. Questions are asked of any node, over one session at
// a time, which ends where nothing is asked for half a second; where one breaks off, of the next node, until Timeout is
// over: then a [NoAnswerError]. A Stand stays with its node. Goroutines may share a Ring; one waits for the other.
type Ring struct {
	// Host is the address of the host, of IPv4 or IPv6, or its name; 127.0.0.1 where it is "". Else whatever is asked gives
	// a [WrongRingError].
	Host string
	// Timeout is how long a question is asked; DefaultTimeout where it is 0.
	Timeout time.Duration
	// Status is the port of the host where `ringd --status` tells of the ring, or 0. Where it is told, a [NoLeaderError]
	// says which node is not well, and a lock may be held across hosts.
	Status int

	first, nodes int
	// Has one place, taken by who asks: the node that is asked next and the session are his.
	turn    chan struct{}
	place   int
	session *session

	unanswered unanswered
	silence    silence
	handed     handed
	// Where it is there, a question of any node is not asked of one that is silent by it, as long as another one is not.
	passes *silence
}

// NewRing gives the ring whose node 1 listens at the port first, and the last one at last. Nobody is asked yet.
func NewRing(first, last int) (*Ring, error) {
	if first < 1 || first >= last || last > 65_535 || last-first > 15 {
		return nil, &WrongRingError{fmt.Sprintf("%d-%d: the ports of 2 to 16 nodes are 1 to 65,535", first, last)}
	}
	return newRing(first, last-first+1), nil
}

func newRing(first, nodes int) *Ring {
	return &Ring{first: first, nodes: nodes, turn: make(chan struct{}, 1), place: 1}
}

// ParseRing gives the ring of a text as 7101-7103, or as 10.0.0.5:7101-7103 or [fd00::5]:7101-7103 where it is one of
// another host.
func ParseRing(text string) (*Ring, error) {
	before, behind := ownHost, text
	if at := strings.LastIndex(text, ":"); at >= 0 {
		before, behind = text[:at], text[at+1:]
	}
	ports, isSo := numbers(portsText, behind)
	if !isSo || before == "" {
		return nil, &WrongRingError{fmt.Sprintf("%q: a ring is told as 7101-7103, or as 10.0.0.5:7101-7103", text)}
	}
	ring, err := NewRing(ports[0], ports[1])
	if err != nil {
		return nil, err
	}
	host, err := withinBrackets(before)
	if err != nil {
		return nil, err
	}
	ring.Host = host
	return ring, nil
}

// RingFromEnv gives the ring of CINOWETA_RING, as [ParseRing] does, with the status port of CINOWETA_STATUS, which may
// be left out, and stands behind the ring's host or alone. A [WrongRingError] where that is no port, or stands behind
// another host.
func RingFromEnv() (*Ring, error) {
	ring, err := ParseRing(os.Getenv("CINOWETA_RING"))
	if err != nil {
		return nil, fmt.Errorf("CINOWETA_RING: %w", err)
	}
	text := os.Getenv("CINOWETA_STATUS")
	if text == "" {
		return ring, nil
	}
	if err := ring.SetStatus(text); err != nil {
		return nil, fmt.Errorf("CINOWETA_STATUS: %w", err)
	}
	return ring, nil
}

// SetStatus sets Status by a text as 7100, or as 10.0.0.5:7100 or [fd00::5]:7100 with the ring's own host: else a
// [WrongRingError].
func (r *Ring) SetStatus(text string) error {
	host, port, err := placeOf(text, r.Host)
	if err != nil {
		return err
	}
	if !isSameHost(host, r.Host) {
		return &WrongRingError{fmt.Sprintf("%s: the ring is one of %s", text, hostOf(r.Host))}
	}
	r.Status = port
	return nil
}

// Nodes is how many nodes the ring has.
func (r *Ring) Nodes() int {
	return r.nodes
}

// Stand has the node stand for the group and term with this bid, for who asks. Else a [RefusedError]: ErrAlreadyStands,
// with the same bid too, is of another process, unless this Ring asked before and got no answer, or that of a
// failed device.
func (r *Ring) Stand(ctx context.Context, group string, term, bid, node int) error {
	line := fmt.Sprintf("stand %s %d %d", group, term, bid)
	answer, err := r.askNode(ctx, line, node)
	var refused *RefusedError
	if errors.As(err, &refused) && refused.Refusal == ErrAlreadyStands &&
		refused.Text == fmt.Sprintf("already %d", bid) && r.unanswered.has(stood{node, line}) {
		return nil
	}
	if hasFailed(err) {
		r.unanswered.add(stood{node, line})
	}
	if err == nil && answer != "stood" {
		err = r.wrong(ctx, answer)
	}
	return err
}

// Who tells who leads for the group and term, as far as a node knows; false where it knows nobody.
func (r *Ring) Who(ctx context.Context, group string, term, node int) (Leader, bool, error) {
	told, isKnown, err := r.tell(ctx, whoText, fmt.Sprintf("who %s %d", group, term), node)
	if !isKnown {
		return Leader{}, false, err
	}
	return Leader{told[0], told[1]}, true, nil
}

// Latest tells the greatest term of the group that has a leader, as far as a node knows, and that leader; false where
// it knows none.
func (r *Ring) Latest(ctx context.Context, group string, node int) (Led, bool, error) {
	told, isKnown, err := r.tell(ctx, latestText, "latest "+group, node)
	if !isKnown {
		return Led{}, false, err
	}
	return Led{told[0], Leader{told[1], told[2]}}, true, nil
}

// Retire has the node give up the group's terms below the floor, so that it has room again. It gives its floor from
// then on: that one, or a greater one that it has already. Else a [RefusedError]: ErrUndecided where the node knows no
// leader of that term or above.
func (r *Ring) Retire(ctx context.Context, group string, floor, node int) (int, error) {
	answer, err := r.askNode(ctx, fmt.Sprintf("retire %s %d", group, floor), node)
	var refused *RefusedError
	if errors.As(err, &refused) && refused.Floor() > 0 && refused.Floor() >= floor {
		return refused.Floor(), nil
	}
	if err == nil && answer != "retired" {
		err = r.wrong(ctx, answer)
	}
	if err != nil {
		return 0, err
	}
	return floor, nil
}

// Close ends the session, if one is open. The next question opens another one.
func (r *Ring) Close() error {
	r.release(context.Background())
	return nil
}

// tell gives the numbers of an answer of this form; false where it is none.
func (r *Ring) tell(ctx context.Context, form *regexp.Regexp, line string, node int) ([]int, bool, error) {
	answer, err := r.ask(ctx, line, node)
	if err != nil || answer == "none" {
		return nil, false, err
	}
	told, isSo := numbers(form, answer)
	if !isSo {
		return nil, false, r.wrong(ctx, answer)
	}
	return told, true, nil
}

// askNode asks a node that is named.
func (r *Ring) askNode(ctx context.Context, line string, node int) (string, error) {
	if node == AnyNode {
		return "", errors.New("cinoweta: which node is asked has to be said")
	}
	return r.ask(ctx, line, node)
}

// ask gives the answer to a line, or the refusal that it is.
func (r *Ring) ask(ctx context.Context, line string, node int) (string, error) {
	if strings.Contains(line, "\n") {
		return "", errors.New("cinoweta: a question is one line")
	}
	if err := r.require(node); err != nil {
		return "", err
	}
	if !r.take(ctx) {
		return "", noAnswer(ctx, r.address(1), nil)
	}
	defer r.give()
	answer, err := r.askAgain(ctx, line, node)
	if err != nil {
		return "", err
	}
	if refused := refusal(answer); refused != nil {
		return "", refused
	}
	return answer, nil
}

// require gives a [WrongRingError] where no function of this package made the ring, or its host is none, and another error
// where it has no such node.
func (r *Ring) require(node int) error {
	if r.nodes == 0 {
		return &WrongRingError{"a Ring is made by NewRing, ParseRing or RingFromEnv"}
	}
	if node < 0 || node > r.nodes {
		return fmt.Errorf("cinoweta: there is no node %d: the ring has the nodes 1 to %d", node, r.nodes)
	}
	return requireHost(r.Host)
}

// askAgain asks this node, or one behind the other, until an answer comes or the time is over.
func (r *Ring) askAgain(ctx context.Context, line string, node int) (string, error) {
	until := time.Now().Add(r.timeout())
	for pause := againPause; ; pause = atMost(longestPause, 2*pause) {
		place := node
		if node == AnyNode {
			r.place = r.next()
			place = r.place
		}
		answer, err := r.askOnce(ctx, line, place, time.Until(until))
		if r.passes != nil && (err == nil || ended(ctx) == nil) {
			r.passes.hear(place, err == nil)
		}
		if err == nil {
			return answer, nil
		}
		r.closeSession()
		if node == AnyNode {
			r.place = place%r.nodes + 1
		}
		isLast := time.Now().Add(pause).After(until)
		if !isLast {
			sleep(ctx, pause)
		}
		if isLast || ended(ctx) != nil {
			return "", noAnswer(ctx, r.address(place), err)
		}
	}
}

// next is the node whose turn it is, or the first one behind that is not silent, if there is one.
func (r *Ring) next() int {
	for step := 0; r.passes != nil && step < r.nodes; step++ {
		if place := (r.place-1+step)%r.nodes + 1; !r.passes.isOf(place) {
			return place
		}
	}
	return r.place
}

// askOnce gives the answer of this node, over the session that is open with it, or over a new one, where so long is
// left for it.
func (r *Ring) askOnce(ctx context.Context, line string, place int, left time.Duration) (string, error) {
	limit := atMost(patience, left)
	if limit < leastPatience {
		limit = leastPatience
	}
	ctx, cancel := context.WithTimeout(ctx, limit)
	defer cancel()
	if r.session != nil && r.session.address != r.address(place) {
		r.closeSession()
	}
	if r.session == nil {
		session, err := openSession(ctx, r.address(place), limit)
		if err != nil {
			return "", err
		}
		r.session = session
		time.AfterFunc(idleLimit, func() { r.endIdle(session) })
	}
	answer, err := r.session.ask(ctx, line, limit)
	r.session.used = time.Now()
	if err != nil && strings.HasPrefix(line, "stand ") {
		r.unanswered.add(stood{place, line})
	}
	return answer, err
}

// take waits for the turn of who calls. False where the context is over before, and where nothing is ever asked.
func (r *Ring) take(ctx context.Context) bool {
	if r.turn == nil {
		return false
	}
	// Of two that are ready, select takes either.
	select {
	case r.turn <- struct{}{}:
		return true
	default:
	}
	select {
	case r.turn <- struct{}{}:
		return true
	case <-ctx.Done():
		return false
	}
}

func (r *Ring) give() {
	<-r.turn
}

// release ends the session, unless somebody asks over it until the context is over.
func (r *Ring) release(ctx context.Context) {
	if r.take(ctx) {
		r.closeSession()
		r.give()
	}
}

// pass has another node be asked next.
func (r *Ring) pass(ctx context.Context) {
	if r.take(ctx) {
		r.closeSession()
		r.place = r.place%r.nodes + 1
		r.give()
	}
}

// endIdle ends a session once nothing was asked over it for a while.
func (r *Ring) endIdle(idle *session) {
	r.turn <- struct{}{}
	defer r.give()
	if r.session != idle {
		return
	}
	if left := idleLimit - time.Since(idle.used); left > 0 {
		time.AfterFunc(left, func() { r.endIdle(idle) })
		return
	}
	r.closeSession()
}

// closeSession is called by whose turn it is.
func (r *Ring) closeSession() {
	if r.session != nil {
		r.session.close()
		r.session = nil
	}
}

// within gives the same ring, over sessions of its own, and so that an answer is not waited for longer than that.
func (r *Ring) within(limit time.Duration) *Ring {
	ring := newRing(r.first, r.nodes)
	ring.Host, ring.Timeout = r.Host, atMost(limit, r.timeout())
	return ring
}

func (r *Ring) timeout() time.Duration {
	if r.Timeout <= 0 {
		return DefaultTimeout
	}
	return r.Timeout
}

// address is that of a node.
func (r *Ring) address(place int) string {
	return address(r.Host, r.first+place-1)
}

func (r *Ring) wrong(ctx context.Context, answer string) error {
	r.release(ctx)
	return wrongAnswer(answer)
}

// numbers gives those of a text of this form; false where it is none.
func numbers(form *regexp.Regexp, text string) ([]int, bool) {
	words := form.FindStringSubmatch(text)
	if words == nil {
		return nil, false
	}
	told := make([]int, 0, len(words)-1)
	for _, word := range words[1:] {
		number, err := strconv.ParseUint(word, 10, 31)
		if err != nil {
			return nil, false
		}
		told = append(told, int(number))
	}
	return told, true
}
