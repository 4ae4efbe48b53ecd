package cinoweta

import (
	"context"
	"fmt"
	"net/http"
	"strings"
	"sync"
	"sync/atomic"
	"testing"
	"time"

	"cinoweta/internal/trial"
)

// A teller tells of `red` as `ringd --status` does: of the latest leader that the votes know, present where a session
// with the node that is asked is open in which it stood.
type teller struct {
	votes *votes
	nodes []*node

	mutex sync.Mutex
	asked []string
}

func (s *teller) ServeHTTP(writer http.ResponseWriter, request *http.Request) {
	s.mutex.Lock()
	s.asked = append(s.asked, request.URL.RequestURI())
	s.mutex.Unlock()
	var node, held, seconds int
	count, _ := fmt.Sscanf(request.URL.RequestURI(), "/leaders/red?node=%d&held=%d&wait=%d", &node, &held, &seconds)
	if count == 3 && s.nodes[0].takesResigns {
		s.await(held, node, seconds)
	} else if count == 3 {
		writer.WriteHeader(http.StatusBadRequest)
		return
	}
	led := s.votes.led()
	if node < 1 || node > len(s.nodes) || led.Term == 0 {
		writer.WriteHeader(http.StatusNotFound)
		return
	}
	const text = `{"by": %d, "leader": {"bid": %d, "group": "red", "node": %d, "term": %d}, "present": %t, "resigned": %t, "text": %q}`
	said := append([]string{""}, s.nodes[node-1].lines("tell red ")...)
	isPresent, hasResigned := s.nodes[node-1].isPresent("red", led), s.nodes[node-1].hasResigned(led.Term)
	fmt.Fprintf(writer, text, node, led.Leader.Bid, led.Leader.Node, led.Term, isPresent, hasResigned, strings.TrimPrefix(said[len(said)-1], "tell red "))
}

// await waits so many seconds until another one leads, or who leads in this term is not present.
func (s *teller) await(held, node, seconds int) {
	late := time.Now().Add(time.Duration(seconds) * time.Second)
	for led := s.votes.led(); led.Term == held && s.nodes[node-1].isPresent("red", led) && time.Now().Before(late); led = s.votes.led() {
		time.Sleep(20 * time.Millisecond)
	}
}

// all is what was asked.
func (s *teller) all() []string {
	s.mutex.Lock()
	defer s.mutex.Unlock()
	return s.asked
}

// led is the latest leader, of term 0 where there is none.
func (v *votes) led() Led {
	v.mutex.Lock()
	defer v.mutex.Unlock()
	return Led{v.latest(), v.leaders[v.latest()]}
}

// across gives a ring of two nodes at this host that know the same, and are told of by a status port.
func across(t *testing.T, host string) (*Ring, []*node, *votes, *teller) {
	votes := newVotes()
	ring, nodes := besideAt(t, host, votes.at(1), votes.at(2))
	told := &teller{votes: votes, nodes: nodes}
	ring.Status = statusAt(t, host, told)
	return ring, nodes, votes, told
}

// acrossResigns gives one that is told of resigns, and waits for them.
func acrossResigns(t *testing.T) (*Ring, []*node, *votes, *teller) {
	ring, nodes, votes, told := across(t, otherHost)
	for _, node := range nodes {
		node.takesResigns = true
	}
	return ring, nodes, votes, told
}

// acrossOf gives a lock of `red` across hosts.
func acrossOf(t *testing.T, ring *Ring, how LockOptions) *Lock {
	t.Helper()
	how.AcrossHosts = true
	return lockOf(t, ring, how)
}

// presenceOf gives the presence of who leads for `red` in term 1, at node 1.
func presenceOf(t *testing.T, ring *Ring, votes *votes) (*presence, Led) {
	t.Helper()
	made, err := newPresence(ring, "red", 3, "", 0)
	must(t, err)
	made.every = 20 * time.Millisecond
	t.Cleanup(func() { made.close() })
	votes.stand(1, Leader{1, made.bid()})
	return made, votes.led()
}

func TestALockIsHeldAcrossHostsWhileItsWorkRuns(t *testing.T) {
	ring, nodes, votes, told := across(t, otherHost)
	lock := acrossOf(t, ring, LockOptions{Rank: 3})
	must(t, lock.Run(background(t), func(ctx context.Context, term int) error {
		led := votes.led()
		same(t, []any{term, led.Leader.Bid / bidRank, holds(t, lock)}, []any{1, 3, true})
		same(t, nodes[led.Leader.Node-1].isPresent("red", led), true)
		holder, isHeld, err := lock.Holder(ctx)
		must(t, err)
		same(t, []any{isHeld, holder.Led, holder.PID, holder.Text}, []any{true, led, 0, ""})
		same(t, holder, fmt.Sprintf("node %d in term 1", led.Leader.Node))
		// Who leads is asked for at its own node: whether it is there, and what it tells.
		path := fmt.Sprintf("/leaders/red?node=%d", led.Leader.Node)
		same(t, told.all(), []string{path, path})
		if lock.Acquire(ctx) == nil {
			t.Error("it is acquired twice")
		}
		return nil
	}))
	led := votes.led()
	until(t, "the end of the session", func() bool { return !nodes[led.Leader.Node-1].isPresent("red", led) })
	_, isHeld, err := lock.Holder(background(t))
	must(t, err)
	same(t, []bool{holds(t, lock), isHeld, ring.session == nil}, []bool{false, false, true})
	must(t, lock.Acquire(background(t)))
	same(t, lock.Term(), 2)
}

func TestALockWithARingOfAnotherHostIsHeldAcrossHosts(t *testing.T) {
	// It is an address of this host too, but not of this host alone.
	ring, nodes, votes, _ := across(t, "0.0.0.0")
	_, isHeld, err := ring.Holder(background(t), "red", 0)
	must(t, err)
	same(t, isHeld, false)
	must(t, lockOf(t, ring, LockOptions{}).Acquire(background(t)))
	led := votes.led()
	same(t, nodes[led.Leader.Node-1].isPresent("red", led), true)
	holder, isHeld, err := ring.Holder(background(t), "red", 0)
	must(t, err)
	same(t, []any{isHeld, holder.Led, holder.PID}, []any{true, led, 0})
}

func TestWhatAHolderTellsAcrossHostsIsTold(t *testing.T) {
	ring, nodes, votes, _ := across(t, otherHost)
	lock := acrossOf(t, ring, LockOptions{Text: "a worker, b"})
	must(t, lock.Acquire(background(t)))
	led := votes.led()
	holder, isHeld, err := acrossOf(t, ring, LockOptions{}).Holder(background(t))
	must(t, err)
	same(t, []any{holder, isHeld}, []any{Holder{led, 0, "a worker, b"}, true})
	same(t, as[*LockTakenError](t, acrossOf(t, ring, LockOptions{}).TryAcquire(background(t))).Holder, holder)
	same(t, holder.String(), fmt.Sprintf("node %d in term 1 (a worker, b)", led.Leader.Node))
	// And again where its session is opened anew.
	node := nodes[led.Leader.Node-1]
	node.is(deaf)
	until(t, "the end of its session", func() bool { return !node.isPresent("red", led) })
	node.is(votes.at(led.Leader.Node))
	until(t, "what it tells", func() bool { return len(node.lines("tell red a worker, b")) == 2 })
}

func TestWhoHoldsALockAcrossHostsIsToldInTime(t *testing.T) {
	trial.Tried(t, testWhoHoldsALockAcrossHostsIsToldInTime)
}

func testWhoHoldsALockAcrossHostsIsToldInTime(t *testing.T) {
	ring, _, votes, _ := across(t, otherHost)
	must(t, acrossOf(t, ring, LockOptions{}).Acquire(background(t)))
	other := acrossOf(t, ring, LockOptions{})
	wanted := fmt.Sprintf("cinoweta: red: held by node %d in term 1", votes.led().Leader.Node)
	same(t, other.TryAcquire(background(t)), wanted)
	before := time.Now()
	ctx, cancel := context.WithTimeout(background(t), 300*time.Millisecond)
	defer cancel()
	err := other.Acquire(ctx)
	same(t, as[*LockTakenError](t, err), wanted)
	is(t, err, context.DeadlineExceeded)
	took := time.Since(before)
	trial.Took(t, took, 300*time.Millisecond, 1300*time.Millisecond)
	same(t, len(votes.stood), 1)
}

func TestALockAcrossHostsIsTakenOnceTheHolderIsNotPresent(t *testing.T) {
	ring, nodes, votes, _ := across(t, otherHost)
	first, told := acrossOf(t, ring, LockOptions{}), tells{}
	must(t, first.Acquire(background(t)))
	time.AfterFunc(300*time.Millisecond, first.Resign)
	second := acrossOf(t, ring, LockOptions{Patience: 300 * time.Millisecond, Tell: func(text string) {
		told.tell(text)
		// Who waits holds no door.
		same(t, ring.session == nil, true)
	}})
	before, wanted := time.Now(), fmt.Sprintf("waits for node %d in term 1", votes.led().Leader.Node)
	must(t, second.Acquire(background(t)))
	same(t, []any{second.Term(), told.all()}, []any{2, wanted})
	same(t, time.Since(before) > 500*time.Millisecond, true)
	second.Resign()
	led := votes.led()
	until(t, "the end of the session", func() bool { return !nodes[led.Leader.Node-1].isPresent("red", led) })
	third := acrossOf(t, ring, LockOptions{Patience: time.Nanosecond})
	must(t, third.TryAcquire(background(t)))
	same(t, third.Term(), 3)
}

func TestWhoIsNotPresentIsGoneInTwoSeconds(t *testing.T) {
	trial.Tried(t, testWhoIsNotPresentIsGoneInTwoSeconds)
}

func testWhoIsNotPresentIsGoneInTwoSeconds(t *testing.T) {
	ring, _, votes, _ := across(t, otherHost)
	votes.lead(5, 1, bidSpread)
	before := time.Now()
	must(t, acrossOf(t, ring, LockOptions{Patience: time.Minute}).TryAcquire(background(t)))
	took := time.Since(before)
	trial.Took(t, took, 2*time.Second, 3*time.Second)
	// Where an operator stood nobody is.
	votes.lead(7, 1, 7)
	before = time.Now()
	must(t, acrossOf(t, ring, LockOptions{Patience: time.Minute}).TryAcquire(background(t)))
	trial.Took(t, time.Since(before), 0, time.Second)
	// The context may be over before.
	votes.lead(9, 1, bidSpread)
	ctx, cancel := context.WithTimeout(background(t), 200*time.Millisecond)
	defer cancel()
	before = time.Now()
	is(t, acrossOf(t, ring, LockOptions{Patience: time.Minute}).Acquire(ctx), context.DeadlineExceeded)
	_, _, err := acrossOf(t, ring, LockOptions{Patience: time.Minute}).Holder(ctx)
	is(t, err, context.DeadlineExceeded)
	trial.Took(t, time.Since(before), 0, time.Second)
}

func TestASessionIsAskedOver(t *testing.T) {
	ring, nodes, votes, _ := across(t, otherHost)
	presence, led := presenceOf(t, ring, votes)
	_, _, err := ring.Latest(background(t), "red", 1)
	must(t, err)
	must(t, presence.show(background(t), led))
	// The ring's own session gave its door back.
	same(t, ring.session == nil, true)
	until(t, "questions", func() bool { return len(nodes[0].lines("latest red")) > 4 })
	same(t, []int{nodes[0].sessions(), nodes[1].sessions()}, []int{2, 0})
	same(t, nodes[0].lines("stand"), []string{fmt.Sprintf("stand red 1 %d", presence.bid())})
	presence.close()
	until(t, "the end of the session", func() bool { return !nodes[0].isPresent("red", led) })
}

func TestASessionThatBreaksOffIsOpenedAnew(t *testing.T) {
	ring, nodes, votes, _ := across(t, otherHost)
	presence, led := presenceOf(t, ring, votes)
	must(t, presence.show(background(t), led))
	for _, answer := range []answer{deaf, always("none\nnone"), first("", "no 8 memory", "no 5 stale 9", "none")} {
		before := len(nodes[0].lines("stand"))
		nodes[0].is(answer)
		until(t, "further Stands", func() bool { return len(nodes[0].lines("stand")) > before+3 })
		same(t, nodes[0].isPresent("red", led), false)
		nodes[0].is(votes.at(1))
		until(t, "another session", func() bool { return nodes[0].isPresent("red", led) })
	}
	// A refusal is an answer, and ends no session.
	before, sessions := len(nodes[0].lines("latest")), nodes[0].sessions()
	nodes[0].is(always("no 8 memory"))
	until(t, "questions", func() bool { return len(nodes[0].lines("latest")) > before+3 })
	same(t, []any{nodes[0].isPresent("red", led), nodes[0].sessions()}, []any{true, sessions})
}

func TestAPresenceEndsAtOnce(t *testing.T) {
	trial.Tried(t, testAPresenceEndsAtOnce)
}

func testAPresenceEndsAtOnce(t *testing.T) {
	ring, nodes, votes, _ := across(t, otherHost)
	presence, led := presenceOf(t, ring, votes)
	presence.close()
	// Also while another session is opened.
	for _, word := range []string{"latest", "stand"} {
		word, never := word, never(t)
		nodes[0].is(votes.at(1))
		must(t, presence.show(background(t), led))
		count := len(nodes[0].lines(word))
		nodes[0].is(func(line string) (string, bool) {
			if strings.HasPrefix(line, word) {
				return never(line)
			}
			return "", false
		})
		until(t, "a question", func() bool { return len(nodes[0].lines(word)) > count })
		before := time.Now()
		presence.close()
		presence.close()
		trial.Took(t, time.Since(before), 0, time.Second)
	}
}

func TestWhereNoPresenceIsShown(t *testing.T) {
	ring, nodes, votes, _ := across(t, otherHost)
	ring.Timeout = 100 * time.Millisecond
	presence, led := presenceOf(t, ring, votes)
	shows := func(answer answer) error {
		nodes[0].is(answer)
		return presence.show(background(t), led)
	}
	for _, answer := range []answer{deaf, never(t)} {
		same(t, as[*NoAnswerError](t, shows(answer)).Address, ring.address(1))
	}
	is(t, shows(always("no 5 stale 9")), ErrStale)
	is(t, shows(always(fmt.Sprintf("no 3 already %d", led.Leader.Bid+1))), ErrAlreadyStands)
	as[*WrongRingError](t, shows(always("none")))
	nodes[0].listener.Close()
	same(t, as[*NoAnswerError](t, shows(deaf)).Address, ring.address(1))
	same(t, nodes[0].isPresent("red", led), false)
}

func TestALockThatCanNotBeShownIsNotHeld(t *testing.T) {
	ring, nodes, votes, _ := across(t, otherHost)
	for place, node := range nodes {
		own := votes.at(place + 1)
		node.is(func(line string) (string, bool) {
			told, _ := own(line)
			if strings.HasPrefix(told, "no 3 already") {
				return "no 9 failed", true
			}
			return told, true
		})
	}
	lock := acrossOf(t, ring, LockOptions{})
	is(t, lock.TryAcquire(background(t)), ErrNodeFailed)
	same(t, []any{lock.sign == nil, lock.Term(), holds(t, lock)}, []any{true, 0, false})
}

func TestALockThatCanNotBeShownYetIsWaitedFor(t *testing.T) {
	ring, nodes, votes, _ := across(t, otherHost)
	for place, node := range nodes {
		own, left := votes.at(place+1), 3
		node.is(func(line string) (string, bool) {
			told, _ := own(line)
			if strings.HasPrefix(told, "no 3 already") {
				left--
			}
			return told, !strings.HasPrefix(told, "no 3 already") || left < 0
		})
	}
	told := tells{}
	lock := acrossOf(t, ring, LockOptions{Tell: told.tell})
	must(t, lock.Acquire(background(t)))
	led := votes.led()
	same(t, []any{lock.Term(), nodes[led.Leader.Node-1].isPresent("red", led)}, []any{1, true})
	same(t, strings.Count(told.all(), "waits for the ring: cinoweta: no answer of "+otherHost), 1)
}

func TestWhoLeadsAcrossHostsIsSeenBeforeNodesRetire(t *testing.T) {
	ring, nodes, votes, _ := across(t, otherHost)
	votes.lead(20, 1, 7)
	asked, silent := tells{}, never(t)
	for place, node := range nodes {
		own, isSilent := votes.at(place+1), place == 0
		node.is(func(line string) (string, bool) {
			word, _, _ := strings.Cut(line, " ")
			led := votes.led()
			switch {
			case word == "retire":
				asked.tell(fmt.Sprint(line, " ", nodes[led.Leader.Node-1].isPresent("red", led)))
			case word == "stand":
				asked.tell(line)
			}
			switch {
			case word == "retire" && isSilent:
				return silent(line)
			case word == "retire":
				return "no 7 full", true
			default:
				return own(line)
			}
		})
	}
	lock := acrossOf(t, ring, LockOptions{Patience: 100 * time.Millisecond})
	must(t, lock.Acquire(background(t)))
	same(t, []any{lock.Term(), holds(t, lock)}, []any{21, true})
	stand := fmt.Sprint("stand red 21 ", votes.bid(21))
	wanted := strings.Join([]string{stand, stand, "retire red 19 true", "retire red 19 true"}, "\n")
	until(t, "the Retires", func() bool { return asked.all() == wanted })
}

func TestALockWhoseTermIsOverBeforeItIsShownIsTakenAgain(t *testing.T) {
	for _, over := range []string{"no 4 late", "no 5 stale 2", "no 23 retired 2"} {
		over := over
		ring, nodes, votes, _ := across(t, otherHost)
		var count atomic.Int32
		for place, node := range nodes {
			own := votes.at(place + 1)
			node.is(func(line string) (string, bool) {
				told, isAnswered := own(line)
				if strings.HasPrefix(told, "no 3 already") && count.Add(1) == 1 {
					return over, true
				}
				return told, isAnswered
			})
		}
		lock := acrossOf(t, ring, LockOptions{})
		must(t, lock.Acquire(background(t)))
		same(t, []any{lock.Term(), count.Load() > 1}, []any{2, true})
	}
}

func TestAStatusPortThatIsAwayIsWaitedFor(t *testing.T) {
	ring, _, votes, _ := across(t, otherHost)
	must(t, acrossOf(t, ring, LockOptions{}).Acquire(background(t)))
	port, told := ring.Status, tells{}
	ring.Status = 1
	other := acrossOf(t, ring, LockOptions{Tell: told.tell})
	wanted := fmt.Sprintf("%s:1/leaders/red?node=%d", otherHost, votes.led().Leader.Node)
	same(t, as[*NoAnswerError](t, other.TryAcquire(background(t))).Address, wanted)
	_, _, err := other.Holder(background(t))
	same(t, as[*NoAnswerError](t, err).Address, wanted)
	ctx, cancel := context.WithTimeout(background(t), 300*time.Millisecond)
	defer cancel()
	err = other.Acquire(ctx)
	as[*NoAnswerError](t, err)
	is(t, err, context.DeadlineExceeded)
	same(t, strings.HasPrefix(told.all(), "waits for the ring: cinoweta: no answer of "+wanted), true)
	ring.Status = port
	as[*LockTakenError](t, other.TryAcquire(background(t)))
}

func TestWhoIsPresent(t *testing.T) {
	trial.Tried(t, testWhoIsPresent)
}

func testWhoIsPresent(t *testing.T) {
	ring, nodes, votes, _ := across(t, otherHost)
	known := Led{5, Leader{1, 7}}
	looks := func(wanted bool, limit time.Duration) {
		t.Helper()
		isThere, err := isPresent(background(t), ring, "red", known, limit)
		must(t, err)
		same(t, isThere, wanted)
	}
	// It comes to be known, and then to be present.
	time.AfterFunc(100*time.Millisecond, func() { votes.lead(5, 1, 7) })
	session, err := openSession(background(t), ring.address(1), time.Second)
	must(t, err)
	defer session.close()
	time.AfterFunc(300*time.Millisecond, func() { session.ask(background(t), "stand red 5 7", time.Second) })
	looks(true, time.Second)
	looks(true, 0)
	// Another one leads.
	_, err = isPresent(background(t), ring, "red", Led{5, Leader{1, 8}}, 0)
	as[*WrongRingError](t, err)
	session.close()
	until(t, "the end of the session", func() bool { return !nodes[0].isPresent("red", known) })
	looks(false, 0)
	// A greater term is over at once.
	votes.lead(6, 1, 8)
	before := time.Now()
	looks(false, time.Minute)
	trial.Took(t, time.Since(before), 0, time.Second)
	ctx, cancel := context.WithTimeout(background(t), 100*time.Millisecond)
	defer cancel()
	for group, known := range map[string]Led{"red": {7, Leader{1, 7}}, "blue": {5, Leader{1, 7}}} {
		_, err = isPresent(background(t), ring, group, known, 100*time.Millisecond)
		const wanted = "%s:%d tells of another leader of %s in term %d, or none: is it this ring's?"
		same(t, as[*WrongRingError](t, err).Text, fmt.Sprintf(wanted, otherHost, ring.Status, group, known.Term))
		_, err = isPresent(ctx, ring, group, known, time.Minute)
		is(t, err, context.DeadlineExceeded)
	}
}

func TestAnAnswerThatIsLateIsNoAbsence(t *testing.T) {
	ring, _ := besideAt(t, otherHost, deaf, deaf)
	var count atomic.Int32
	ring.Status = statusAt(t, otherHost, http.HandlerFunc(func(writer http.ResponseWriter, _ *http.Request) {
		isFirst := count.Add(1) == 1
		if isFirst {
			time.Sleep(600 * time.Millisecond)
		}
		const text = `{"by": 1, "leader": {"bid": 7, "group": "red", "node": 1, "term": 5}, "present": %t}`
		fmt.Fprintf(writer, text, !isFirst)
	}))
	isThere, err := isPresent(background(t), ring, "red", Led{5, Leader{1, 7}}, 300*time.Millisecond)
	must(t, err)
	same(t, []any{isThere, count.Load()}, []any{true, 2})
}

func TestAStatusPortOfAnotherRingIsTold(t *testing.T) {
	ring, _, votes, _ := across(t, otherHost)
	must(t, acrossOf(t, ring, LockOptions{}).Acquire(background(t)))
	ring.Status = statusAt(t, otherHost, pages{})
	other := acrossOf(t, ring, LockOptions{Patience: 100 * time.Millisecond})
	as[*WrongRingError](t, other.Acquire(background(t)))
	_, _, err := other.Holder(background(t))
	as[*WrongRingError](t, err)
	same(t, len(votes.stood), 1)
}

func TestWorkAcrossHostsEndsOnceTheLockIsLost(t *testing.T) {
	ring, nodes, votes, _ := across(t, otherHost)
	lock := acrossOf(t, ring, LockOptions{})
	lock.every = 50 * time.Millisecond
	var led Led
	lost := as[*LockLostError](t, lock.Run(background(t), func(ctx context.Context, _ int) error {
		led = votes.led()
		votes.lead(9, 2, 5)
		<-ctx.Done()
		return nil
	}))
	same(t, []any{lost.Term, lock.sign == nil}, []any{1, true})
	until(t, "the end of the session", func() bool { return !nodes[led.Leader.Node-1].isPresent("red", led) })
}

func TestALockAcrossHostsIsTakenAsSoonAsTheHolderResigns(t *testing.T) {
	trial.Tried(t, testALockAcrossHostsIsTakenAsSoonAsTheHolderResigns)
}

func testALockAcrossHostsIsTakenAsSoonAsTheHolderResigns(t *testing.T) {
	ring, nodes, votes, told := acrossResigns(t)
	first := acrossOf(t, ring, LockOptions{})
	must(t, first.Acquire(background(t)))
	second, ended, led := acrossOf(t, ring, LockOptions{Patience: time.Minute}), make(chan error), votes.led()
	go func() { ended <- second.Acquire(background(t)) }()
	until(t, "a long poll", func() bool { return strings.Contains(strings.Join(told.all(), "\n"), "&held=1&wait=30") })
	time.Sleep(time.Second)
	before := time.Now()
	first.Resign()
	must(t, <-ended)
	trial.Took(t, time.Since(before), 0, absentLimit-500*time.Millisecond)
	same(t, second.Term(), 2)
	same(t, nodes[led.Leader.Node-1].lines("resign"), []string{"resign red 1"})
	// It is looked for no more often than once where nothing changes.
	same(t, len(told.all()) < 6, true)
}

func TestWhoWaitedForMoreEndsAcrossHostsGoesFirst(t *testing.T) {
	for _, row := range []struct{ rank, ends int }{{0, 1}, {0, 3}, {4, 1}} {
		ring, nodes, _, told := acrossResigns(t)
		lock := acrossOf(t, ring, LockOptions{Rank: row.rank})
		lock.older = 500 * time.Millisecond
		session, err := openSession(background(t), ring.address(1), time.Second)
		must(t, err)
		// Who leads is present in this session until it resigns.
		ask := func(form string, words ...any) {
			_, err := session.ask(background(t), fmt.Sprintf(form, words...), time.Second)
			must(t, err)
		}
		ask("stand red 1 %d", bidSpread)
		ended := make(chan error, 1)
		go func() { ended <- lock.Acquire(background(t)) }()
		var before time.Time
		for term := 1; term <= row.ends; term++ {
			until(t, "a long poll", func() bool { return strings.Contains(strings.Join(told.all(), " "), fmt.Sprintf("held=%d&", term)) })
			before = time.Now()
			ask("resign red %d", term)
			if term < row.ends {
				// Another one leads meanwhile.
				time.Sleep(200 * time.Millisecond)
				ask("stand red %d %d", term+1, bidSpread+term)
			}
		}
		must(t, <-ended)
		isLate := time.Since(before) >= 900*time.Millisecond
		same(t, []any{lock.Term(), isLate}, []any{row.ends + 1, row.rank == 0 && row.ends == 1})
		lock.Resign()
		session.close()
		nodes[0].is(deaf)
	}
}

func TestWhoEndsAcrossHostsWithoutAWordMayComeBack(t *testing.T) {
	ring, nodes, votes, _ := acrossResigns(t)
	presence, led := presenceOf(t, ring, votes)
	must(t, presence.show(background(t), led))
	lock, ended := acrossOf(t, ring, LockOptions{Patience: time.Minute}), make(chan error, 1)
	before := time.Now()
	go func() { ended <- lock.Acquire(background(t)) }()
	for range make([]struct{}, 3) {
		nodes[0].is(deaf)
		until(t, "the end of the session", func() bool { return !nodes[0].isPresent("red", led) })
		nodes[0].is(votes.at(1))
		until(t, "another session", func() bool { return nodes[0].isPresent("red", led) })
	}
	same(t, len(ended), 0)
	nodes[0].is(deaf)
	time.Sleep(50 * time.Millisecond)
	presence.close()
	nodes[0].is(votes.at(1))
	must(t, <-ended)
	same(t, time.Since(before) > absentLimit, true)
}

func TestAResignThatIsNotAnsweredEndsAllTheSame(t *testing.T) {
	trial.Tried(t, testAResignThatIsNotAnsweredEndsAllTheSame)
}

func testAResignThatIsNotAnsweredEndsAllTheSame(t *testing.T) {
	ring, nodes, votes, _ := across(t, otherHost)
	presence, led := presenceOf(t, ring, votes)
	must(t, presence.show(background(t), led))
	own, silent := votes.at(1), never(t)
	nodes[0].is(func(line string) (string, bool) {
		if strings.HasPrefix(line, "resign") {
			return silent(line)
		}
		return own(line)
	})
	before := time.Now()
	presence.close()
	took := time.Since(before)
	trial.Took(t, took, 0, farewellLimit+500*time.Millisecond)
	same(t, nodes[0].lines("resign"), []string{"resign red 1"})
}

func TestAStatusPortThatAnswersAtOnceIsAskedNoMoreOften(t *testing.T) {
	ring, _, votes, _ := across(t, otherHost)
	must(t, acrossOf(t, ring, LockOptions{}).Acquire(background(t)))
	led := votes.led()
	var asked atomic.Int32
	ring.Status = statusAt(t, otherHost, http.HandlerFunc(func(writer http.ResponseWriter, _ *http.Request) {
		asked.Add(1)
		const text = `{"by": 1, "leader": {"bid": %d, "group": "red", "node": %d, "term": 1}, "present": true}`
		fmt.Fprintf(writer, text, led.Leader.Bid, led.Leader.Node)
	}))
	ctx, cancel := context.WithTimeout(background(t), time.Second)
	defer cancel()
	as[*LockTakenError](t, acrossOf(t, ring, LockOptions{}).Acquire(ctx))
	// Twice for each pause.
	same(t, asked.Load() <= 2*int32(time.Second/shortestPause)+2, true)
}

func TestWhoHasTheBidOfAnotherOneWaitsForIt(t *testing.T) {
	ring, nodes, votes, _ := across(t, otherHost)
	lock, told := acrossOf(t, ring, LockOptions{}), tells{}
	lock.how.Tell = told.tell
	campaign, err := lock.begin(func() {})
	must(t, err)
	campaign.places = []int{1}
	other, err := openSession(background(t), ring.address(2), time.Second)
	must(t, err)
	// Whoever stands at node 1 finds that another one with its bid leads at node 2, where it is present for a moment.
	nodes[0].is(func(line string) (string, bool) {
		told, isTold := votes.at(1)(line)
		if line == fmt.Sprint("stand red 1 ", campaign.bid) && told == "stood" {
			votes.lead(1, 2, campaign.bid)
			other.ask(background(t), line, time.Second)
			time.AfterFunc(time.Second, other.close)
		}
		return told, isTold
	})
	led, err := lock.contend(background(t), background(t), campaign)
	must(t, lock.settle(led, time.Now(), err))
	same(t, []any{lock.Term(), told.all()}, []any{2, "waits for node 2 in term 1"})
}
