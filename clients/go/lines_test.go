package cinoweta

import (
	"bufio"
	"context"
	"errors"
	"fmt"
	"net"
	"runtime"
	"sort"
	"strings"
	"sync"
	"testing"
	"time"

	"cinoweta/internal/trial"
)

// An answer is what a node answers to a line; false ends the session unanswered.
type answer func(line string) (string, bool)

// A node is a server of lines in place of one, whose every answer is given.
type node struct {
	listener net.Listener
	served   sync.WaitGroup

	mutex  sync.Mutex
	answer answer
	asked  []string
	conns  []net.Conn
	// What stood in each session that is open, in order, and, where the node takes such lines, the group and term that was
	// resigned last.
	stands       map[net.Conn][]string
	takesResigns bool
	resigned     string
	// So many sessions are served side by side as it has places, where it is there.
	doors chan struct{}
}

func newNode(address string, answer answer) (*node, error) {
	listener, err := net.Listen("tcp", address)
	if err != nil {
		return nil, err
	}
	made := &node{listener: listener, answer: answer, stands: map[net.Conn][]string{}}
	made.served.Add(1)
	go made.accept()
	return made, nil
}

func (n *node) accept() {
	defer n.served.Done()
	for {
		conn, err := n.listener.Accept()
		if err != nil {
			return
		}
		n.mutex.Lock()
		n.conns = append(n.conns, conn)
		n.mutex.Unlock()
		n.served.Add(1)
		go n.serve(conn)
	}
}

func (n *node) serve(conn net.Conn) {
	defer n.served.Done()
	defer n.leave(conn)
	n.mutex.Lock()
	doors := n.doors
	n.mutex.Unlock()
	if doors != nil {
		doors <- struct{}{}
		defer func() { <-doors }()
	}
	lines := bufio.NewScanner(conn)
	for lines.Scan() {
		n.mutex.Lock()
		n.asked = append(n.asked, lines.Text())
		answer := n.answer
		n.mutex.Unlock()
		told, isTold := answer(lines.Text())
		if !isTold {
			return
		}
		if n.resigns(conn, lines.Text()) {
			told = "resigned"
		}
		n.enter(conn, lines.Text(), told)
		fmt.Fprintf(conn, "%s\n", told)
	}
}

// enter has who stands in a session be present.
func (n *node) enter(conn net.Conn, line, told string) {
	own := line[strings.LastIndex(line, " ")+1:]
	if strings.HasPrefix(line, "stand ") && (told == "stood" || told == "no 3 already "+own) {
		n.mutex.Lock()
		defer n.mutex.Unlock()
		n.stands[conn] = append(n.stands[conn], line)
	}
}

// resigns has who stood in the session be present no more, where it resigns, and the node takes that.
func (n *node) resigns(conn net.Conn, line string) bool {
	n.mutex.Lock()
	defer n.mutex.Unlock()
	term := strings.TrimPrefix(line, "resign ")
	if !n.takesResigns || term == line {
		return false
	}
	for place, stood := range n.stands[conn] {
		if strings.HasPrefix(stood, "stand "+term+" ") {
			n.stands[conn] = append(n.stands[conn][:place:place], n.stands[conn][place+1:]...)
			n.resigned = term
			return true
		}
	}
	return false
}

// hasResigned tells whether who led in this term of `red` resigned last.
func (n *node) hasResigned(term int) bool {
	n.mutex.Lock()
	defer n.mutex.Unlock()
	return n.resigned == fmt.Sprint("red ", term)
}

// leave has nobody be present in a session any more, which it ends.
func (n *node) leave(conn net.Conn) {
	conn.Close()
	n.mutex.Lock()
	defer n.mutex.Unlock()
	delete(n.stands, conn)
}

// isPresent tells whether a session is open in which somebody stood so.
func (n *node) isPresent(group string, led Led) bool {
	n.mutex.Lock()
	defer n.mutex.Unlock()
	for _, stood := range n.stands {
		for _, line := range stood {
			if line == fmt.Sprintf("stand %s %d %d", group, led.Term, led.Leader.Bid) {
				return true
			}
		}
	}
	return false
}

// present are the groups for which somebody is, of each session that is open and in which somebody stood.
func (n *node) present() [][]string {
	n.mutex.Lock()
	defer n.mutex.Unlock()
	all := [][]string{}
	for _, stood := range n.stands {
		groups := []string{}
		for _, line := range stood {
			groups = append(groups, strings.Fields(line)[1])
		}
		sort.Strings(groups)
		all = append(all, groups)
	}
	return all
}

// is has the node answer so from now on.
func (n *node) is(answer answer) {
	n.mutex.Lock()
	defer n.mutex.Unlock()
	n.answer = answer
}

// serves has the node serve so many sessions side by side, and take resigns.
func (n *node) serves(count int) {
	n.mutex.Lock()
	defer n.mutex.Unlock()
	n.doors, n.takesResigns = make(chan struct{}, count), true
}

// lines are those that the node was sent and that begin so.
func (n *node) lines(begin string) []string {
	n.mutex.Lock()
	defer n.mutex.Unlock()
	found := []string{}
	for _, line := range n.asked {
		if strings.HasPrefix(line, begin) {
			found = append(found, line)
		}
	}
	return found
}

// sessions is how many were opened.
func (n *node) sessions() int {
	n.mutex.Lock()
	defer n.mutex.Unlock()
	return len(n.conns)
}

// end ends the node and its sessions.
func (n *node) end() {
	n.listener.Close()
	n.mutex.Lock()
	for _, conn := range n.conns {
		conn.Close()
	}
	n.mutex.Unlock()
	n.served.Wait()
}

// beside gives a ring of nodes that answer so, at ports that lie side by side.
func beside(t *testing.T, answers ...answer) (*Ring, []*node) {
	t.Helper()
	return besideAt(t, "", answers...)
}

// besideAt gives one at this host.
func besideAt(t *testing.T, host string, answers ...answer) (*Ring, []*node) {
	t.Helper()
	leavesNone(t)
	for range make([]struct{}, 100) {
		first, letGo := trial.HoldPorts(t, len(answers))
		nodes := []*node{}
		for place, answer := range answers {
			if made, err := newNode(address(host, first+place), answer); err == nil {
				nodes = append(nodes, made)
			}
		}
		letGo()
		end := func() {
			for _, made := range nodes {
				made.end()
			}
		}
		if len(nodes) < len(answers) {
			end()
			continue
		}
		ring, err := NewRing(first, first+len(answers)-1)
		must(t, err)
		ring.Host, ring.Timeout = host, 3*time.Second
		t.Cleanup(end)
		t.Cleanup(func() { ring.Close() })
		return ring, nodes
	}
	t.Fatal("no free ports")
	return nil, nil
}

// leavesNone looks at the end of a test that no goroutine of it is left.
func leavesNone(t *testing.T) {
	before := runtime.NumGoroutine()
	t.Cleanup(func() {
		for until := time.Now().Add(3 * time.Second); runtime.NumGoroutine() > before; time.Sleep(10 * time.Millisecond) {
			if time.Now().After(until) {
				stacks := make([]byte, 1<<16)
				t.Fatalf("goroutines are left:\n%s", stacks[:runtime.Stack(stacks, true)])
			}
		}
	})
}

func deaf(string) (string, bool) {
	return "", false
}

// never answers, until the test is over.
func never(t *testing.T) answer {
	over := make(chan struct{})
	t.Cleanup(func() { close(over) })
	return func(string) (string, bool) {
		<-over
		return "", false
	}
}

func always(told string) answer {
	return func(string) (string, bool) { return told, true }
}

// first gives these answers, one after the other; none for "".
func first(told ...string) answer {
	var mutex sync.Mutex
	return func(string) (string, bool) {
		mutex.Lock()
		defer mutex.Unlock()
		if len(told) == 0 {
			return "", false
		}
		next := told[0]
		told = told[1:]
		return next, next != ""
	}
}

// votes are what nodes of a ring would answer. Who stands for a term first leads in it, unless all are deposed.
type votes struct {
	mutex   sync.Mutex
	deposed bool
	floor   int
	stood   map[int]int
	leaders map[int]Leader
}

func newVotes() *votes {
	return &votes{stood: map[int]int{}, leaders: map[int]Leader{}}
}

// lead has somebody lead in a term.
func (v *votes) lead(term, node, bid int) *votes {
	v.mutex.Lock()
	defer v.mutex.Unlock()
	v.leaders[term] = Leader{node, bid}
	return v
}

// bid is that of who stood for the term.
func (v *votes) bid(term int) int {
	v.mutex.Lock()
	defer v.mutex.Unlock()
	return v.stood[term]
}

// retired is the floor.
func (v *votes) retired() int {
	v.mutex.Lock()
	defer v.mutex.Unlock()
	return v.floor
}

func (v *votes) latest() int {
	latest := 0
	for term := range v.leaders {
		if term > latest {
			latest = term
		}
	}
	return latest
}

// answer is that of node 1.
func (v *votes) answer(line string) (string, bool) {
	return v.at(1)(line)
}

// groups are votes for each group apart.
type groups struct {
	mutex sync.Mutex
	votes map[string]*votes
}

// at gives the answers of a node, which is told what holders tell.
func (g *groups) at(node int) answer {
	return func(line string) (string, bool) {
		words := strings.Fields(line)
		if words[0] == "tell" {
			return "told", true
		}
		g.mutex.Lock()
		defer g.mutex.Unlock()
		if g.votes[words[1]] == nil {
			g.votes[words[1]] = newVotes()
		}
		return g.votes[words[1]].answerAt(node, line), true
	}
}

// at gives the answers of a node.
func (v *votes) at(node int) answer {
	return func(line string) (string, bool) { return v.answerAt(node, line), true }
}

func (v *votes) answerAt(node int, line string) string {
	v.mutex.Lock()
	defer v.mutex.Unlock()
	var group string
	var term, bid int
	word, _, _ := strings.Cut(line, " ")
	switch fmt.Sscanf(line, word+" %s %d %d", &group, &term, &bid); {
	case word == "retire":
		return v.retire(term)
	case word != "latest" && term < v.floor:
		return fmt.Sprintf("no 23 retired %d", v.floor)
	case word == "stand":
		return v.stand(term, Leader{node, bid})
	case word == "latest":
		term = v.latest()
	}
	leader, isKnown := v.leaders[term]
	switch {
	case !isKnown:
		return "none"
	case word == "latest":
		return fmt.Sprintf("term %d leader %d %d", term, leader.Node, leader.Bid)
	default:
		return fmt.Sprintf("leader %d %d", leader.Node, leader.Bid)
	}
}

func (v *votes) stand(term int, candidate Leader) string {
	if known, stands := v.stood[term]; stands {
		return fmt.Sprintf("no 3 already %d", known)
	}
	v.stood[term] = candidate.Bid
	if !v.deposed {
		v.leaders[term] = candidate
	}
	return "stood"
}

func (v *votes) retire(floor int) string {
	if floor <= v.floor {
		return fmt.Sprintf("no 23 retired %d", v.floor)
	}
	if floor > v.latest() {
		return "no 26 undecided"
	}
	v.floor = floor
	return "retired"
}

var must, same = trial.Must, trial.Same

// is ends the test where the error is none of this cause.
func is(t *testing.T, err, cause error) {
	t.Helper()
	if !errors.Is(err, cause) {
		t.Fatalf("came %v, wanted %v", err, cause)
	}
}

// as gives the error of this type, and ends the test where there is none.
func as[E error](t *testing.T, err error) E {
	t.Helper()
	var fault E
	if !errors.As(err, &fault) {
		t.Fatalf("came %v, wanted a %T", err, fault)
	}
	return fault
}

// background is the context of a test.
func background(t *testing.T) context.Context {
	ctx, cancel := context.WithTimeout(context.Background(), time.Minute)
	t.Cleanup(cancel)
	return ctx
}
