//go:build linux

package main

import (
	"bufio"
	"fmt"
	"net"
	"net/http"
	"net/http/httptest"
	"strconv"
	"strings"
	"sync"
	"testing"
	"time"

	"cinoweta/internal/trial"
)

// A ring is two nodes that know the same. Who stands for a term first leads in it, unless all are deposed.
type ring struct {
	first     int
	listeners []net.Listener

	mutex     sync.Mutex
	conns     []net.Conn
	asked     []string
	leaders   map[int]string
	isDeposed bool
	// Closed at the end of the test, until which a silent ring answers nothing.
	over     chan struct{}
	isSilent bool
}

// serve serves a new ring until the end of the test.
func serve(t *testing.T) *ring {
	t.Helper()
	made := &ring{leaders: map[int]string{}, over: make(chan struct{})}
	for range make([]struct{}, 100) {
		first, letGo := trial.HoldPorts(t, 2)
		made.first = first
		one, fault := net.Listen("tcp", fmt.Sprint("127.0.0.1:", first))
		other, otherFault := net.Listen("tcp", fmt.Sprint("127.0.0.1:", first+1))
		letGo()
		if fault != nil || otherFault != nil {
			for _, listener := range []net.Listener{one, other} {
				if listener != nil {
					listener.Close()
				}
			}
			continue
		}
		made.listeners = []net.Listener{one, other}
		go made.accept(1, one)
		go made.accept(2, other)
		t.Cleanup(func() { made.end() })
		t.Cleanup(func() { close(made.over) })
		return made
	}
	t.Fatal("no free ports")
	return nil
}

func (r *ring) accept(node int, listener net.Listener) {
	for {
		conn, err := listener.Accept()
		if err != nil {
			return
		}
		r.mutex.Lock()
		r.conns = append(r.conns, conn)
		r.mutex.Unlock()
		go func() {
			defer conn.Close()
			for lines := bufio.NewScanner(conn); lines.Scan(); {
				fmt.Fprintf(conn, "%s\n", r.answer(node, lines.Text()))
			}
		}()
	}
}

// answer is that of a node to a line.
func (r *ring) answer(node int, line string) string {
	r.mutex.Lock()
	r.asked = append(r.asked, line)
	isSilent := r.isSilent
	r.mutex.Unlock()
	if isSilent {
		<-r.over
	}
	r.mutex.Lock()
	defer r.mutex.Unlock()
	words := strings.Fields(line)
	switch {
	case strings.ToLower(words[1]) != words[1]:
		return "no 1 name"
	case words[0] == "stand":
		return r.stand(node, words)
	case words[0] != "latest":
		return map[string]string{"tell": "told", "resign": "resigned", "retire": "retired"}[words[0]]
	case r.latest() == 0:
		return "none"
	default:
		return fmt.Sprintf("term %d leader %s", r.latest(), r.leaders[r.latest()])
	}
}

func (r *ring) stand(node int, words []string) string {
	term, _ := strconv.Atoi(words[2])
	if leader, isKnown := r.leaders[term]; isKnown {
		return "no 3 already " + strings.Fields(leader)[1]
	}
	if !r.isDeposed {
		r.leaders[term] = fmt.Sprintf("%d %s", node, words[3])
	}
	return "stood"
}

func (r *ring) latest() int {
	latest := 0
	for term := range r.leaders {
		if term > latest {
			latest = term
		}
	}
	return latest
}

// change changes what the nodes know.
func (r *ring) change(change func()) {
	r.mutex.Lock()
	defer r.mutex.Unlock()
	change()
}

// lines are those that were asked and begin so.
func (r *ring) lines(begin string) []string {
	r.mutex.Lock()
	defer r.mutex.Unlock()
	found := []string{}
	for _, line := range r.asked {
		if strings.HasPrefix(line, begin) {
			found = append(found, line)
		}
	}
	return found
}

// end ends the nodes and their sessions.
func (r *ring) end() {
	for _, listener := range r.listeners {
		listener.Close()
	}
	r.mutex.Lock()
	defer r.mutex.Unlock()
	for _, conn := range r.conns {
		conn.Close()
	}
}

func (r *ring) ports() string {
	return fmt.Sprintf("%d-%d", r.first, r.first+1)
}

// status serves a port that tells of each latest leader as present, until it resigned.
func (r *ring) status(t *testing.T) string {
	t.Helper()
	tells := func(writer http.ResponseWriter, request *http.Request) {
		r.mutex.Lock()
		defer r.mutex.Unlock()
		term, node, bid := r.latest(), 0, 0
		fmt.Sscan(r.leaders[term], &node, &bid)
		hasResigned := strings.Contains(strings.Join(r.asked, "\n"), fmt.Sprint("resign jobs ", term))
		fmt.Fprintf(writer, `{"leader": {"term": %d, "node": %d, "bid": %d}, "present": %t, "resigned": %t, "text": "a text"}`,
			term, node, bid, !hasResigned, hasResigned)
	}
	server := httptest.NewServer(http.HandlerFunc(tells))
	t.Cleanup(server.Close)
	return server.URL[strings.LastIndex(server.URL, ":")+1:]
}

// until waits until it is so.
func until(t *testing.T, what string, isSo func() bool) {
	t.Helper()
	for late := time.Now().Add(60 * time.Second); !isSo(); time.Sleep(20 * time.Millisecond) {
		if time.Now().After(late) {
			t.Fatal("it never came: " + what)
		}
	}
}
