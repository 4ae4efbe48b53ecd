package cinoweta

import (
	"context"
	"errors"
	"io"
	"net"
	"net/http"
	"net/http/httptest"
	"os"
	"sync/atomic"
	"testing"
	"time"
)

// A page is an answer over HTTP.
type page struct {
	code int
	text string
}

type pages map[string]page

// ServeHTTP answers once, as ringd does.
func (p pages) ServeHTTP(writer http.ResponseWriter, request *http.Request) {
	answer, isThere := p[request.URL.RequestURI()]
	if !isThere || !request.Close {
		answer.code = http.StatusNotFound
	}
	writer.WriteHeader(answer.code)
	writer.Write([]byte(answer.text))
}

// status gives the port of a server that answers as `ringd --status` does.
func status(t *testing.T, told http.Handler) int {
	t.Helper()
	return statusAt(t, "", told)
}

// statusAt gives that of one at this host.
func statusAt(t *testing.T, host string, told http.Handler) int {
	t.Helper()
	listener, err := net.Listen("tcp", address(host, 0))
	must(t, err)
	server := httptest.Server{Listener: listener, Config: &http.Server{Handler: told}}
	server.Start()
	t.Cleanup(server.Close)
	return listener.Addr().(*net.TCPAddr).Port
}

func TestHealth(t *testing.T) {
	leavesNone(t)
	faults, err := Health(background(t), "", status(t, pages{"/health": {http.StatusOK, "well\n"}}))
	must(t, err)
	same(t, len(faults), 0)
	for _, text := range []string{"node 2 failed\nnode 3 full\nhelp: see the disk, and start ringd again\n", "node 2 failed\nnode 3 full"} {
		faults, err := Health(background(t), "", status(t, pages{"/health": {http.StatusServiceUnavailable, text}}))
		must(t, err)
		same(t, faults, []string{"node 2 failed", "node 3 full"})
	}
	_, err = Health(background(t), "", status(t, pages{}))
	as[*WrongRingError](t, err)
	_, err = Health(background(t), "", 1)
	as[*NoAnswerError](t, err)
}

func TestStatusIsRead(t *testing.T) {
	leavesNone(t)
	told, err := Status(background(t), "", status(t, pages{"/status": {http.StatusOK, `{"version": "0.1.0", "ring": "5ea1", "dir": "ring-state",
		"started": 1700000000, "words": "--always", "idle": 5, "doorless": [1], "nodes": [{"node": 1, "port": 7101, "state": "failed", "journal": {"inputs": 21, "renewable": true},
		"stands": {"left": 1000}, "sessions": {"refusals": [{"count": 4, "number": 15}]}, "new": 5}]}`}}))
	must(t, err)
	node := NodeStatus{Node: 1, Port: 7101, State: "failed", Journal: JournalStatus{Inputs: 21, Renewable: true},
		Stands: StandsStatus{Left: 1000}, Sessions: SessionsStatus{Refusals: []RefusalCount{{ErrDeviceFailed, 4}}}}
	same(t, told, RingStatus{"0.1.0", "5ea1", "ring-state", 1700000000, "--always", 5, []int{1}, []NodeStatus{node}})
	for _, wrong := range []page{{200, "[]"}, {200, "well"}, {404, "{}"}, {200, `{"nodes": 3}`}, {200, `{"nodes": [1]}`}, {200, "{}"},
		{404, `{"nodes": []}`}} {
		_, err := Status(background(t), "", status(t, pages{"/status": wrong}))
		as[*WrongRingError](t, err)
	}
	_, err = Status(background(t), "", 1)
	as[*NoAnswerError](t, err)
}

func TestLeaders(t *testing.T) {
	leavesNone(t)
	port := status(t, pages{
		"/leaders?node=2": {200, `{"by": 2, "leaders": [{"bid": 7, "group": "a", "node": 3, "term": 5},
			{"bid": 8, "group": "b", "node": 1, "term": 6}], "more": true}`},
		"/leaders?node=2&after=b":   {200, `{"by": 2, "leaders": [{"bid": 9, "group": "c-d", "node": 2, "term": 5}], "more": true}`},
		"/leaders?node=2&after=c-d": {200, `{"by": 2, "leaders": [], "more": false}`},
	})
	led, err := Leaders(background(t), "", port, 2)
	must(t, err)
	same(t, led, []GroupLed{{"a", Led{5, Leader{3, 7}}}, {"b", Led{6, Leader{1, 8}}}, {"c-d", Led{5, Leader{2, 9}}}})
	for _, text := range []string{"{}", `{"leaders": [1]}`, `{"leaders": [{"group": "a"}]}`, `{"leaders": [{"group": 1, "term": 1}]}`} {
		_, err := Leaders(background(t), "", status(t, pages{"/leaders?node=1": {200, text}}), 1)
		as[*WrongRingError](t, err)
	}
}

func TestALeaderOfANode(t *testing.T) {
	leavesNone(t)
	port := status(t, pages{
		"/leaders/red?node=2": {200, `{"by": 2, "leader": {"bid": 5, "group": "red", "node": 2, "term": 7}, "present": true}`},
		"/leaders/blue?node=2": {200, `{"by": 2, "leader": {"bid": 5, "group": "blue", "node": 2, "term": 9}, "present": false,
			"resigned": true, "text": ""}`},
		"/leaders/r%20d?node=3": {200, `{"by": 3, "leader": {"bid": 5, "group": "r d", "node": 3, "term": 8}, "present": false}`},
	})
	for _, row := range []struct {
		group  string
		node   int
		wanted Led
		sight  sight
	}{{"red", 2, Led{7, Leader{2, 5}}, sight{isPresent: true}}, {"r d", 3, Led{8, Leader{3, 5}}, sight{}}, {"red", 1, Led{}, sight{}},
		{"blue", 2, Led{9, Leader{2, 5}}, sight{hasResigned: true}}} {
		led, sight, err := leaderOf(background(t), "", port, row.group, row.node)
		must(t, err)
		same(t, []any{led, sight}, []any{row.wanted, row.sight})
	}
	leader := `"leader": {"bid": 5, "group": "red", "node": 2, "term": 7}`
	for _, wrong := range []page{{200, "{" + leader + "}"}, {200, "{" + leader + `, "present": 1}`}, {200, `{"present": true}`},
		{200, "[]"}, {200, "well"}, {500, ""}, {204, ""}} {
		_, _, err := leaderOf(background(t), "", status(t, pages{"/leaders/red?node=1": wrong}), "red", 1)
		as[*WrongRingError](t, err)
	}
	_, _, err := leaderOf(background(t), "", status(t, pages{"/leaders/red?node=1": {503, ""}}), "red", 1)
	as[*NoAnswerError](t, err)
}

func TestAStatusThatIsNotAnsweredEndsWithItsContext(t *testing.T) {
	leavesNone(t)
	listener, err := net.Listen("tcp", address("", 0))
	must(t, err)
	defer listener.Close()
	ctx, cancel := context.WithTimeout(background(t), 100*time.Millisecond)
	defer cancel()
	_, err = Health(ctx, "", listener.Addr().(*net.TCPAddr).Port)
	as[*NoAnswerError](t, err)
	is(t, err, context.DeadlineExceeded)
}

func TestTheStatusPortMayTellLate(t *testing.T) {
	var asked atomic.Int32
	late := func(writer http.ResponseWriter, request *http.Request) {
		if asked.Add(1); request.URL.RequestURI() != "/leaders/red?above=1&wait=30" {
			writer.WriteHeader(http.StatusNotFound)
			return
		}
		time.Sleep(6 * time.Second)
		io.WriteString(writer, `{"by": 1, "leader": {"bid": 5, "group": "red", "node": 1, "term": 2}, "present": true}`)
	}
	ring, nodes := beside(t, deaf, deaf)
	ring.Status = status(t, http.HandlerFunc(late))
	led, err := ring.Watch("red", 1).Next(background(t))
	must(t, err)
	same(t, []any{led, asked.Load()}, []any{Led{2, Leader{1, 5}}, 1})
	// Nobody else had to be asked.
	same(t, len(nodes[0].lines(""))+len(nodes[1].lines("")), 0)
}

func TestATimeThatNobodySetEndsNoContext(t *testing.T) {
	leavesNone(t)
	listener, err := net.Listen("tcp", address(ownHost, 0))
	must(t, err)
	defer listener.Close()
	// It takes connections, and answers nothing.
	port := listener.Addr().(*net.TCPAddr).Port
	_, _, status := getWithin(background(t), "", port, "/health", 100*time.Millisecond)
	ring := newRing(port, 2)
	ring.Timeout = 100 * time.Millisecond
	_, _, latest := ring.Latest(background(t), "red", 1)
	// Nor does a connection that is not taken in time, which is told as the end of a context too.
	_, dialed := openSession(background(t), address(ownHost, port), time.Nanosecond)
	for _, fault := range []error{status, latest, noAnswer(background(t), "", dialed)} {
		as[*NoAnswerError](t, fault)
		same(t, []bool{errors.Is(fault, context.DeadlineExceeded), errors.Is(fault, os.ErrDeadlineExceeded)}, []bool{false, true})
	}
	ctx, cancel := context.WithTimeout(background(t), 100*time.Millisecond)
	defer cancel()
	_, err = Health(ctx, "", port)
	is(t, err, context.DeadlineExceeded)
}
