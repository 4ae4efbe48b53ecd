package cinoweta

import (
	"context"
	"encoding/json"
	"errors"
	"fmt"
	"io"
	"net/http"
	"net/url"
	"strings"
	"time"
)

const (
	// More is read of no answer, in bytes.
	longestPage = 1 << 20
	// So long an answer of the status port is waited for.
	statusLimit = 5 * time.Second
)

// A RingStatus is what `ringd --status` tells of a ring: its identity, empty where it has none, its start in Unix time, the words that it was started with, how
// many seconds a session may be silent, 0 of which is for ever, and the nodes that have no free door.
type RingStatus struct {
	Version  string       `json:"version"`
	Ring     string       `json:"ring"`
	Dir      string       `json:"dir"`
	Started  int64        `json:"started"`
	Words    string       `json:"words"`
	Idle     int64        `json:"idle"`
	Doorless []int        `json:"doorless"`
	Nodes    []NodeStatus `json:"nodes"`
}

// A NodeStatus is what is told of a node. Its state is `well`, or what is not: `limit`, `full`, `hangs` or `failed`.
type NodeStatus struct {
	Node      int            `json:"node"`
	Port      int            `json:"port"`
	State     string         `json:"state"`
	Elections int64          `json:"elections"`
	Journal   JournalStatus  `json:"journal"`
	Messages  MessagesStatus `json:"messages"`
	Stands    StandsStatus   `json:"stands"`
	Sessions  SessionsStatus `json:"sessions"`
}

// A JournalStatus is what a node's journal comes to. docs/OPERATING.md says what the numbers mean, here and below.
type JournalStatus struct {
	Batches       int64 `json:"batches"`
	Capacity      int64 `json:"capacity"`
	CheckpointAge int64 `json:"checkpoint_age"`
	Checkpoints   int64 `json:"checkpoints"`
	Durable       int64 `json:"durable"`
	Epoch         int64 `json:"epoch"`
	Inputs        int64 `json:"inputs"`
	Layout        int64 `json:"layout"`
	Refused       int64 `json:"refused"`
	Renewable     bool  `json:"renewable"`
	Snapshot      int64 `json:"snapshot"`
	Syncs         int64 `json:"syncs"`
	Used          int64 `json:"used"`
	Writing       int64 `json:"writing"`
}

// A MessagesStatus is what a node's messages come to.
type MessagesStatus struct {
	Credit  int64 `json:"credit"`
	Refused int64 `json:"refused"`
	Sent    int64 `json:"sent"`
	Taken   int64 `json:"taken"`
	Waiting int64 `json:"waiting"`
}

// A StandsStatus is what a node's Stands come to.
type StandsStatus struct {
	Floors int64 `json:"floors"`
	Left   int64 `json:"left"`
	Taken  int64 `json:"taken"`
}

// A SessionsStatus is what a node's sessions come to.
type SessionsStatus struct {
	Begun    int64          `json:"begun"`
	Busy     int64          `json:"busy"`
	Doors    int64          `json:"doors"`
	Refusals []RefusalCount `json:"refusals"`
}

// A RefusalCount is how often clients were told a refusal.
type RefusalCount struct {
	Number Refusal `json:"number"`
	Count  int64   `json:"count"`
}

// A GroupLed is a group, its latest term and the leader of that.
type GroupLed struct {
	Group string
	Led
}

// Health gives a line for each node that is not well, as `node 3 full`, by what `ringd --status` tells at this port of
// the host, which is 127.0.0.1 where it is ""; none where all are.
func Health(ctx context.Context, host string, port int) ([]string, error) {
	code, text, err := get(ctx, host, port, "/health")
	switch {
	case err != nil:
		return nil, err
	case code == http.StatusOK:
		return nil, nil
	case code == http.StatusServiceUnavailable:
		var faults []string
		for _, line := range strings.Split(string(text), "\n") {
			// Behind them stands what helps.
			if strings.HasPrefix(line, "node ") {
				faults = append(faults, line)
			}
		}
		return faults, nil
	default:
		return nil, noStatus(host, port, "/health", code)
	}
}

// Status gives what is told there of the ring and of each node.
func Status(ctx context.Context, host string, port int) (RingStatus, error) {
	var told RingStatus
	err := getJSON(ctx, host, port, "/status", &told)
	if err == nil && told.Nodes == nil {
		err = noStatus(host, port, "/status", http.StatusOK)
	}
	return told, err
}

// A leadersPage is one of /leaders.
type leadersPage struct {
	Leaders []struct {
		Group           string
		Term, Node, Bid int
	}
	More bool
}

// Leaders gives each group that a node knows a leader of, in order of name, by what is told there.
func Leaders(ctx context.Context, host string, port, node int) ([]GroupLed, error) {
	led := []GroupLed{}
	for path := fmt.Sprintf("/leaders?node=%d", node); ; {
		var page leadersPage
		if err := getJSON(ctx, host, port, path, &page); err != nil {
			return nil, err
		}
		for _, row := range page.Leaders {
			if row.Group == "" || row.Term == 0 {
				return nil, noStatus(host, port, path, http.StatusOK)
			}
			led = append(led, GroupLed{row.Group, Led{row.Term, Leader{row.Node, row.Bid}}})
		}
		if page.Leaders == nil {
			return nil, noStatus(host, port, path, http.StatusOK)
		}
		if !page.More || len(page.Leaders) == 0 {
			return led, nil
		}
		path = fmt.Sprintf("/leaders?node=%d&after=%s", node, led[len(led)-1].Group)
	}
}

// coming gives the group's latest leader in a term above this one, for which the port waits so many seconds, 60 at most,
// and whether there was one.
func coming(ctx context.Context, host string, port int, group string, above, seconds int) (Led, bool, error) {
	path := fmt.Sprintf("/leaders/%s?above=%d&wait=%d", url.PathEscape(group), above, seconds)
	led, _, err := getLeader(ctx, host, port, path, seconds, http.StatusNoContent)
	if err == nil && led.Term > 0 && led.Term <= above {
		err = noStatus(host, port, path, http.StatusOK)
	}
	return led, err == nil && led.Term > 0, err
}

// changes waits at the port until who leads so is not present, or another one leads, so many seconds at most. False where
// it does not wait, as an earlier ringd.
func changes(ctx context.Context, host string, port int, group string, known Led, seconds int) bool {
	const form = "/leaders/%s?node=%d&held=%d&wait=%d"
	path := fmt.Sprintf(form, url.PathEscape(group), known.Leader.Node, known.Term, seconds)
	code, _, err := getWithin(ctx, host, port, path, time.Duration(seconds)*time.Second+statusLimit)
	return err == nil && (code == http.StatusOK || code == http.StatusNoContent)
}

// A sight is how who leads is seen.
type sight struct {
	isPresent, hasResigned bool
	// What it tells of itself.
	text string
}

// isSure tells whether no time changes it: who is neither may come back.
func (s sight) isSure() bool {
	return s.isPresent || s.hasResigned
}

// leaderOf gives the group's latest leader by what this node knows, of term 0 where it knows none, and whether who stood
// so is present. docs/OPERATING.md says what that tells.
func leaderOf(ctx context.Context, host string, port int, group string, node int) (Led, sight, error) {
	path := fmt.Sprintf("/leaders/%s?node=%d", url.PathEscape(group), node)
	return getLeader(ctx, host, port, path, 0, http.StatusNotFound)
}

// getLeader reads a leader, for which the port waits so many seconds, and how it is seen. It is of term 0 where the answer
// has the status that says that there is none.
func getLeader(ctx context.Context, host string, port int, path string, seconds, none int) (Led, sight, error) {
	code, text, err := getWithin(ctx, host, port, path, time.Duration(seconds)*time.Second+statusLimit)
	if err != nil || code == none {
		return Led{}, sight{}, err
	}
	if code == http.StatusServiceUnavailable {
		// No place is free for who waits, or memory is wanting.
		return Led{}, sight{}, noAnswer(ctx, address(host, port)+path, errors.New("503"))
	}
	var told struct {
		Leader   struct{ Term, Node, Bid int }
		Present  *bool
		Resigned bool
		Text     string
	}
	if code != http.StatusOK || json.Unmarshal(text, &told) != nil || told.Leader.Term <= 0 || told.Present == nil {
		return Led{}, sight{}, noStatus(host, port, path, code)
	}
	return Led{told.Leader.Term, Leader{told.Leader.Node, told.Leader.Bid}}, sight{*told.Present, told.Resigned, told.Text}, nil
}

// getJSON reads an answer in JSON.
func getJSON(ctx context.Context, host string, port int, path string, told any) error {
	code, text, err := get(ctx, host, port, path)
	if err != nil {
		return err
	}
	if code != http.StatusOK || json.Unmarshal(text, told) != nil {
		return noStatus(host, port, path, code)
	}
	return nil
}

// get gives the status and the text of an answer.
func get(ctx context.Context, host string, port int, path string) (int, []byte, error) {
	return getWithin(ctx, host, port, path, statusLimit)
}

// getWithin gives the same of one that comes within this time.
func getWithin(ctx context.Context, host string, port int, path string, limit time.Duration) (int, []byte, error) {
	if err := requireHost(host); err != nil {
		return 0, nil, err
	}
	limited, cancel := context.WithTimeout(ctx, limit)
	defer cancel()
	request, err := http.NewRequestWithContext(limited, http.MethodGet, "http://"+address(host, port)+path, nil)
	if err != nil {
		return 0, nil, fmt.Errorf("cinoweta: %w", err)
	}
	// No proxy is asked, and nothing is left open.
	transport := &http.Transport{DisableKeepAlives: true}
	answer, err := transport.RoundTrip(request)
	if err != nil {
		return 0, nil, noAnswer(ctx, address(host, port)+path, err)
	}
	defer answer.Body.Close()
	text, err := io.ReadAll(io.LimitReader(answer.Body, longestPage))
	if err != nil {
		return 0, nil, noAnswer(ctx, address(host, port)+path, err)
	}
	return answer.StatusCode, text, nil
}

func noStatus(host string, port int, path string, code int) error {
	return &WrongRingError{fmt.Sprintf("%s%s answers %d: is it that of ringd --status?", address(host, port), path, code)}
}
