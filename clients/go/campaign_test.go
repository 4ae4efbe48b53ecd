package cinoweta

import (
	"context"
	"math"
	"net"
	"net/http"
	"strings"
	"testing"
	"time"

	"cinoweta/internal/trial"
)

// short has a campaign stand at node 1, and wait no longer than it has to.
func short(how CampaignOptions) CampaignOptions {
	how.Node, how.Wait = 1, 100*time.Millisecond
	return how
}

// elects is a campaign that ends with this election.
func elects(t *testing.T, ring *Ring, how CampaignOptions, wanted Election) {
	t.Helper()
	election, err := ring.Campaign(background(t), "red", short(how))
	must(t, err)
	same(t, election, wanted)
}

func TestACampaignLeads(t *testing.T) {
	votes := newVotes()
	ring, _ := beside(t, votes.answer, votes.answer)
	election, err := ring.Campaign(background(t), "red", short(CampaignOptions{Rank: 3}))
	must(t, err)
	same(t, election, Election{Led{1, Leader{1, votes.bid(1)}}, true})
	same(t, votes.bid(1)/1_000_000, 3)
	same(t, ring.session == nil, true)
}

func TestALaterLeaderIsNotPutAside(t *testing.T) {
	votes := newVotes().lead(4, 2, 30)
	ring, nodes := beside(t, votes.answer, votes.answer)
	elects(t, ring, CampaignOptions{Gone: 3}, Election{Led{4, Leader{2, 30}}, false})
	same(t, len(nodes[0].lines("stand")), 0)
	election, err := ring.Campaign(background(t), "red", short(CampaignOptions{Gone: 4}))
	must(t, err)
	same(t, election.IsMine, true)
}

func TestOneBidAtOneNodeDoesNotMakeTwoLeaders(t *testing.T) {
	votes := newVotes()
	votes.deposed, votes.stood[1] = true, 10
	ring, _ := beside(t, func(line string) (string, bool) {
		told, isTold := votes.answer(line)
		if strings.HasPrefix(line, "stand") {
			votes.lead(1, 1, 10)
		}
		return told, isTold
	}, votes.answer)
	campaign, err := newCampaign(ring, "red", 10, short(CampaignOptions{}))
	must(t, err)
	election, err := campaign.run(background(t))
	must(t, err)
	same(t, election.IsMine, false)
}

// refuses answers so to each Stand, and knows no leader.
func refuses(told string) answer {
	return func(line string) (string, bool) {
		if strings.HasPrefix(line, "stand") {
			return told, true
		}
		return "none", true
	}
}

func TestACampaignStopsWhereNoStandIsTaken(t *testing.T) {
	for told, cause := range map[string]Refusal{"no 7 full": ErrFull, "no 9 failed": ErrNodeFailed, "no 8 memory": ErrOutOfMemory,
		"no 15 device 1": ErrDeviceFailed, "no 1 name": ErrBadName, "no 99 new": 99} {
		ring, nodes := beside(t, refuses(told), refuses(told))
		_, err := ring.Campaign(background(t), "red", CampaignOptions{})
		is(t, err, cause)
		same(t, len(nodes[0].lines("stand"))+len(nodes[1].lines("stand")), 1)
	}
}

func TestACampaignGoesToAnotherNodeAtItsLimit(t *testing.T) {
	ring, nodes := beside(t, refuses("no 6 limit"), refuses("no 6 limit"), refuses("no 6 limit"))
	_, err := ring.Campaign(background(t), "red", short(CampaignOptions{}))
	is(t, err, ErrLimitReached)
	same(t, []int{len(nodes[0].lines("stand")), len(nodes[1].lines("stand"))}, []int{1, 0})
	_, err = ring.Campaign(background(t), "red", CampaignOptions{})
	is(t, err, ErrLimitReached)
	same(t, []int{len(nodes[0].lines("stand")), len(nodes[1].lines("stand")), len(nodes[2].lines("stand"))}, []int{2, 1, 1})
	votes := newVotes()
	ring, _ = beside(t, refuses("no 6 limit"), votes.at(2), refuses("no 6 limit"))
	ring.place = 2
	election, err := ring.Campaign(background(t), "red", CampaignOptions{})
	must(t, err)
	same(t, election, Election{Led{1, Leader{2, votes.bid(1)}}, true})
}

// cramped gives the answers of a node that has no room for a Stand while the group has terms below the latest there.
func cramped(votes *votes, refusal string) answer {
	return func(line string) (string, bool) {
		votes.mutex.Lock()
		isFull := strings.HasPrefix(line, "stand") && votes.floor < votes.latest()
		votes.mutex.Unlock()
		if isFull {
			return refusal, true
		}
		return votes.answer(line)
	}
}

func TestANodeWithoutRoomIsToldToRetire(t *testing.T) {
	for _, refusal := range []string{"no 6 limit", "no 7 full"} {
		votes := newVotes().lead(20, 2, 30)
		ring, nodes := beside(t, cramped(votes, refusal), votes.answer)
		election, err := ring.Campaign(background(t), "red", short(CampaignOptions{Gone: 20, Keep: 1_000}))
		must(t, err)
		same(t, election, Election{Led{21, Leader{1, votes.bid(21)}}, true})
		same(t, nodes[0].lines("retire"), []string{"retire red 20"})
		same(t, []int{len(nodes[0].lines("stand")), len(nodes[1].lines(""))}, []int{2, 0})
	}
}

func TestANodeThatHasNothingToRetireIsToldNothing(t *testing.T) {
	for _, known := range []string{"none", "term 1 leader 2 30", "no 8 memory"} {
		ring, nodes := beside(t, first("none", "no 7 full", known), deaf)
		_, err := ring.Campaign(background(t), "red", short(CampaignOptions{}))
		is(t, err, ErrFull)
		same(t, []int{len(nodes[0].lines("retire")), len(nodes[0].lines("stand"))}, []int{0, 1})
	}
	// Nor is asked once more where it does not retire.
	ring, nodes := beside(t, first("none", "no 7 full", "term 20 leader 2 30", "no 9 failed"), deaf)
	_, err := ring.Campaign(background(t), "red", short(CampaignOptions{}))
	is(t, err, ErrFull)
	same(t, len(nodes[0].lines("stand")), 1)
}

func TestBehindTheLastTermThereIsNone(t *testing.T) {
	ring, nodes := beside(t, newVotes().lead(999_999_999, 2, 5).answer, deaf)
	for _, gone := range []int{999_999_999, math.MaxInt} {
		_, err := ring.Campaign(background(t), "red", CampaignOptions{Gone: gone, Node: 1})
		same(t, err, "cinoweta: red has no term above 999999999: use another name, as `cinoweta move --rename` gives it")
	}
	same(t, len(nodes[0].lines("stand")), 0)
}

func TestACampaignGoesNowhereFromATermThatIsTooFar(t *testing.T) {
	ring, nodes := beside(t, refuses("no 28 far 1000000"), refuses("no 28 far 1000000"))
	_, err := ring.Campaign(background(t), "red", CampaignOptions{Gone: 999_999_998})
	is(t, err, ErrTooFar)
	same(t, as[*RefusedError](t, err).Farthest(), 1_000_000)
	same(t, len(nodes[0].lines("stand"))+len(nodes[1].lines("stand")), 1)
	lock := lockOf(t, ring, LockOptions{})
	lock.ResignAbove(999_999_998)
	is(t, lock.Acquire(background(t)), ErrTooFar)
	same(t, len(nodes[0].lines("stand"))+len(nodes[1].lines("stand")), 2)
}

func TestTheSameTermsAreStoodForAgain(t *testing.T) {
	votes := newVotes()
	votes.deposed = true
	ring, nodes := beside(t, votes.answer, votes.answer)
	for range make([]struct{}, 2) {
		_, err := ring.Campaign(background(t), "red", short(CampaignOptions{Gone: 6, Terms: 2}))
		as[*NoLeaderError](t, err)
	}
	terms := []string{}
	for _, line := range nodes[0].lines("stand") {
		terms = append(terms, strings.Fields(line)[2])
	}
	same(t, terms, []string{"7", "8", "7", "8"})
}

func TestWhoIsNotWellIsToldWhereNobodyComesToLead(t *testing.T) {
	votes := newVotes()
	votes.deposed = true
	ring, _ := beside(t, votes.answer, votes.answer)
	failed, well := page{http.StatusServiceUnavailable, "node 2 failed\nnode 3 full\n"}, page{http.StatusOK, "well\n"}
	for _, row := range []struct {
		port   int
		faults string
	}{
		{status(t, pages{"/health": failed}), ": node 2 failed, node 3 full"},
		{status(t, pages{"/health": well}), ""},
		{1, ""},
		{0, ""},
	} {
		ring.Status = row.port
		_, err := ring.Campaign(background(t), "red", short(CampaignOptions{}))
		same(t, as[*NoLeaderError](t, err), "cinoweta: red: no leader in 3 terms above 0"+row.faults)
	}
}

func TestAStatusPortThatHangsHoldsNobodyUp(t *testing.T) {
	trial.Tried(t, testAStatusPortThatHangsHoldsNobodyUp)
}

func testAStatusPortThatHangsHoldsNobodyUp(t *testing.T) {
	votes := newVotes()
	votes.deposed = true
	ring, _ := beside(t, votes.answer, votes.answer)
	listener, err := net.Listen("tcp", address(ownHost, 0))
	must(t, err)
	defer listener.Close()
	ring.Status = listener.Addr().(*net.TCPAddr).Port
	before := time.Now()
	_, err = ring.Campaign(background(t), "red", short(CampaignOptions{Terms: 1}))
	same(t, as[*NoLeaderError](t, err).Faults, []string{})
	trial.Took(t, time.Since(before), 0, 2*time.Second)
}

func TestWhoMayNotStandFollows(t *testing.T) {
	for _, told := range []string{"no 3 already 30", "no 4 late", "no 5 stale 9", "no 23 retired 8"} {
		ring, nodes := beside(t, first("none", told, "none", "term 9 leader 2 30"), deaf)
		elects(t, ring, CampaignOptions{}, Election{Led{9, Leader{2, 30}}, false})
		same(t, len(nodes[0].lines("stand")), 1)
	}
}

func TestWhoLeadsRetiresTheTermsFarBelow(t *testing.T) {
	all := []*votes{newVotes().lead(14, 1, 30), newVotes().lead(14, 1, 30), newVotes().lead(14, 1, 30)}
	ring, nodes := beside(t, all[0].answer, all[1].answer, all[2].answer)
	floors := func() []int { return []int{all[0].floor, all[1].floor, all[2].floor} }
	// The others have not heard yet who leads in term 15, but know enough.
	election, err := ring.Campaign(background(t), "red", short(CampaignOptions{Gone: 14}))
	must(t, err)
	same(t, election.IsMine, true)
	for _, node := range nodes {
		same(t, node.lines("retire"), []string{"retire red 13"})
	}
	same(t, floors(), []int{13, 13, 13})
	_, err = ring.Campaign(background(t), "red", short(CampaignOptions{Gone: 15, Keep: 1}))
	must(t, err)
	same(t, floors(), []int{15, 13, 13})
	_, err = ring.Campaign(background(t), "red", short(CampaignOptions{Gone: 16, Keep: KeepNone}))
	must(t, err)
	same(t, floors(), []int{17, 13, 13})
}

// A process may end before the last ones are asked.
func TestEachNodeIsNowAndThenTheFirstThatRetires(t *testing.T) {
	votes, asked := newVotes(), make(chan int, 3)
	at := func(node int) answer {
		return func(line string) (string, bool) {
			if strings.HasPrefix(line, "retire") {
				asked <- node
			}
			return votes.answerAt(node, line), true
		}
	}
	ring, _ := beside(t, at(1), at(2), at(3))
	first := map[int]bool{}
	for gone := 20; gone < 60; gone++ {
		_, err := ring.Campaign(background(t), "red", CampaignOptions{Gone: gone})
		must(t, err)
		first[<-asked] = true
		<-asked
		<-asked
	}
	same(t, len(first), 3)
}

func TestWhoLeadsHoldsNoDoorWhileNodesRetire(t *testing.T) {
	votes, held := newVotes(), make(chan bool, 2)
	var ring *Ring
	answer := func(line string) (string, bool) {
		if strings.HasPrefix(line, "retire") {
			held <- ring.session != nil
		}
		return votes.answer(line)
	}
	ring, _ = beside(t, answer, answer)
	_, err := ring.Campaign(background(t), "red", short(CampaignOptions{Gone: 20}))
	must(t, err)
	same(t, []bool{<-held, <-held}, []bool{false, false})
}

func TestWhoDoesNotLeadOrKeepsAllTermsRetiresNone(t *testing.T) {
	votes := newVotes()
	ring, nodes := beside(t, votes.answer, votes.answer)
	for _, how := range []CampaignOptions{{Gone: 2}, {Gone: 900, Keep: 900}, {Gone: 20}} {
		_, err := ring.Campaign(background(t), "red", short(how))
		must(t, err)
	}
	same(t, len(nodes[0].lines("retire"))+len(nodes[1].lines("retire")), 0)
	for _, how := range []CampaignOptions{{Keep: -2}, {Gone: -1}, {Terms: -1}, {Wait: -1}, {Node: 3}, {Node: -1},
		{Rank: 1_000}, {Rank: -1}} {
		if _, err := ring.Campaign(background(t), "red", how); err == nil {
			t.Fatalf("%+v is taken", how)
		}
	}
}

func TestWhoLeadsDoesSoWhereNodesDoNotRetire(t *testing.T) {
	votes, told := newVotes(), first("no 25 line", "no 9 failed", "none", "")
	answer := func(line string) (string, bool) {
		if strings.HasPrefix(line, "retire") {
			return told(line)
		}
		return votes.answer(line)
	}
	ring, nodes := beside(t, answer, answer, answer, answer)
	election, err := ring.Campaign(background(t), "red", short(CampaignOptions{Gone: 20}))
	must(t, err)
	same(t, election.IsMine, true)
	for _, node := range nodes[:3] {
		same(t, node.lines("retire"), []string{"retire red 19"})
	}
	same(t, len(nodes[3].lines("retire")) > 0, true)
	same(t, ring.session == nil, true)
}

func TestAStandWithoutAnAnswerMayLead(t *testing.T) {
	votes := newVotes()
	ring, _ := beside(t, func(line string) (string, bool) {
		told, _ := votes.answer(line)
		return told, !strings.HasPrefix(line, "stand")
	}, votes.answer)
	ring.Timeout = 500 * time.Millisecond
	campaign, err := newCampaign(ring, "red", 10, short(CampaignOptions{}))
	must(t, err)
	_, err = campaign.run(background(t))
	as[*NoAnswerError](t, err)
	election, err := campaign.run(background(t))
	must(t, err)
	same(t, election, Election{Led{1, Leader{1, 10}}, true})
}

// silentFirst is a campaign of a ring of two nodes, which stands at node 1 first, where nobody answers.
func silentFirst(t *testing.T, timeout time.Duration, second answer) (*campaign, []*node) {
	t.Helper()
	ring, nodes := beside(t, deaf, second)
	nodes[0].is(never(t))
	ring.Timeout, ring.place = timeout, 2
	campaign, err := newCampaign(ring, "red", 10, CampaignOptions{})
	must(t, err)
	campaign.places = []int{1, 2}
	return campaign, nodes
}

func TestACampaignGoesToAnotherNodeWhereOneIsSilent(t *testing.T) {
	campaign, nodes := silentFirst(t, 300*time.Millisecond, newVotes().at(2))
	election, err := campaign.run(background(t))
	must(t, err)
	same(t, election, Election{Led{1, Leader{2, 10}}, true})
	for _, node := range nodes {
		same(t, node.lines("stand"), []string{"stand red 1 10"})
	}
	// Where the silent one has the Stand, it leads there all the same.
	campaign, _ = silentFirst(t, 300*time.Millisecond, first("none", "no 4 late", "term 1 leader 1 10"))
	election, err = campaign.run(background(t))
	must(t, err)
	same(t, election, Election{Led{1, Leader{1, 10}}, true})
}

func TestACampaignEndsBehindTheLastNodeThatIsSilent(t *testing.T) {
	campaign, nodes := silentFirst(t, 300*time.Millisecond, deaf)
	silent := never(t)
	nodes[1].is(func(line string) (string, bool) {
		if strings.HasPrefix(line, "stand") {
			return silent(line)
		}
		return "none", true
	})
	_, err := campaign.run(background(t))
	same(t, as[*NoAnswerError](t, err).Address, campaign.ring.address(2))
	same(t, len(campaign.stood), 2)
	// Once its context is over it stands nowhere else.
	campaign.ring.Timeout, campaign.stood = time.Minute, map[Led]bool{}
	ctx, cancel := context.WithTimeout(background(t), 200*time.Millisecond)
	defer cancel()
	_, err = campaign.run(ctx)
	is(t, err, context.DeadlineExceeded)
	same(t, campaign.stood, map[Led]bool{{1, Leader{1, 10}}: true})
}

func TestPortsThatDoNotBeginWithNode1AreSeen(t *testing.T) {
	votes := newVotes()
	second := func(line string) (string, bool) {
		told, _ := votes.answer(line)
		return strings.Replace(told, "leader 1", "leader 2", 1), true
	}
	third := func(line string) (string, bool) {
		if strings.HasPrefix(line, "stand") {
			return "no 4 late", true
		}
		return second(line)
	}
	ring, _ := beside(t, second, third)
	_, err := ring.Campaign(background(t), "red", short(CampaignOptions{}))
	same(t, as[*WrongRingError](t, err).Text, "who stood at node 1 leads at node 2: give all ports")
}

// sameBid gives a ring at whose node 1 a campaign stands in term 1 with the bid 10, and at whose node 2, which is asked
// about that so, another one that leads.
func sameBid(t *testing.T, leader string, asked answer) (*campaign, []*node) {
	t.Helper()
	ring, nodes := beside(t, first("none", "stood", leader, leader), asked)
	ring.Timeout = 500 * time.Millisecond
	campaign, err := newCampaign(ring, "red", 10, short(CampaignOptions{}))
	must(t, err)
	return campaign, nodes
}

func TestAnotherOneWithTheSameBidLeads(t *testing.T) {
	const leader = "term 1 leader 2 10"
	// Also where the answer is lost at first, or that node retired the term since.
	for _, asked := range []answer{always("no 3 already 10"), first("", "no 3 already 10", "no 3 already 10"), always("no 23 retired 5")} {
		campaign, nodes := sameBid(t, leader, asked)
		election, err := campaign.run(background(t))
		must(t, err)
		same(t, election, Election{Led{1, Leader{2, 10}}, false})
		same(t, nodes[1].lines("")[0], "stand red 1 10")
		same(t, campaign.ring.unanswered.has(stood{2, "stand red 1 10"}), false)
		election, err = campaign.run(background(t))
		must(t, err)
		same(t, election.IsMine, false)
	}
	for told, cause := range map[string]error{"no 9 failed": ErrNodeFailed, "no 7 full": ErrFull, "no 8 memory": ErrOutOfMemory} {
		campaign, _ := sameBid(t, leader, always(told))
		_, err := campaign.run(background(t))
		is(t, err, cause)
	}
	campaign, _ := sameBid(t, leader, deaf)
	_, err := campaign.run(background(t))
	same(t, as[*NoAnswerError](t, err).Address, campaign.ring.address(2))
}

func TestPortsOfOtherNodesAreNotThoseOfAnotherOneWithTheSameBid(t *testing.T) {
	for _, told := range []string{"no 4 late", "no 3 already 11", "no 5 stale 9", "stood", "none"} {
		campaign, _ := sameBid(t, "term 1 leader 2 10", always(told))
		_, err := campaign.run(background(t))
		as[*WrongRingError](t, err)
	}
	campaign, nodes := sameBid(t, "term 1 leader 3 10", deaf)
	_, err := campaign.run(background(t))
	same(t, as[*WrongRingError](t, err).Text, "who stood at node 1 leads at node 3: give all ports")
	same(t, len(nodes[1].lines("")), 0)
}

func TestACampaignSeesThatItLeadsWhereANodeLags(t *testing.T) {
	votes := newVotes()
	ring, nodes := beside(t, always("none"), votes.at(2), always("none"))
	election, err := ring.Campaign(background(t), "red", CampaignOptions{Node: 2, Wait: time.Second})
	must(t, err)
	same(t, election, Election{Led{1, Leader{2, votes.bid(1)}}, true})
	same(t, len(nodes[1].lines("stand")), 1)
}

func TestAWatchTellsOfALeaderWhereANodeLags(t *testing.T) {
	ring, _ := beside(t, always("none"), always("term 1 leader 1 4"), always("term 2 leader 1 5"))
	ctx, cancel := context.WithTimeout(background(t), 5*time.Second)
	defer cancel()
	led, err := ring.Watch("red", 1).Next(ctx)
	must(t, err)
	same(t, led, Led{2, Leader{1, 5}})
}

func TestACampaignEndsWithItsContext(t *testing.T) {
	trial.Tried(t, testACampaignEndsWithItsContext)
}

func testACampaignEndsWithItsContext(t *testing.T) {
	votes := newVotes()
	votes.deposed = true
	ring, _ := beside(t, votes.answer, votes.answer)
	ctx, cancel := context.WithCancel(background(t))
	time.AfterFunc(300*time.Millisecond, cancel)
	before := time.Now()
	_, err := ring.Campaign(ctx, "red", CampaignOptions{})
	is(t, err, context.Canceled)
	trial.Took(t, time.Since(before), 0, 3*time.Second)
	same(t, ring.session == nil, true)
}

func TestWatch(t *testing.T) {
	told := first("none", "term 2 leader 1 5", "term 2 leader 1 5", "term 1 leader 1 4", "term 4 leader 3 9")
	ring, _ := beside(t, told, deaf)
	watch := ring.Watch("red", 1)
	for _, wanted := range []Led{{2, Leader{1, 5}}, {4, Leader{3, 9}}} {
		led, err := watch.Next(background(t))
		must(t, err)
		same(t, led, wanted)
	}
}

func TestAWatchWaitsForARingThatIsAway(t *testing.T) {
	ring, nodes := beside(t, deaf, deaf)
	ring.Timeout = 100 * time.Millisecond
	for _, answer := range []answer{deaf, always("no 8 memory")} {
		nodes[0].is(answer)
		nodes[1].is(answer)
		time.AfterFunc(500*time.Millisecond, func() {
			nodes[0].is(always("term 2 leader 1 5"))
			nodes[1].is(always("term 2 leader 1 5"))
		})
		led, err := ring.Watch("red", 1).Next(background(t))
		must(t, err)
		same(t, led, Led{2, Leader{1, 5}})
	}
	// No time mends a question that is none.
	_, err := ring.Watch("red\nred", 1).Next(background(t))
	same(t, err, "cinoweta: a question is one line")
}

func TestAWatchByTheStatusPort(t *testing.T) {
	ring, _ := beside(t, first("term 4 leader 3 9"), deaf)
	ring.Status = status(t, pages{
		"/leaders/red?above=1&wait=30": {http.StatusOK, `{"by":1,"leader":{"bid":5,"group":"red","node":1,"term":2},"present":true}`},
		"/leaders/red?above=2&wait=30": {http.StatusServiceUnavailable, "503 Service Unavailable\n"},
		"/leaders/red?above=4&wait=30": {http.StatusOK, `{"by":1,"leader":{"bid":8,"group":"red","node":2,"term":6},"present":false}`},
	})
	watch := ring.Watch("red", 1)
	for _, wanted := range []Led{{2, Leader{1, 5}}, {4, Leader{3, 9}}, {6, Leader{2, 8}}} {
		led, err := watch.Next(background(t))
		must(t, err)
		same(t, led, wanted)
	}
	_, isLed, err := coming(background(t), "", status(t, pages{"/leaders/red?above=6&wait=0": {http.StatusNoContent, ""}}), "red", 6, 0)
	must(t, err)
	same(t, isLed, false)
}

func TestWhoWaitsGivesTheDoorBack(t *testing.T) {
	ring, nodes := beside(t, always("none"), deaf)
	ctx, cancel := context.WithTimeout(background(t), time.Second)
	defer cancel()
	_, err := ring.Watch("red", 0).Next(ctx)
	is(t, err, context.DeadlineExceeded)
	nodes[0].mutex.Lock()
	defer nodes[0].mutex.Unlock()
	same(t, len(nodes[0].conns) > 1, true)
}

func TestAWatchEndsWithItsContext(t *testing.T) {
	trial.Tried(t, testAWatchEndsWithItsContext)
}

func testAWatchEndsWithItsContext(t *testing.T) {
	ring, nodes := beside(t, deaf, deaf)
	watch := ring.Watch("red", 0)
	for _, answer := range []answer{always("none"), deaf, never(t)} {
		nodes[0].is(answer)
		nodes[1].is(answer)
		for _, length := range []time.Duration{0, 10 * time.Millisecond, 300 * time.Millisecond} {
			ctx, cancel := context.WithTimeout(background(t), length)
			before := time.Now()
			_, err := watch.Next(ctx)
			cancel()
			same(t, err, context.DeadlineExceeded)
			trial.Took(t, time.Since(before), 0, 2*time.Second)
			same(t, ring.session == nil, true)
		}
	}
}
