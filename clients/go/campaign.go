package cinoweta

import (
	"context"
	"errors"
	"fmt"
	"time"
)

const (
	// DefaultTerms is for how many terms a campaign stands at most.
	DefaultTerms = 3
	// DefaultWait is how long it waits in each.
	DefaultWait = 5 * time.Second
	// DefaultKeep is how many terms below its own who leads keeps.
	DefaultKeep = 2
	// KeepNone, in place of such a number, has who leads keep no term below its own.
	KeepNone = -1

	// The greatest term.
	lastTerm = 999_999_999
	// So long who leads waits for a node that is to retire the others.
	retireLimit = time.Second
	// So long a try for a lock has at least. So long is waited for what the status port tells of nodes that are not well.
	tryLimit, faultsLimit = 2 * time.Second, time.Second
)

// CampaignOptions are how to campaign. The zero value stands at any node, where no leader is known.
type CampaignOptions struct {
	// Gone is the term of the leader that is taken for gone, 0 for none. A later one is never put aside.
	Gone int
	// Rank, 0 to 999, is the upper digits of the bid: of who stands at once the greatest leads.
	Rank int
	// Node is where it stands, or AnyNode.
	Node int
	// Terms is for how many terms it stands at most; DefaultTerms where it is 0.
	Terms int
	// Wait is how long it waits in each; DefaultWait where it is 0.
	Wait time.Duration
	// Keep is how many terms below its own are kept; DefaultKeep where it is 0, and none where it is KeepNone.
	Keep int
}

// Campaign gives the leader of the first term above the one that is gone which comes to have one. Who calls stands for
// it where he may, with a bid of this call alone. Where no leader comes to be known in time, a [NoLeaderError]; a
// [RefusedError] where no Stand is taken any more: a node without room for it was told to retire what the group has
// there. Who leads has all nodes that do retire the terms that are not kept.
func (r *Ring) Campaign(ctx context.Context, group string, how CampaignOptions) (Election, error) {
	bid, err := randomBid(how.Rank)
	if err != nil {
		return Election{}, err
	}
	campaign, err := newCampaign(r, group, bid, how)
	if err != nil {
		return Election{}, err
	}
	defer r.release(ctx)
	election, err := campaign.run(ctx)
	if err == nil && election.IsMine {
		campaign.retire(ctx, election.Term)
	}
	return election, err
}

// A campaign stands for one term after the other, each with one bid, until one above the one that is gone has a leader.
type campaign struct {
	ring  *Ring
	group string
	bid   int
	how   CampaignOptions
	// It stands for no term up to this number. Who leads in one is not gone for that.
	above int
	// The nodes at which it may stand, the first of them first.
	places []int
	stood  map[Led]bool
	// For how many terms it stood, and when was asked what was answered last.
	tried int
	asked time.Time
}

func newCampaign(ring *Ring, group string, bid int, how CampaignOptions) (*campaign, error) {
	if err := ring.require(how.Node); err != nil {
		return nil, err
	}
	if how.Gone < 0 || how.Terms < 0 || how.Wait < 0 || how.Keep < KeepNone {
		return nil, errors.New("cinoweta: no number of a campaign is negative")
	}
	places, err := placesOf(ring, how.Node)
	made := &campaign{ring: ring, group: group, bid: bid, how: how.whole(), places: places, stood: map[Led]bool{}}
	return made, err
}

// whole has the defaults in place of each 0, and 0 in place of KeepNone.
func (o CampaignOptions) whole() CampaignOptions {
	if o.Terms == 0 {
		o.Terms = DefaultTerms
	}
	if o.Wait == 0 {
		o.Wait = DefaultWait
	}
	switch o.Keep {
	case 0:
		o.Keep = DefaultKeep
	case KeepNone:
		o.Keep = 0
	}
	return o
}

// greater is the greater one of two terms.
func greater(one, other int) int {
	if one > other {
		return one
	}
	return other
}

// placesOf gives this node, or all of them from a random one on.
func placesOf(ring *Ring, node int) ([]int, error) {
	if node != AnyNode {
		return []int{node}, nil
	}
	first, err := randomBelow(int64(ring.nodes))
	places := make([]int, ring.nodes)
	for step := range places {
		places[step] = (first+step)%ring.nodes + 1
	}
	return places, err
}

// run gives the leader of the first term above the one that is gone which comes to have one. Nothing is retired yet.
func (c *campaign) run(ctx context.Context) (Election, error) {
	known, isKnown, err := c.known(ctx)
	for c.tried = 0; c.tried < c.how.Terms && !isKnown && err == nil; {
		c.tried++
		// A greater number may have no sum.
		if c.least() > lastTerm-c.tried {
			const text = "cinoweta: %s has no term above %d: use another name, as `cinoweta move --rename` gives it"
			return Election{}, fmt.Errorf(text, c.group, lastTerm)
		}
		if err = c.stand(ctx, c.least()+c.tried); err == nil {
			known, isKnown, err = c.await(ctx)
		}
	}
	if err != nil {
		return Election{}, err
	}
	if !isKnown {
		return Election{}, c.noLeader(ctx)
	}
	return c.end(ctx, known)
}

// runUntil gives the same until then, or as long as it takes where that is zero: else a [NoLeaderError], or a
// [NoAnswerError] where no node answered.
func (c *campaign) runUntil(ctx context.Context, until time.Time) (Election, error) {
	if until.IsZero() {
		return c.run(ctx)
	}
	begun := time.Now()
	limited, cancel := context.WithDeadline(ctx, until)
	defer cancel()
	election, err := c.run(limited)
	silent, isSilent := err.(*NoAnswerError)
	if !isSilent || limited.Err() == nil || ended(ctx) != nil {
		return election, err
	}
	if c.asked.Before(begun) {
		// Its caller's context is not over.
		return Election{}, silent.withoutContext()
	}
	return Election{}, c.noLeader(ctx)
}

// least is the number above which it stands.
func (c *campaign) least() int {
	return greater(c.how.Gone, c.above)
}

// noLeader says that none came to be known in the terms for which it stood.
func (c *campaign) noLeader(ctx context.Context) *NoLeaderError {
	return &NoLeaderError{c.group, c.tried, c.least(), c.faults(ctx)}
}

// end judges who leads.
func (c *campaign) end(ctx context.Context, known Led) (Election, error) {
	if c.stood[known] {
		return Election{known, true}, nil
	}
	for own := range c.stood {
		if own.Term != known.Term || own.Leader.Bid != known.Leader.Bid {
			continue
		}
		if err := c.requireOther(ctx, own, known); err != nil {
			return Election{}, err
		}
	}
	return Election{known, false}, nil
}

// requireOther gives a [WrongRingError] where no other process has, by chance, the bid with which this one stood so, and
// leads: that one's node stands with it too, which is asked the same again. The term is decided, so that this changes
// nothing. Where the node gives no answer that tells, its fault.
func (c *campaign) requireOther(ctx context.Context, own, known Led) error {
	const text = "who stood at node %d leads at node %d: give all ports"
	wrong := &WrongRingError{fmt.Sprintf(text, own.Leader.Node, known.Leader.Node)}
	if known.Leader.Node > c.ring.nodes {
		return wrong
	}
	// A session holds one of its node's doors, of which there may be one. What is asked over another Ring, and gets no
	// answer, is not remembered as a Stand of this one.
	c.ring.release(ctx)
	ring := c.ring.within(c.ring.timeout())
	defer ring.release(ctx)
	_, err := ring.askNode(ctx, fmt.Sprintf("stand %s %d %d", c.group, known.Term, known.Leader.Bid), known.Leader.Node)
	var refused *RefusedError
	isOwnBid := errors.As(err, &refused) && *refused == RefusedError{ErrAlreadyStands, fmt.Sprintf("already %d", known.Leader.Bid)}
	switch {
	case isOwnBid || errors.Is(err, ErrRetired):
		return nil
	case isPassing(err):
		return err
	default:
		return wrong
	}
}

// retire has each node retire the terms that who leads in this one does not keep, but those that refuse or are away.
// Who leads does so all the same, and they are asked again in a later term.
func (c *campaign) retire(ctx context.Context, term int) {
	floor := term - c.how.Keep
	// Below term 1 there is none.
	if floor <= 1 {
		return
	}
	// A session holds one of its node's doors, of which there may be one.
	c.ring.release(ctx)
	ring := c.ring.within(retireLimit)
	defer ring.release(ctx)
	// Of a process that ends soon the last ones may be asked nothing: no node is always one of those.
	for step := 0; step < ring.nodes; step++ {
		_, _ = ring.Retire(ctx, c.group, floor, (c.places[0]-1+step)%ring.nodes+1)
	}
}

// stand stands for the term where it may. Not where somebody else does, or leads in a greater term, who comes to be
// known then. A node that stood as often as it may, or gives no answer, is passed by, where another one may be taken.
func (c *campaign) stand(ctx context.Context, term int) error {
	var err error
	for _, place := range c.places {
		err = c.standAt(ctx, term, place)
		if err == nil || isNoAnswer(err) || hasFailed(err) || errors.Is(err, ErrFull) {
			// Without an answer it may have been accepted, by a full node at an earlier question, and nobody else has the bid.
			c.stood[Led{term, Leader{place, c.bid}}] = true
		}
		if !errors.Is(err, ErrLimitReached) && !isNoAnswer(err) || ended(ctx) != nil {
			break
		}
	}
	for _, cause := range []Refusal{ErrAlreadyStands, ErrLate, ErrStale, ErrRetired} {
		if errors.Is(err, cause) {
			return nil
		}
	}
	return err
}

// standAt stands at a node. Where that has no room for it, once more behind a Retire of what the group has there.
func (c *campaign) standAt(ctx context.Context, term, place int) error {
	err := c.ring.Stand(ctx, c.group, term, c.bid, place)
	isFull := errors.Is(err, ErrLimitReached) || errors.Is(err, ErrFull)
	if isFull && c.hasRetired(ctx, place) {
		err = c.ring.Stand(ctx, c.group, term, c.bid, place)
	}
	return err
}

// hasRetired has a node retire all terms below the latest one whose leader it knows, and tells whether they are.
func (c *campaign) hasRetired(ctx context.Context, place int) bool {
	known, _, err := c.ring.Latest(ctx, c.group, place)
	// Below term 1 there is none.
	if err != nil || known.Term <= 1 {
		return false
	}
	_, err = c.ring.Retire(ctx, c.group, known.Term, place)
	return err == nil
}

// await waits until a leader is known, or the time is over.
func (c *campaign) await(ctx context.Context) (Led, bool, error) {
	until, cancel := context.WithTimeout(ctx, c.how.Wait)
	defer cancel()
	pause := pause{stoodPause}
	for {
		known, isKnown, err := c.known(ctx)
		if isKnown || err != nil || !pause.takeAndPass(until, c.ring) {
			return known, isKnown, err
		}
	}
}

// known gives the latest leader; false where its term is not above the one that is gone.
func (c *campaign) known(ctx context.Context) (Led, bool, error) {
	asked := time.Now()
	known, isKnown, err := c.ring.Latest(ctx, c.group, AnyNode)
	if err == nil {
		c.asked = asked
	}
	return known, isKnown && known.Term > c.how.Gone, err
}

// faults tells which nodes are not well, as `node 3 full`, where the ring's status port is known and tells within a second.
func (c *campaign) faults(ctx context.Context) []string {
	if c.ring.Status == 0 {
		return nil
	}
	limited, cancel := context.WithTimeout(ctx, faultsLimit)
	defer cancel()
	faults, _ := Health(limited, c.ring.Host, c.ring.Status)
	return faults
}
