package cinoweta

import (
	"context"
	"fmt"
	"os"
	"time"
)

const (
	// So often is asked over the session of a keeper, so that it is not silent.
	presenceEvery = 500 * time.Millisecond
	// So long a connection is waited for: with the pause behind it a host that is away is tried once a second.
	presenceDial = 1500 * time.Millisecond
	// So many Stands are asked for at once, so that who has a thousand is present again within moments.
	standsAtOnce = 50
	// Who is not present for so long is gone: a session that broke off is opened anew before, also behind a start of
	// ringd. So often is looked meanwhile.
	absentLimit, absentLooks = 2 * time.Second, 100 * time.Millisecond
	// A presence's bid is its rank * bidRank + bidSpread + a step * presenceStep + a random number below that: at a port
	// below 1,024, where no beacon listens.
	presenceStep = 97_500
)

// givesUpAfter are so many seconds without an answer, after which a holder gives up; 0 for never. The step of its bid is
// the place of the least that is no less.
var givesUpAfter = [...]int{0, 1, 2, 3, 5, 8, 10, 15, 20, 30, 45, 60, 90, 120, 300, 600}

// stepOf is the step of who gives up after so long.
func stepOf(giveUp time.Duration) (int, error) {
	for step, seconds := range givesUpAfter {
		if giveUp <= time.Duration(seconds)*time.Second {
			return step, nil
		}
	}
	return 0, fmt.Errorf("cinoweta: across hosts a lock is given up after %d seconds at most", givesUpAfter[len(givesUpAfter)-1])
}

// giveUpOf is after how long without an answer who stood with this bid gives up; 0 for never.
func giveUpOf(bid int) time.Duration {
	if kindOf(bid) != isAcrossHosts {
		return 0
	}
	return time.Duration(givesUpAfter[(bid%bidRank-bidSpread)/presenceStep]) * time.Second
}

// A presence has one lock be present from show to close, in the session that this process has with the node where it
// leads. So others see by `ringd --status` whether who leads is still there, from other hosts too.
type presence struct {
	ring  *Ring
	group string
	own   int
	text  string
	every time.Duration

	// What is shown last.
	stand *stand
}

func newPresence(ring *Ring, group string, rank int, text string, giveUp time.Duration) (*presence, error) {
	if err := requireText(text); err != nil {
		return nil, err
	}
	step, err := stepOf(giveUp)
	if err != nil {
		return nil, err
	}
	number, err := randomBelow(presenceStep)
	if err != nil {
		return nil, err
	}
	bid := rank*bidRank + bidSpread + step*presenceStep + number
	return &presence{ring: ring, group: group, own: bid, text: text, every: presenceEvery}, nil
}

// bid is that with which it stands.
func (p *presence) bid() int {
	return p.own
}

// show has it be told in the session.
func (p *presence) show(ctx context.Context, led Led) error {
	// The ring's session may hold the node's only door.
	p.ring.release(ctx)
	address, limit := p.ring.address(led.Leader.Node), p.ring.timeout()
	waits, cancel := context.WithTimeout(ctx, atMost(presenceDial, limit)+atMost(patience, limit))
	defer cancel()
	p.stand = newStand(p.group, led.Term, p.own, p.text)
	keepers.add(p.stand, address, p.every)
	err := error(nil)
	select {
	case <-p.stand.answered:
		err = p.stand.err
	case <-waits.Done():
		err = noAnswer(ctx, address, os.ErrDeadlineExceeded)
	}
	if err != nil {
		keepers.remove(p.stand)
	}
	return err
}

// close has it be told no more, and waits a moment until others may see that.
func (p *presence) close() int {
	if p.stand == nil || !keepers.remove(p.stand) {
		return 0
	}
	timer := time.NewTimer(farewellLimit)
	defer timer.Stop()
	select {
	case <-p.stand.ended:
	case <-timer.C:
	}
	return 0
}

// isPresent tells whether who leads so is present within this time, or absentLimit where that is less, and as long again
// as it takes to give up, from the first answer on: an answer may be late, as behind a start of ringd. Who resigned is
// not present. A [NoAnswerError] where the status port does not
// answer, a [WrongRingError] where it does not come to know this leader.
func isPresent(ctx context.Context, ring *Ring, group string, known Led, limit time.Duration) (bool, error) {
	var until time.Time
	for {
		told, sight, err := leaderOf(ctx, ring.Host, ring.Status, group, known.Leader.Node)
		if err != nil || told.Term > known.Term || told == known && sight.isSure() {
			return err == nil && told == known && sight.isPresent, err
		}
		if until.IsZero() {
			until = time.Now().Add(atMost(absentLimit, limit) + giveUpOf(known.Leader.Bid))
		}
		left := time.Until(until)
		if left <= 0 && told != known {
			const text = "%s tells of another leader of %s in term %d, or none: is it this ring's?"
			return false, &WrongRingError{fmt.Sprintf(text, address(ring.Host, ring.Status), group, known.Term)}
		}
		if left <= 0 {
			return false, nil
		}
		sleep(ctx, atMost(absentLooks, left))
	}
}
