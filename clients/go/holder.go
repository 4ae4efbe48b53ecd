package cinoweta

import (
	"context"
	"strconv"
	"strings"
	"time"
)

// Holder tells who holds the lock of the group and is seen within the patience, DefaultPatience where that is 0; false
// where nobody is. [Lock.Holder] may look across hosts with any ring.
func (r *Ring) Holder(ctx context.Context, group string, patience time.Duration) (Holder, bool, error) {
	return NewLock(r, group, LockOptions{Patience: patience}).Holder(ctx)
}

// Holder tells who holds the lock and is seen within its patience; false where nobody is. The lock need not be held.
func (l *Lock) Holder(ctx context.Context) (Holder, bool, error) {
	if err := l.requireSight(); err != nil {
		return Holder{}, false, err
	}
	known, isKnown, err := l.ring.Latest(ctx, l.group, AnyNode)
	if !isKnown {
		return Holder{}, false, err
	}
	if !l.isAcross() && !l.isOtherKind(known) {
		holder, isTold := holderOf(ctx, known, l.how.Patience)
		if !isTold {
			err = ended(ctx)
		}
		return holder, isTold, err
	}
	l.ring.release(ctx)
	isThere, err := l.isThere(ctx, known)
	if !isThere {
		return Holder{}, false, err
	}
	return l.seen(ctx, known), true, nil
}

// holderOf gives who leads so, where it holds a lock and answers within so long.
func holderOf(ctx context.Context, known Led, limit time.Duration) (Holder, bool) {
	own := strconv.Itoa(known.Leader.Bid)
	answer, _ := askBeacon(ctx, known.Leader.Bid, "holder "+own, limit)
	words := strings.SplitN(strings.ToValidUTF8(answer, "\uFFFD"), " ", 3)
	if len(words) < 3 || words[0] != own {
		return Holder{}, false
	}
	process, err := strconv.ParseUint(words[1], 10, 31)
	if err != nil {
		return Holder{}, false
	}
	return Holder{known, int(process), words[2]}, true
}
