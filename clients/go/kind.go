package cinoweta

import (
	"context"
	"fmt"
)

// A kind is how who stood with a bid is seen.
type kind int

const (
	// nobody is seen at port 0, as where an operator stood.
	nobody kind = iota
	isAcrossHosts
	isOnOneHost
)

func kindOf(bid int) kind {
	switch number := bid % bidRank; {
	case number < bidSpread:
		return nobody
	case number < bidSpread+presenceStep*len(givesUpAfter):
		return isAcrossHosts
	default:
		return isOnOneHost
	}
}

// isThere tells whether who leads so is seen in time, or could not be asked. Where nobody is until the context is over, its error.
func (l *Lock) isThere(ctx context.Context, known Led) (isSeen bool, err error) {
	switch {
	case kindOf(known.Leader.Bid) == nobody:
		return false, ended(ctx)
	case l.isOtherKind(known):
		isSeen, err = l.isOtherThere(ctx, known)
	case l.isAcross():
		isSeen, err = isPresent(ctx, l.ring, l.group, known, l.how.Patience)
	default:
		isSeen = isThere(ctx, known.Leader.Bid, l.how.Patience)
	}
	if over := ended(ctx); over != nil && !isSeen {
		err = over
	}
	return isSeen, err
}

// isOtherKind tells whether who leads so is seen across hosts where holders of this lock are not, or the other way round.
func (l *Lock) isOtherKind(known Led) bool {
	kind := kindOf(known.Leader.Bid)
	return kind == isOnOneHost && l.isAcross() || kind == isAcrossHosts && !l.isAcross()
}

// isOtherThere gives a [WrongRingError] where a leader of the other kind is there, or nothing here tells whether it is. Who
// is present, has the bid of a beacon and does not answer there is one of an earlier release, across hosts too. Who could not
// be asked may be there.
func (l *Lock) isOtherThere(ctx context.Context, known Led) (bool, error) {
	isSeen, isRefused := false, l.ring.Status == 0
	if l.ring.Status != 0 {
		var err error
		if isSeen, err = isPresent(ctx, l.ring, l.group, known, l.how.Patience); err != nil {
			return false, err
		}
	}
	switch {
	case l.isAcross() && isOwn(l.ring.Host):
		answers, isAsked := seesBeacon(ctx, known.Leader.Bid, l.how.Patience)
		isRefused, isSeen = answers, isSeen || !isAsked
	case l.isAcross():
		isRefused = !isSeen
	default:
		isRefused = isRefused || isSeen
	}
	if isRefused && ended(ctx) == nil {
		return false, l.refuseKind(known)
	}
	return l.isAcross() && isSeen && !isRefused, nil
}

// refuseKind says that who leads so is of the other kind.
func (l *Lock) refuseKind(known Led) error {
	how, own := "across hosts, and this client is not told to", "on one host, and this client is told to hold it across hosts"
	if l.isAcross() {
		how = own
	}
	const text = "%s: held %s, by %v: tell all of its clients the same. Where nobody holds it any more, cinoweta raise has it anew"
	return &WrongRingError{fmt.Sprintf(text, l.group, how, Holder{Led: known})}
}
