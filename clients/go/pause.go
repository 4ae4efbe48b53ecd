package cinoweta

import (
	"context"
	"time"
)

const (
	shortestPause, longestPause = 20 * time.Millisecond, time.Second
	// The first pause of who stood: most are elected within milliseconds.
	stoodPause = 2 * time.Millisecond
	// From this pause on the ring's session is ended first: it holds one of the node's doors, of which there may be one.
	heldPause = 100 * time.Millisecond
)

// A pause is one between two looks, twice as long as the one before. The first one is told, or the shortest one.
type pause struct {
	next time.Duration
}

// take pauses once, or until the context is over. False, without a pause, once it is.
func (p *pause) take(ctx context.Context, ring *Ring) bool {
	if ctx.Err() != nil {
		return false
	}
	p.next = atMost(longestPause, p.next)
	if p.next == 0 {
		p.next = shortestPause
	}
	if p.next >= heldPause {
		ring.release(ctx)
	}
	sleep(ctx, p.next)
	p.next *= 2
	return true
}

// takeAndPass does the same behind an answer by which nothing is known yet. Where the session is ended another node is
// asked next, which may know more.
func (p *pause) takeAndPass(ctx context.Context, ring *Ring) bool {
	if p.next >= heldPause && ctx.Err() == nil {
		ring.pass(ctx)
	}
	return p.take(ctx, ring)
}

// sleep waits so long, or until the context is over.
func sleep(ctx context.Context, length time.Duration) {
	timer := time.NewTimer(length)
	defer timer.Stop()
	select {
	case <-timer.C:
	case <-ctx.Done():
	}
}

// ended gives the error of a context that is over, nil else. Its timer may be a moment late, where a connection that
// has its deadline is not.
func ended(ctx context.Context) error {
	if deadline, hasOne := ctx.Deadline(); hasOne && !time.Now().Before(deadline) {
		<-ctx.Done()
	}
	return ctx.Err()
}

// atMost is the shorter one.
func atMost(limit, length time.Duration) time.Duration {
	if length > limit {
		return limit
	}
	return length
}
