package cinoweta

import "context"

// A Watch tells each new leader of a group. Goroutines may not share it.
type Watch struct {
	ring  *Ring
	group string
	after int
}

// Watch gives a watch over the leaders of the group in terms above after.
func (r *Ring) Watch(group string, after int) *Watch {
	return &Watch{r, group, after}
}

// waitSeconds is how long the status port waits for a leader at once.
const waitSeconds = 30

// Next waits for a leader in a greater term than the one before. Where the ring's Status is told, that port tells of it
// at once; else it looks again and again, at most a second apart. Of several terms it tells the last. A ring that is away
// is waited for too. Once the context is over it gives the error of that.
func (w *Watch) Next(ctx context.Context) (Led, error) {
	var pause pause
	for {
		known, isKnown, wasWaited, err := w.look(ctx)
		if isKnown && known.Term > w.after {
			w.after = known.Term
			return known, nil
		}
		goesOn := false
		if err == nil {
			goesOn = wasWaited || pause.takeAndPass(ctx, w.ring)
		} else {
			goesOn = isPassing(err) && pause.take(ctx, w.ring)
		}
		if goesOn {
			continue
		}
		w.ring.release(ctx)
		if over := ended(ctx); over != nil {
			return Led{}, over
		}
		return Led{}, err
	}
}

// look gives the latest leader, if there is one, and whether the status port waited for one in a greater term.
func (w *Watch) look(ctx context.Context) (known Led, isKnown, wasWaited bool, err error) {
	if w.ring.Status != 0 {
		// A session that is kept open while it waits holds a door.
		w.ring.release(ctx)
		known, isKnown, err = coming(ctx, w.ring.Host, w.ring.Status, w.group, w.after, waitSeconds)
		if err == nil || ended(ctx) != nil {
			return known, isKnown, true, err
		}
	}
	known, isKnown, err = w.ring.Latest(ctx, w.group, AnyNode)
	return known, isKnown, false, err
}
