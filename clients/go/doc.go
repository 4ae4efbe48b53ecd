// Package cinoweta is a client of Cinoweta, a durable leader election service.
//
//	ring, err := cinoweta.NewRing(7101, 7103)
//	...
//	lock := cinoweta.NewLock(ring, "jobs", cinoweta.LockOptions{})
//	err = lock.Run(ctx, func(ctx context.Context, term int) error {
//		... // send term with each write, as a fencing number, until the context ends
//	})
//
// Whoever is written to has to turn away each write with a lower number than one that it has seen: nothing else keeps a
// leader that was paused from a late write. docs/CLIENTS.md tells of it, and of [Ring.Campaign], by which nobody sees
// whether a leader is still there.
//
// Who holds a lock is seen at a port of 127.0.0.1. With a [Ring] of another host, and where AcrossHosts of the
// [LockOptions] says so, clients may be on several hosts: a holder keeps a session open with the node where it leads,
// and is seen by `ringd --status`.
//
// The refusals of nodes are told apart by errors.Is and a [Refusal], as [ErrStale]; all else by errors.As and a type,
// as [NoAnswerError]. What ends with its context gives an error behind which errors.Is finds that of the context.
package cinoweta
