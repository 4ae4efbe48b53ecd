package cinoweta_test

import (
	"cinoweta"
	"context"
	"errors"
	"log"
	"os/exec"
	"strconv"
)

// A job runs while this process holds the lock, and is killed once that is lost.
func ExampleLock_Run() {
	ring, err := cinoweta.NewRing(7101, 7103)
	if err != nil {
		log.Fatal(err)
	}
	lock := cinoweta.NewLock(ring, "nightly", cinoweta.LockOptions{Text: "the nightly job"})
	err = lock.Run(context.Background(), func(ctx context.Context, term int) error {
		return exec.CommandContext(ctx, "./nightly.sh", strconv.Itoa(term)).Run()
	})
	var lost *cinoweta.LockLostError
	if errors.As(err, &lost) {
		log.Printf("term %d is over", lost.Term)
	}
}

// Who is turned away follows, and campaigns once the leader is gone.
func ExampleRing_Campaign() {
	ring, err := cinoweta.RingFromEnv()
	if err != nil {
		log.Fatal(err)
	}
	election, err := ring.Campaign(context.Background(), "jobs", cinoweta.CampaignOptions{})
	switch {
	case errors.Is(err, cinoweta.ErrFull), errors.Is(err, cinoweta.ErrNodeFailed):
		log.Fatal(err)
	case err == nil && election.IsMine:
		log.Printf("leads in term %d", election.Term)
	}
}
