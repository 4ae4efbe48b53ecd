package cinoweta

import (
	"strings"
	"testing"
	"time"

	"cinoweta/internal/trial"
)

func TestABidTellsHowItsHolderIsSeen(t *testing.T) {
	for bid, wanted := range map[int]kind{0: nobody, 1_524: nobody, 1_525: isAcrossHosts, 1_561_524: isAcrossHosts,
		1_561_525: isOnOneHost, 1_561_600: isOnOneHost, 99_999_999: isOnOneHost, 900_001_524: nobody, 901_561_524: isAcrossHosts} {
		same(t, kindOf(bid), wanted)
	}
	// No beacon listens below port 1,024.
	same(t, portOf(1_561_600), 1_024)
	ring, err := NewRing(7101, 7103)
	must(t, err)
	for giveUp, wanted := range map[time.Duration]int{0: 0, -1: 0, 1: 1, time.Second: 1, 2_001 * time.Millisecond: 3, 4 * time.Second: 5,
		31 * time.Second: 45, 600 * time.Second: 600} {
		presence, err := newPresence(ring, "red", 9, "", giveUp)
		must(t, err)
		same(t, []any{kindOf(presence.bid()), giveUpOf(presence.bid()), presence.bid() / bidRank},
			[]any{isAcrossHosts, time.Duration(wanted) * time.Second, 9})
		beacon, err := newBeacon(9, "")
		must(t, err)
		same(t, []any{kindOf(beacon.bid()), giveUpOf(beacon.bid())}, []any{isOnOneHost, time.Duration(0)})
		beacon.close()
	}
	_, err = newPresence(ring, "red", 0, "", 601*time.Second)
	same(t, err, "cinoweta: across hosts a lock is given up after 600 seconds at most")
}

// The ends of what is said where a holder is of the other kind.
const (
	isToldAcross = ": held on one host, and this client is told to hold it across hosts, by node 1 in term 1: tell all of its"
	isToldNone   = ": held across hosts, and this client is not told to, by node 1 in term 1: tell all of its"
)

func TestALockIsNotTakenFromAHolderOfTheOtherKind(t *testing.T) {
	ring, nodes, votes, _ := across(t, otherHost)
	presence, led := presenceOf(t, ring, votes)
	must(t, presence.show(background(t), led))
	refuses := func(how LockOptions, wanted string) {
		t.Helper()
		lock := lockOf(t, ring, how)
		_, _, holder := lock.Holder(background(t))
		for _, err := range []error{lock.Acquire(background(t)), lock.TryAcquire(background(t)), holder} {
			same(t, strings.Contains(as[*WrongRingError](t, err).Text, "red"+wanted), true)
		}
	}
	refuses(LockOptions{}, isToldNone)
	// Without the status port nobody knows.
	port := ring.Status
	ring.Status = 0
	refuses(LockOptions{}, isToldNone)
	ring.Status = port
	presence.close()
	until(t, "its end", func() bool { return !nodes[0].isPresent("red", led) })
	lock := lockOf(t, ring, LockOptions{})
	must(t, lock.Acquire(background(t)))
	same(t, lock.Term(), 2)
}

func TestALockAcrossHostsIsNotTakenFromAHolderOnOneHost(t *testing.T) {
	other, _, votes, _ := across(t, "0.0.0.0")
	ring := newRing(other.first, 2)
	ring.Status = other.Status
	holder := leads(t, votes)
	how := LockOptions{AcrossHosts: true, Patience: time.Second}
	err := as[*WrongRingError](t, lockOf(t, ring, how).Acquire(background(t)))
	same(t, strings.Contains(err.Text, "red"+isToldAcross), true)
	// From another host nobody sees whether it is there.
	as[*WrongRingError](t, lockOf(t, other, how).Acquire(background(t)))
	holder.close()
	as[*WrongRingError](t, lockOf(t, other, how).Acquire(background(t)))
	lock := lockOf(t, ring, how)
	must(t, lock.Acquire(background(t)))
	same(t, lock.Term(), 2)
}

func TestAHolderOnOneHostThatCouldNotBeAskedIsNotGone(t *testing.T) {
	leavesNone(t)
	beacon, err := newBeacon(0, "")
	must(t, err)
	defer beacon.close()
	ring, err := NewRing(7101, 7103)
	must(t, err)
	known := Led{1, Leader{1, beacon.bid()}}
	lock := lockOf(t, ring, LockOptions{AcrossHosts: true, Patience: 200 * time.Millisecond})
	restore := wanting(t, 600*time.Millisecond)
	isSeen, err := lock.isOtherThere(background(t), known)
	restore()
	must(t, err)
	same(t, isSeen, true)
	// Once it may be asked it is seen that it is there.
	_, err = lock.isOtherThere(background(t), known)
	as[*WrongRingError](t, err)
}

func TestAHolderOfAnEarlierReleaseIsSeenAcrossHosts(t *testing.T) {
	ring, nodes, votes, _ := across(t, otherHost)
	presence, _ := presenceOf(t, ring, votes)
	// Any number was a bid then.
	presence.own = 50_000_000
	votes.lead(2, 1, presence.own)
	led := Led{2, Leader{1, presence.own}}
	votes.stood[2] = presence.own
	must(t, presence.show(background(t), led))
	as[*LockTakenError](t, acrossOf(t, ring, LockOptions{}).TryAcquire(background(t)))
	presence.close()
	until(t, "its end", func() bool { return !nodes[0].isPresent("red", led) })
	must(t, acrossOf(t, ring, LockOptions{Patience: 200 * time.Millisecond}).TryAcquire(background(t)))
}

func TestWhoMayGiveUpLaterIsWaitedForLonger(t *testing.T) {
	trial.Tried(t, testWhoMayGiveUpLaterIsWaitedForLonger)
}

func testWhoMayGiveUpLaterIsWaitedForLonger(t *testing.T) {
	ring, _, votes, _ := across(t, otherHost)
	gone, err := newPresence(ring, "red", 0, "", time.Second)
	must(t, err)
	votes.lead(1, 1, gone.bid())
	before := time.Now()
	must(t, acrossOf(t, ring, LockOptions{Patience: 500 * time.Millisecond}).TryAcquire(background(t)))
	took := time.Since(before)
	trial.Took(t, took, 1500*time.Millisecond, 3500*time.Millisecond)
}

func TestWhoGaveALockAcrossHostsBackLeavesItForAMoment(t *testing.T) {
	ring, _, votes, _ := across(t, otherHost)
	lock := acrossOf(t, ring, LockOptions{Patience: time.Nanosecond})
	must(t, lock.Acquire(background(t)))
	before := time.Now()
	lock.Resign()
	must(t, lock.Acquire(background(t)))
	same(t, []any{time.Since(before) >= grace, votes.led().Term}, []any{true, 2})
}
