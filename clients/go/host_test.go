package cinoweta

import (
	"context"
	"net"
	"net/http"
	"strings"
	"testing"
	"time"

	"cinoweta/internal/trial"
)

const (
	// otherHost stands for one with a ring, silentHost for one that nothing may be sent to.
	otherHost, silentHost = "127.0.0.2", "10.0.0.5"
)

// parts are of a name that may have two bytes more.
var parts = strings.Repeat(strings.Repeat("a", 63)+".", 3) + strings.Repeat("b", 59)

func TestWhatIsAHost(t *testing.T) {
	for _, host := range []string{"10.0.0.5", "0.0.0.0", "255.255.255.255", "localhost", "ring", "R", "ring-1.example", "1.a",
		"ring.example.", "4a", strings.Repeat("a", 63), parts + "cc"} {
		ring, err := ParseRing(host + ":7101-7103")
		must(t, err)
		same(t, []any{ring.Host, ring.first, ring.Nodes()}, []any{host, 7101, 3})
	}
	for _, host := range []string{"", ".", "-", "10.0.0", "10.0.0.256", "10.0.0.05", "10.0.0.5.", "10.0.0.5.6", "10", "a.5", "a..b",
		".a", "a-", "-a.b", "a_b", "a b", "ä", "1.٢.3.4", "a\n", "10.0.0.5/8", "a@b", strings.Repeat("a", 64),
		parts + "ccc"} {
		_, err := ParseRing(host + ":7101-7103")
		as[*WrongRingError](t, err)
		if host == "" {
			continue
		}
		ring, err := NewRing(7101, 7103)
		must(t, err)
		ring.Host = host
		_, _, err = ring.Latest(background(t), "red", AnyNode)
		as[*WrongRingError](t, err)
		_, err = Health(background(t), host, 7100)
		as[*WrongRingError](t, err)
	}
	_, err := ParseRing("10.0.0.256:7101-7103")
	same(t, err, `cinoweta: "10.0.0.256" is no IP address and no name of a host`)
}

func TestWhatIsAnAddressOfIPv6(t *testing.T) {
	for _, host := range []string{"::1", "::", "fd00::0:5", "2001:DB8::1", "::ffff:10.0.0.5"} {
		ring, err := ParseRing("[" + host + "]:7101-7103")
		must(t, err)
		same(t, []any{ring.Host, ring.first, ring.address(2)}, []any{host, 7101, "[" + host + "]:7102"})
		// Else its last part would be a port, or none.
		_, err = ParseRing(host + ":7101-7103")
		as[*WrongRingError](t, err)
		t.Setenv("CINOWETA_RING", "["+host+"]:7101-7103")
		for _, text := range []string{"7100", "[" + host + "]:7100"} {
			t.Setenv("CINOWETA_STATUS", text)
			ring, err = RingFromEnv()
			must(t, err)
			same(t, []any{ring.Host, ring.Status}, []any{host, 7100})
		}
	}
	for _, host := range []string{":", ":::", "::1::", "1:2:3:4:5:6:7", "1:2:3:4:5:6:7:8:9", "::g", "::12345", "fe80::1%lo", "::1 ",
		"[::1]", "10.0.0.5", "ring", ""} {
		_, err := ParseRing("[" + host + "]:7101-7103")
		as[*WrongRingError](t, err)
	}
	for _, text := range []string{"[::1:7101-7103", "::1]:7101-7103", "[::1]7101-7103"} {
		_, err := ParseRing(text)
		as[*WrongRingError](t, err)
	}
	same(t, []bool{isOwn("::1"), isOwn("::"), isOwn("fd00::5")}, []bool{true, false, false})
}

func TestARingAtAnAddressOfIPv6(t *testing.T) {
	listener, err := net.Listen("tcp", "[::1]:0")
	if err != nil {
		t.Skip("for want of IPv6")
	}
	must(t, listener.Close())
	votes := newVotes().lead(20, 2, 30)
	ring, _ := besideAt(t, "::1", votes.answer, votes.answer)
	election, err := ring.Campaign(background(t), "red", short(CampaignOptions{Gone: 20}))
	must(t, err)
	same(t, []any{election.IsMine, ring.within(time.Second).Host}, []any{true, "::1"})
	ring.Status = statusAt(t, "::1", pages{"/health": {http.StatusServiceUnavailable, "node 2 failed\n"}})
	faults, err := Health(background(t), "::1", ring.Status)
	must(t, err)
	same(t, faults, []string{"node 2 failed"})
	_, err = Health(background(t), "::1", 1)
	same(t, as[*NoAnswerError](t, err).Address, "[::1]:1/health")
	fresh := newVotes()
	ring, _ = besideAt(t, "::1", fresh.at(1), fresh.at(2))
	must(t, lockOf(t, ring, LockOptions{}).Acquire(background(t)))
	holder, isHeld, err := ring.Holder(background(t), "red", 0)
	must(t, err)
	same(t, []any{isHeld, holder.Term}, []any{true, 1})
}

func TestARingIsOfThisHostWhereNoneIsTold(t *testing.T) {
	ring, err := NewRing(7101, 7103)
	must(t, err)
	same(t, ring.address(3), "127.0.0.1:7103")
	ring, err = ParseRing("7101-7103")
	must(t, err)
	same(t, ring.address(1), "127.0.0.1:7101")
	t.Setenv("CINOWETA_RING", "10.0.0.5:7101-7103")
	ring, err = RingFromEnv()
	must(t, err)
	same(t, ring.address(2), "10.0.0.5:7102")
}

func TestARingOfAnotherHostIsAskedThere(t *testing.T) {
	votes := newVotes().lead(20, 2, 30)
	ring, _ := besideAt(t, otherHost, votes.answer, votes.answer)
	// The terms far below are retired over sessions of a copy.
	elects(t, ring, CampaignOptions{Gone: 19}, Election{Led{20, Leader{2, 30}}, false})
	election, err := ring.Campaign(background(t), "red", short(CampaignOptions{Gone: 20}))
	must(t, err)
	same(t, []any{election.IsMine, votes.floor, ring.within(time.Second).Host}, []any{true, 19, otherHost})
	led, err := ring.Watch("red", 20).Next(background(t))
	must(t, err)
	same(t, led, election.Led)
}

func TestWhereNobodyAnswersIsTold(t *testing.T) {
	ring, _ := besideAt(t, otherHost, deaf, deaf)
	ring.Timeout = time.Millisecond
	_, _, err := ring.Latest(background(t), "red", 1)
	same(t, as[*NoAnswerError](t, err).Address, ring.address(1))
	same(t, strings.HasPrefix(ring.address(1), otherHost), true)
	_, err = Health(background(t), otherHost, 1)
	same(t, as[*NoAnswerError](t, err).Address, otherHost+":1/health")
}

func TestTheStatusOfAnotherHostIsAskedThere(t *testing.T) {
	votes := newVotes()
	votes.deposed = true
	ring, _ := besideAt(t, otherHost, votes.answer, votes.answer)
	ring.Status = statusAt(t, otherHost, pages{
		"/health":         {http.StatusServiceUnavailable, "node 2 failed\n"},
		"/status":         {http.StatusOK, `{"nodes": [{"node": 1}]}`},
		"/leaders?node=1": {http.StatusOK, `{"leaders": [{"bid": 7, "group": "a", "node": 3, "term": 5}]}`},
	})
	_, err := ring.Campaign(background(t), "red", short(CampaignOptions{Terms: 1}))
	same(t, as[*NoLeaderError](t, err).Faults, []string{"node 2 failed"})
	told, err := Status(background(t), otherHost, ring.Status)
	must(t, err)
	same(t, len(told.Nodes), 1)
	led, err := Leaders(background(t), otherHost, ring.Status, 1)
	must(t, err)
	same(t, led, []GroupLed{{"a", Led{5, Leader{3, 7}}}})
	_, err = Leaders(background(t), otherHost, ring.Status, 2)
	same(t, strings.HasPrefix(as[*WrongRingError](t, err).Text, otherHost+":"), true)
	_, err = Health(background(t), "", ring.Status)
	as[*NoAnswerError](t, err)
}

func TestALockAcrossHostsIsRefusedBeforeAnythingIsSent(t *testing.T) {
	trial.Tried(t, testALockAcrossHostsIsRefusedBeforeAnythingIsSent)
}

func testALockAcrossHostsIsRefusedBeforeAnythingIsSent(t *testing.T) {
	leavesNone(t)
	for host, isSaid := range map[string]bool{silentHost: false, "127.example": false, "localhost.example": false,
		"128.0.0.1": false, "0.0.0.0": false, "": true, ownHost: true, otherHost: true} {
		ring, err := NewRing(7101, 7103)
		must(t, err)
		ring.Host = host
		before, lock := time.Now(), lockOf(t, ring, LockOptions{AcrossHosts: isSaid})
		refuses := func(wanted string) {
			t.Helper()
			never := lock.Run(background(t), func(context.Context, int) error { return nil })
			for _, err := range []error{lock.Acquire(background(t)), lock.TryAcquire(background(t)), never} {
				same(t, err, wanted)
			}
			same(t, []bool{lock.sign == nil, ring.session == nil}, []bool{true, true})
		}
		wanted := hostOf(host) + ": who holds a lock across hosts is seen by ringd --status: tell its port"
		refuses("cinoweta: " + wanted)
		_, _, held := lock.Holder(background(t))
		for _, err := range []error{lock.Acquire(background(t)), held} {
			same(t, as[*WrongRingError](t, err).Text, wanted)
		}
		ring.Status = 7100
		lock = lockOf(t, ring, LockOptions{AcrossHosts: isSaid, Text: "a\nworker"})
		refuses("cinoweta: a holder's text is one printable line of 200 bytes at most")
		for _, rank := range []int{-1, 10} {
			lock = lockOf(t, ring, LockOptions{AcrossHosts: isSaid, Rank: rank})
			refuses("cinoweta: a lock's rank is 0 to 9")
		}
		trial.Took(t, time.Since(before), 0, 100*time.Millisecond)
	}
}

func TestALockIsHeldWithARingOfEachOwnAddress(t *testing.T) {
	votes := newVotes()
	ring, _ := besideAt(t, otherHost, votes.at(1), votes.at(2))
	lock := lockOf(t, ring, LockOptions{})
	must(t, lock.Acquire(background(t)))
	lock.every = 0
	same(t, holds(t, lock), true)
	holder, isHeld, err := ring.Holder(background(t), "red", 0)
	must(t, err)
	same(t, []any{isHeld, holder.Term}, []any{true, 1})
}

func TestLocalhostIsThisHost(t *testing.T) {
	for _, host := range []string{"localhost", "LocalHost", "localhost."} {
		votes := newVotes()
		ring, _ := besideAt(t, ownHost, votes.at(1), votes.at(2))
		ring.Host = host
		must(t, lockOf(t, ring, LockOptions{Text: "a worker"}).Acquire(background(t)))
		holder, isHeld, err := ring.Holder(background(t), "red", 0)
		must(t, err)
		same(t, []any{isHeld, holder.Text}, []any{true, "a worker"})
	}
	// Another name may be this host here, and another one elsewhere.
	for _, host := range []string{"localhost.example", "local", "localhost1"} {
		same(t, isOwn(host), false)
	}
}
