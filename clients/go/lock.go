package cinoweta

import (
	"context"
	"errors"
	"fmt"
	"sync"
	"time"
)

const (
	// DefaultPatience is how long a holder of a lock may be silent before it is taken for gone.
	DefaultPatience = 5 * time.Second

	// How often is asked whether a lock is lost, or so many times within its GiveUp where that is less.
	lookEvery, looksWithin = time.Second, 5
	// Across hosts who waited for the end of one holder, or two, leaves the next term so many times so long to who waited for
	// more: an election takes about as long.
	olderPause, olderEnds = 20 * time.Millisecond, 3
)

// LockOptions are how to hold a lock. The zero value will do.
type LockOptions struct {
	// Rank is 0 to 9: of who stands at once the greatest leads.
	Rank int
	// Patience is after how long a holder that is not seen is gone, as one that is paused; DefaultPatience where it is
	// 0. Across hosts that is two seconds at most, and the holder's GiveUp more.
	Patience time.Duration
	// Text is what others are told of this holder: a printable line of 200 bytes at most. Where the Ring has a Status
	// port it is shown there, too, half a second after the lock was taken, in a door that all locks of a process at one
	// node share, if one more is free.
	Text string
	// AcrossHosts says that holders are seen by `ringd --status`, the Ring's Status port, from other hosts too; so it is
	// with a Ring of another host anyway. All clients of the lock have to say so: else a [WrongRingError]. A process
	// takes a door of each node where it holds any; one that is paused or cut off is seen until `ringd --idle` ends its
	// session.
	AcrossHosts bool
	// Keep is how many terms below its own are kept; DefaultKeep where it is 0, and none where it is KeepNone.
	Keep int
	// GiveUp is after how long without an answer of a node that could tell of a greater term the lock is lost, as for who
	// is cut off from the ring; never where it is 0. Across hosts others are told it, up to one of 1, 2, 3, 5, 8, 10, 15,
	// 20, 30, 45, 60, 90, 120, 300 and 600 seconds, and a longer one is refused.
	GiveUp time.Duration
	// Tell, if any, is told for whom is waited.
	Tell func(text string)
}

// A sign is how others see that the holder of a lock is there.
type sign interface {
	// bid is that with which the holder stands.
	bid() int
	// show has others see the sign from now on, if they did not before, where its holder leads so. Else a
	// [NoAnswerError], or a [RefusedError] where the node does not stand so any more.
	show(ctx context.Context, led Led) error
	// close ends the sign. It gives the bid of who comes next, 0 where nobody is known to.
	close() int
}

// A Lock is that of a group: who leads holds it, in a term of its own, until it resigns, its process ends, or was not
// seen for some time. Goroutines may share a Lock, and one of them acquires it.
type Lock struct {
	ring  *Ring
	group string
	how   LockOptions
	// What looks whether the lock is lost waits for no other question, and is not waited for long.
	looks *Ring
	every time.Duration
	// Has one place, taken by who looks.
	turn chan struct{}
	// How long a campaign waits in a term, and how long who waited for fewer ends leaves it to others.
	wait, older time.Duration
	showing     showTimes

	mutex  sync.Mutex
	sign   sign
	shown  *shown
	isHeld bool
	// leave ends the wait of who acquires it, nil where nobody does, who then sees that it was given back.
	leave   context.CancelFunc
	hasLeft bool
	// The term in which it leads or led, the greatest one that is over for it, and the number above which it stands.
	term, gone, above int
	// When the ring was asked last, and when that was which a node answered that could tell of a greater term; whether the
	// lock is lost for want of such an answer, and the greater term for which it is lost, if it is for that.
	asked, heard time.Time
	hasGivenUp   bool
	later        int
	// Closed once the nodes were asked to retire; nil where they never were.
	retired chan struct{}
}

// NewLock gives the lock of the group, which is not held yet.
func NewLock(ring *Ring, group string, how LockOptions) *Lock {
	if how.Patience <= 0 {
		how.Patience = DefaultPatience
	}
	every := lookEvery
	if how.GiveUp > 0 {
		// For one look that a node leaves unanswered, and the pauses before and behind it, nobody gives up.
		every = atMost(every, how.GiveUp/looksWithin)
	}
	if every < leastPatience {
		every = leastPatience
	}
	looks := ring.within(atMost(lookEvery, 2*every))
	looks.passes = &ring.silence
	return &Lock{ring: ring, group: group, how: how, looks: looks, every: every, turn: make(chan struct{}, 1),
		wait: DefaultWait, older: olderPause, showing: usualShowTimes}
}

// Acquire waits until this process leads, or the context is over: then a [LockTakenError] where another process holds
// the lock. A ring that is away, full or failed is waited for just so: then its fault. Across hosts its status port is
// waited for likewise; a [WrongRingError] where it is not told, or does not know who leads. Where the lock is given back
// meanwhile, a [ResignedError].
func (l *Lock) Acquire(ctx context.Context) error {
	ctx, leave := context.WithCancel(ctx)
	defer leave()
	return l.acquire(ctx, ctx, leave)
}

// TryAcquire acquires the lock, unless another process holds it: a [LockTakenError]. A ring that is away, or elects nobody,
// has two seconds for it: then a [NoAnswerError] or a [NoLeaderError].
func (l *Lock) TryAcquire(ctx context.Context) error {
	return l.AcquireWithin(ctx, 0)
}

// AcquireWithin waits for so long at most until this process leads: then the errors are those of TryAcquire, and none of a
// context. A try that began has two seconds, and longer until a holder that does not answer is gone. So what is asked
// within a short wait comes to its end, which the context of Acquire would cut off.
func (l *Lock) AcquireWithin(ctx context.Context, wait time.Duration) error {
	ctx, leave := context.WithCancel(ctx)
	defer leave()
	waits, cancel := context.WithTimeout(ctx, wait)
	defer cancel()
	return l.acquire(ctx, waits, leave)
}

// Run acquires the lock, has work done with the term in which it is held, and resigns. The context of the work ends
// within some two seconds once the lock is lost, and as soon as it is given up: a [LockLostError] then.
func (l *Lock) Run(ctx context.Context, work func(ctx context.Context, term int) error) error {
	if err := l.Acquire(ctx); err != nil {
		return err
	}
	return l.RunHeld(ctx, work)
}

// RunHeld does the same with a lock that was acquired before, as by AcquireWithin.
func (l *Lock) RunHeld(ctx context.Context, work func(ctx context.Context, term int) error) error {
	defer l.Resign()
	held, cancel := context.WithCancel(ctx)
	defer cancel()
	ended := make(chan error, 1)
	go func() {
		defer cancel()
		ended <- l.awaitLoss(held)
	}()
	err := work(held, l.Term())
	cancel()
	fault := <-ended
	if lost, isLost := fault.(*LockLostError); isLost {
		lost.Err = err
	}
	if fault != nil {
		return fault
	}
	return err
}

// Term is the one in which this process holds the lock, or held it last: a fencing number.
func (l *Lock) Term() int {
	l.mutex.Lock()
	defer l.mutex.Unlock()
	return l.term
}

// Resign gives the lock back, if it is held, and ends the wait for it. Who waited longest is told so, and comes next; who
// gave it back leaves it to him for 0.2 seconds. Across hosts all who wait are told by the status port, and who waited for
// fewer ends leaves it to the others for a moment.
func (l *Lock) Resign() {
	l.ResignAbove(0)
}

// ResignAbove gives the lock back, also where it is waited for. Where this one takes it again its term is above this
// number, as the one that turned a write away. Whoever holds the lock in a term up to that number is waited for all the
// same.
func (l *Lock) ResignAbove(term int) {
	l.mutex.Lock()
	defer l.mutex.Unlock()
	l.resign(term)
}

func (l *Lock) resign(above int) {
	l.above = greater(l.above, above)
	if l.leave != nil {
		l.hasLeft = true
		l.leave()
	}
	if l.isHeld {
		l.ring.handed.put(l.group, l.end().close())
	}
}

// end has the lock be held no more, and gives its sign, which is to be closed.
func (l *Lock) end() sign {
	sign := l.sign
	showers.remove(l.shown)
	l.isHeld, l.sign, l.shown, l.gone = false, nil, nil, greater(l.gone, l.term)
	return sign
}

// acquire gives up waiting for others once the second context is over. The function ends the first one.
func (l *Lock) acquire(ctx, waits context.Context, leave context.CancelFunc) error {
	campaign, err := l.begin(leave)
	if err != nil {
		return err
	}
	defer l.ring.release(ctx)
	led, err := l.contend(ctx, waits, campaign)
	l.mutex.Lock()
	defer l.mutex.Unlock()
	return l.settle(led, campaign.asked, err)
}

// settle has the lock be held by who leads so, of which a node told when it was asked then, unless there is an error, or
// the lock was given back meanwhile.
func (l *Lock) settle(led Led, asked time.Time, err error) error {
	if l.hasLeft {
		l.gone, err = greater(l.gone, led.Term), &ResignedError{l.group}
	}
	l.leave, l.hasLeft = nil, false
	if err != nil {
		l.sign.close()
		l.sign = nil
		return err
	}
	l.isHeld, l.hasGivenUp, l.later, l.term = true, false, 0, led.Term
	l.asked, l.heard = time.Now(), asked
	if l.ring.Status != 0 && !l.isAcross() {
		place := showPlace{l.ring.Host, l.ring.first, l.ring.Status, led.Leader.Node}
		l.shown = showers.add(newShown(l.group, led, l.how.Text), place, l.showing)
	}
	return nil
}

// begin makes the sign, for whose bid the campaign is.
func (l *Lock) begin(leave context.CancelFunc) (*campaign, error) {
	if err := l.requireSight(); err != nil {
		return nil, err
	}
	l.mutex.Lock()
	defer l.mutex.Unlock()
	if l.sign != nil {
		return nil, fmt.Errorf("cinoweta: %s: the lock is held, or waited for", l.group)
	}
	sign, err := l.newSign()
	if err != nil {
		return nil, err
	}
	how := CampaignOptions{Gone: l.gone, Wait: l.wait, Keep: l.how.Keep}
	campaign, err := newCampaign(l.ring, l.group, sign.bid(), how)
	if err != nil {
		sign.close()
		return nil, err
	}
	campaign.above, l.sign, l.leave = l.above, sign, leave
	return campaign, nil
}

// newSign gives a beacon, or across hosts a presence.
func (l *Lock) newSign() (sign, error) {
	switch {
	case l.how.Rank < 0 || l.how.Rank > 9:
		return nil, errors.New("cinoweta: a lock's rank is 0 to 9")
	case !l.isAcross():
		return newBeacon(l.how.Rank, l.how.Text)
	default:
		return newPresence(l.ring, l.group, l.how.Rank, l.how.Text, l.how.GiveUp)
	}
}

// isAcross tells whether holders are seen across hosts.
func (l *Lock) isAcross() bool {
	return l.how.AcrossHosts || !isOwn(l.ring.Host)
}

// requireSight gives a [WrongRingError] where a holder can not be seen.
func (l *Lock) requireSight() error {
	if !l.isAcross() || l.ring.Status != 0 {
		return nil
	}
	const text = "%s: who holds a lock across hosts is seen by ringd --status: tell its port"
	return &WrongRingError{fmt.Sprintf(text, hostOf(l.ring.Host))}
}

// contend stands for the term above that of each holder that is gone, until it leads itself and is seen, and gives how it
// leads.
func (l *Lock) contend(ctx, waits context.Context, campaign *campaign) (Led, error) {
	var pause pause
	told, ends := "", 0
	queue := &queue{own: l.sign.bid(), text: l.how.Text, patience: l.how.Patience, since: time.Now().UnixMilli()}
	defer queue.leave()
	// Who gave the lock back lets the one go first who waited, which across hosts nobody names.
	turn := l.ring.handed.take(l.group)
	queue.follow(ctx, turn.next, turn.until)
	if l.isAcross() {
		sleep(ctx, time.Until(turn.until))
	}
	for {
		// Where the ring came to no leader before, these are the same Stands, and take no room again.
		election, err := campaign.runUntil(ctx, tryEnd(waits))
		if err == nil && election.IsMine {
			err = l.sign.show(ctx, election.Led)
		} else if err == nil {
			err = l.awaitEnd(ctx, waits, election.Led, queue)
		}
		switch {
		case err == nil && election.IsMine:
			l.retire(campaign, election.Term)
			return election.Led, nil
		case err == nil || election.IsMine && isOver(err):
			campaign.how.Gone = election.Term
			if err == nil && l.isAcross() && l.how.Rank == 0 {
				// Nobody tells who came first.
				ends++
				sleep(ctx, time.Duration(greater(0, olderEnds-ends))*l.older)
			}
		case isPassing(err) && ended(waits) == nil && pause.take(waits, l.ring):
			if text := err.Error(); text != told {
				told = text
				l.tell("waits for the ring: " + text)
			}
		default:
			return Led{}, err
		}
	}
}

// retire has nodes retire what is not kept. They may be slow to, and who holds the lock does not wait for that.
func (l *Lock) retire(campaign *campaign, term int) {
	l.mutex.Lock()
	defer l.mutex.Unlock()
	retired := make(chan struct{})
	l.retired = retired
	go func() {
		defer close(retired)
		campaign.retire(context.Background(), term)
	}()
}

// AwaitRetires waits until the nodes were asked to retire what is not kept, as they are since the lock was acquired last, or
// until the context is over. Who takes a lock for a moment alone, and ends its process then, leaves them no time else.
func (l *Lock) AwaitRetires(ctx context.Context) {
	l.mutex.Lock()
	retired := l.retired
	l.mutex.Unlock()
	if retired == nil {
		return
	}
	select {
	case <-retired:
	case <-ctx.Done():
	}
}

// tryEnd is when a try that begins now is to end: not before its two seconds are over, nor before the context is; never where
// that has no end.
func tryEnd(waits context.Context) time.Time {
	least := time.Now().Add(tryLimit)
	until, hasOne := waits.Deadline()
	switch {
	case hasOne && until.After(least):
		return until
	case hasOne || waits.Err() != nil:
		return least
	default:
		return time.Time{}
	}
}

// isOver tells whether a Stand was refused since its term is over.
func isOver(err error) bool {
	return errors.Is(err, ErrLate) || errors.Is(err, ErrStale) || errors.Is(err, ErrRetired)
}

// awaitEnd waits until who leads so is gone.
func (l *Lock) awaitEnd(ctx, waits context.Context, known Led, queue *queue) error {
	l.ring.release(ctx)
	isThere, err := l.isThere(ctx, known)
	if !isThere {
		return err
	}
	holder := l.told(ctx, known)
	l.tell("waits for " + holder.String())
	if !l.isAcross() && queue.stay(waits, known.Leader.Bid) {
		return nil
	}
	for pause := (pause{}); l.isAcross() && l.awaitChange(waits, known, &pause); {
		isThere, err := l.isThere(ctx, known)
		if !isThere && ended(ctx) == nil {
			return err
		}
	}
	return &LockTakenError{l.group, holder, ended(ctx)}
}

// awaitChange waits until who leads so may be gone. False, without a wait, once the context is over.
func (l *Lock) awaitChange(waits context.Context, known Led, pause *pause) bool {
	// Whatever the port answers, it is asked no more often.
	sleep(waits, shortestPause)
	if waits.Err() == nil && changes(waits, l.ring.Host, l.ring.Status, l.group, known, waitSeconds) {
		return true
	}
	return pause.take(waits, l.ring)
}

// told gives who leads so, with what it tells.
func (l *Lock) told(ctx context.Context, known Led) Holder {
	if l.isAcross() {
		return l.seen(ctx, known)
	}
	if holder, isTold := holderOf(ctx, known, l.how.Patience); isTold {
		return holder
	}
	return Holder{Led: known}
}

// seen gives who leads so across hosts, with what the status port tells of it.
func (l *Lock) seen(ctx context.Context, known Led) Holder {
	holder := Holder{Led: known}
	told, sight, err := leaderOf(ctx, l.ring.Host, l.ring.Status, l.group, known.Leader.Node)
	if err == nil && told == known {
		holder.Text = sight.text
	}
	return holder
}

func (l *Lock) tell(text string) {
	if l.how.Tell != nil {
		l.how.Tell(text)
	}
}
