package cinoweta

import (
	"crypto/rand"
	"errors"
	"fmt"
	"math/big"
)

// A Leader is who leads: a node, 1 to 16, and its bid, 0 to 999,999,999.
type Leader struct {
	Node, Bid int
}

// A Led is a term and its leader.
type Led struct {
	Term   int
	Leader Leader
}

// An Election is a term, its leader, and whether that is who campaigned.
type Election struct {
	Led
	IsMine bool
}

// A Holder is who holds a lock: its term and leader, its process, and what it tells of itself. PID is 0 where the
// process does not tell it, as across hosts.
type Holder struct {
	Led
	PID  int
	Text string
}

// String says who leads, in words.
func (h Holder) String() string {
	text := fmt.Sprintf("node %d in term %d", h.Leader.Node, h.Term)
	switch {
	case h.PID == 0 && h.Text == "":
		return text
	case h.PID == 0:
		return fmt.Sprintf("%s (%s)", text, h.Text)
	case h.Text == "":
		return fmt.Sprintf("process %d, which leads at %s", h.PID, text)
	default:
		return fmt.Sprintf("process %d (%s), which leads at %s", h.PID, h.Text, text)
	}
}

// randomBid is a bid that no other campaign has, with the rank in its upper digits.
func randomBid(rank int) (int, error) {
	if rank < 0 || rank > 999 {
		return 0, errors.New("cinoweta: a rank is 0 to 999")
	}
	number, err := randomBelow(1_000_000)
	return rank*1_000_000 + number, err
}

func randomBelow(limit int64) (int, error) {
	number, err := rand.Int(rand.Reader, big.NewInt(limit))
	if err != nil {
		return 0, fmt.Errorf("cinoweta: %w", err)
	}
	return int(number.Int64()), nil
}
