package cinoweta

import "sync"

// A node takes so many Stands. No more of them that got no answer are remembered.
const mostStands = 1_024

// A stood is a Stand that was sent to a node.
type stood struct {
	node int
	line string
}

// The unanswered Stands are those that this Ring sent, and that got no answer, or that of a failed device, the oldest
// first: each may have been accepted.
type unanswered struct {
	mutex  sync.Mutex
	stands []stood
}

func (u *unanswered) add(sent stood) {
	u.mutex.Lock()
	defer u.mutex.Unlock()
	if u.find(sent) {
		return
	}
	if len(u.stands) == mostStands {
		u.stands = append(u.stands[:0], u.stands[1:]...)
	}
	u.stands = append(u.stands, sent)
}

func (u *unanswered) has(sent stood) bool {
	u.mutex.Lock()
	defer u.mutex.Unlock()
	return u.find(sent)
}

func (u *unanswered) find(sent stood) bool {
	for _, known := range u.stands {
		if known == sent {
			return true
		}
	}
	return false
}
