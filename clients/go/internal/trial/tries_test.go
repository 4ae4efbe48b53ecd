package trial

import (
	"testing"
	"time"
)

func TestWhatIsLateBeginsAnew(t *testing.T) {
	count := 0
	Tried(t, func(t *testing.T) {
		count++
		if count < tries {
			Took(t, 2*time.Second, 0, time.Second)
		}
		Took(t, time.Second, time.Second, 2*time.Second)
	})
	Same(t, count, tries)
	Same(t, lateOf(t, func(t *testing.T) { Took(t, time.Second, 0, time.Second) }) != "", true)
}
