package trial

import (
	"fmt"
	"testing"
	"time"
)

// tries are those of a test that watches the clock: beside a busy machine a moment may last for seconds.
const tries = 5

// late says what took longer than it should.
type late string

// Late ends a try of a test.
func Late(text string) {
	panic(late(text))
}

// Tried runs a test that begins anew where it is late, and fails where each try is. What else fails fails it at once.
func Tried(t *testing.T, test func(t *testing.T)) {
	t.Helper()
	for try := 1; ; try++ {
		fault := lateOf(t, test)
		if fault == "" {
			return
		}
		if try == tries {
			t.Fatal(string(fault))
		}
	}
}

// lateOf runs the test, and says what was late.
func lateOf(t *testing.T, test func(t *testing.T)) (fault late) {
	defer func() {
		if told := recover(); told != nil {
			isLate := false
			if fault, isLate = told.(late); !isLate {
				panic(told)
			}
		}
	}()
	test(t)
	return ""
}

// Took looks that something took at least so long, and less than that.
func Took(t *testing.T, took, least, most time.Duration) {
	t.Helper()
	if took < least {
		t.Fatalf("it took %v, and %v at least were wanted", took, least)
	}
	if took >= most {
		Late(fmt.Sprintf("it took %v, and less than %v were wanted", took, most))
	}
}
