// Package trial has what the tests of this module share.
package trial

import (
	"fmt"
	"syscall"
	"testing"
)

// Must ends the test at an error.
func Must(t *testing.T, err error) {
	t.Helper()
	if err != nil {
		t.Fatal(err)
	}
}

// Same compares what came with what was wanted.
func Same(t *testing.T, came, wanted any) {
	t.Helper()
	if fmt.Sprintf("%+v", came) != fmt.Sprintf("%+v", wanted) {
		t.Fatalf("came %+v, wanted %+v", came, wanted)
	}
}

// NeedsDescriptors skips the test where so many descriptors can't be open.
func NeedsDescriptors(t *testing.T, count uint64) {
	t.Helper()
	limit := syscall.Rlimit{}
	if Must(t, syscall.Getrlimit(syscall.RLIMIT_NOFILE, &limit)); limit.Cur < count {
		t.Skipf("for want of %d descriptors", count)
	}
}
