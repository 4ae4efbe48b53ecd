package trial

import (
	"bytes"
	"fmt"
	"os"
	"path/filepath"
	"strconv"
	"syscall"
	"testing"
	"time"
)

// Marked adds a mark to the environment of a program. All that has it is killed at the end of the test, what the program left
// behind too.
func Marked(t *testing.T, environment []string) []string {
	t.Helper()
	mark := fmt.Sprintf("CINOWETA_TEST_MARK=%d.%d", os.Getpid(), time.Now().UnixNano())
	t.Cleanup(func() {
		paths, _ := filepath.Glob("/proc/[0-9]*/environ")
		for _, path := range paths {
			// That of a process of another user can't be read.
			told, err := os.ReadFile(path)
			if number, fault := strconv.Atoi(filepath.Base(filepath.Dir(path))); err == nil && fault == nil && bytes.Contains(told, []byte(mark)) {
				syscall.Kill(number, syscall.SIGKILL)
			}
		}
	})
	return append(environment, mark)
}
