package trial

import (
	"math/rand"
	"os"
	"strconv"
	"strings"
	"syscall"
	"testing"
	"time"
)

const (
	portRange = "/proc/sys/net/ipv4/ip_local_port_range"
	// So many ports below the system's own are drawn from, and this stands in their place where there are fewer.
	portCount, usualPort = 22_000, 32_768
)

// endOfPorts is the first port that the system may give by itself.
func endOfPorts() int {
	end := usualPort
	if told, err := os.ReadFile(portRange); err == nil {
		if words := strings.Fields(string(told)); len(words) > 0 {
			if given, err := strconv.Atoi(words[0]); err == nil && given > 2*1_024 && given < end {
				end = given
			}
		}
	}
	return end
}

// HoldPorts gives the first of so many ports in a row that nobody uses, below those that the system gives by itself. Nobody else
// draws them until they are let go: a socket is bound to each and does not listen. A server that allows its port to be used again,
// as ringd does and what package net makes, may listen there meanwhile, end and come back.
func HoldPorts(t *testing.T, count int) (int, func()) {
	t.Helper()
	end := endOfPorts()
	begin := end - portCount
	if begin < 1_024 {
		begin = 1_024
	}
	drawn := rand.New(rand.NewSource(time.Now().UnixNano() ^ int64(os.Getpid())<<32))
	for range make([]struct{}, 1_000) {
		first, held := begin+drawn.Intn(end-count-begin), []int{}
		letGo := func() {
			for _, socket := range held {
				syscall.Close(socket)
			}
			held = nil
		}
		for len(held) < count {
			socket, err := hold(first + len(held))
			if err != nil {
				break
			}
			held = append(held, socket)
		}
		if len(held) == count {
			return first, letGo
		}
		letGo()
	}
	t.Fatal("no free ports")
	return 0, nil
}

// hold binds a socket to a port, if nobody else uses it.
func hold(port int) (int, error) {
	syscall.ForkLock.RLock()
	socket, err := syscall.Socket(syscall.AF_INET, syscall.SOCK_STREAM, 0)
	if err == nil {
		syscall.CloseOnExec(socket)
	}
	syscall.ForkLock.RUnlock()
	if err != nil {
		return 0, err
	}
	if err = syscall.Bind(socket, &syscall.SockaddrInet4{Port: port}); err == nil {
		// Only now: before, a port would be taken that another one holds.
		err = syscall.SetsockoptInt(socket, syscall.SOL_SOCKET, syscall.SO_REUSEADDR, 1)
	}
	if err != nil {
		syscall.Close(socket)
	}
	return socket, err
}
