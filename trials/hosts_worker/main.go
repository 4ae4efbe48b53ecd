// hosts_worker NAME PORT FOLDER: a worker of trials/hosts.py, as its own ones are. It tells when in Unix time.
package main

import (
	"bufio"
	"context"
	"fmt"
	"net"
	"os"
	"path/filepath"
	"strings"
	"time"

	"cinoweta"
)

const (
	// Where the ring and the storage are; how long a turn is, and how often a line is written meanwhile.
	ports, status, storage = "10.77.1.1:7101-7103", 7100, "10.77.2.1:"
	held, every            = 200 * time.Millisecond, 20 * time.Millisecond
)

func main() {
	if err := work(os.Args[1], os.Args[2], os.Args[3]); err != nil {
		fmt.Fprintln(os.Stderr, err)
		os.Exit(1)
	}
}

// work takes turns until it is killed, and prints what it does.
func work(name, port, folder string) error {
	ring, err := cinoweta.ParseRing(ports)
	if err != nil {
		return err
	}
	ring.Status = status
	lock := cinoweta.NewLock(ring, "jobs", cinoweta.LockOptions{Text: name})
	keeps := func() bool {
		text, err := os.ReadFile(filepath.Join(folder, "keeps"))
		return err == nil && string(text) == name
	}
	for {
		if err := lock.Acquire(context.Background()); err != nil {
			return err
		}
		if err := turn(lock, name, storage+port, keeps); err != nil {
			return err
		}
	}
}

// turn writes until the turn is over, or the lock is lost.
func turn(lock *cinoweta.Lock, name, address string, keeps func() bool) error {
	begun, isKept := time.Now(), keeps()
	tell := func(what string, number int) {
		now := time.Now()
		fmt.Printf("%s %s %d %d.%09d %d\n", what, name, lock.Term(), now.Unix(), now.Nanosecond(), number)
	}
	tell("leads", 0)
	for {
		isLost, err := lock.IsLost(context.Background())
		if err != nil {
			return err
		}
		if isLost {
			tell("lost", 0)
			return nil
		}
		isKept = isKept && keeps()
		if time.Since(begun) > held && !isKept {
			tell("resigns", 0)
			lock.Resign()
			return nil
		}
		time.Sleep(every)
		tell(write(address, fmt.Sprintf("write %d job of %s\n", lock.Term(), name)))
	}
}

// write asks the storage for a line, and gives what came of it, and the number of the line.
func write(address, line string) (string, int) {
	conn, err := net.DialTimeout("tcp", address, 5*time.Second)
	if err != nil {
		return "unanswered", 0
	}
	defer conn.Close()
	conn.SetDeadline(time.Now().Add(5 * time.Second))
	fmt.Fprint(conn, line)
	answer, err := bufio.NewReader(conn).ReadString('\n')
	number := 0
	switch {
	case err != nil:
		return "unanswered", 0
	case strings.HasPrefix(answer, "refused "):
		return "refused", 0
	default:
		fmt.Sscanf(answer, "written %d\n", &number)
		return "wrote", number
	}
}
