package cinoweta

import (
	"context"
	"errors"
	"net"
	"strings"
	"time"
)

// longestAnswer is more, in bytes, than any answer of a node has.
const longestAnswer = 256

var errTooLong = errors.New("the answer is too long")

// A session sends a line to a node, and one line is its answer. What fails ends the session, so that a late answer is
// never read as that of another line.
type session struct {
	address string
	conn    net.Conn
	// When an answer came last, which whose turn it is at the ring reads and writes.
	used time.Time
}

func openSession(ctx context.Context, address string, limit time.Duration) (*session, error) {
	conn, err := dial(ctx, address, limit)
	if err != nil {
		return nil, err
	}
	return &session{address, conn, time.Now()}, nil
}

// ask gives the answer to a line, for which it waits so long.
func (s *session) ask(ctx context.Context, line string, limit time.Duration) (string, error) {
	answers, err := s.askAll(ctx, []string{line}, limit)
	if err != nil {
		return "", err
	}
	return answers[0], nil
}

// askAll gives the answers to these lines, which are sent at once.
func (s *session) askAll(ctx context.Context, lines []string, limit time.Duration) ([]string, error) {
	ctx, cancel := context.WithTimeout(ctx, limit)
	defer cancel()
	defer endWith(ctx, s.conn)()
	text, err := exchange(s.conn, strings.Join(lines, "\n")+"\n", longestAnswer*len(lines), len(lines))
	answers := strings.Split(text, "\n")
	if err == nil && len(answers) > len(lines) {
		err = errors.New("more than one line was answered")
	}
	if err != nil {
		s.close()
		return nil, err
	}
	return answers, nil
}

// close ends the session, which gives the node's door back.
func (s *session) close() {
	s.conn.Close()
}

func dial(ctx context.Context, address string, limit time.Duration) (net.Conn, error) {
	dialer := net.Dialer{Timeout: limit}
	return dialer.DialContext(ctx, "tcp", address)
}

// exchange sends what is asked, and gives what is answered up to a last line feed, without it: so many lines or more.
func exchange(conn net.Conn, asked string, longest, lines int) (string, error) {
	if _, err := conn.Write([]byte(asked)); err != nil {
		return "", err
	}
	answer, part := []byte{}, make([]byte, longest)
	for {
		count, err := conn.Read(part)
		answer = append(answer, part[:count]...)
		if len(answer) > longest {
			return "", errTooLong
		}
		if text := string(answer); strings.HasSuffix(text, "\n") && strings.Count(text, "\n") >= lines {
			return strings.TrimSuffix(text, "\n"), nil
		}
		if err != nil {
			return "", err
		}
	}
}

// endWith has the reads and writes of a connection end with the context, until the function that it gives is called.
func endWith(ctx context.Context, conn net.Conn) (release func()) {
	released, ended := make(chan struct{}), make(chan struct{})
	go func() {
		defer close(ended)
		select {
		case <-ctx.Done():
			conn.SetDeadline(time.Unix(1, 0))
		case <-released:
		}
	}()
	return func() {
		close(released)
		<-ended
		conn.SetDeadline(time.Time{})
	}
}
