package cinoweta

import (
	"fmt"
	"net"
	"net/netip"
	"regexp"
	"strconv"
	"strings"
)

const (
	// Where a ring is whose host is not told, and where a holder of a lock is seen by clients of its host.
	ownHost = "127.0.0.1"
	// No name is longer, in bytes; below is what one has between its dots.
	longestName = 253
	partText    = `[A-Za-z0-9]([A-Za-z0-9-]{0,61}[A-Za-z0-9])?`
)

var (
	nameText = regexp.MustCompile(`^(` + partText + `\.)*` + partText + `\.?$`)
	// The last part of a name is no number, so that no wrong address is one.
	numberLast = regexp.MustCompile(`(^|\.)[0-9]+\.?$`)
)

// isAddress tells whether a text is an IPv4 or IPv6 address, without brackets and without a zone.
func isAddress(text string) bool {
	address, err := netip.ParseAddr(text)
	return err == nil && address.Zone() == ""
}

// isHost tells whether a text is an address or a name.
func isHost(text string) bool {
	return isAddress(text) || len(text) <= longestName && nameText.MatchString(text) && !numberLast.MatchString(text)
}

// requireHost gives a [WrongRingError] where a host is told that is none.
func requireHost(host string) error {
	if host == "" || isHost(host) {
		return nil
	}
	return &WrongRingError{fmt.Sprintf("%q is no IP address and no name of a host", host)}
}

// isOwn tells whether it is an address of this host alone, ::1 or one of 127.0.0.0/8, as where none is told.
func isOwn(host string) bool {
	address, err := netip.ParseAddr(hostOf(host))
	return err == nil && address.IsLoopback()
}

// withinBrackets is the host that stands before a port as [::1], where it is an IPv6 address, or as it is.
func withinBrackets(text string) (string, error) {
	host := strings.TrimSuffix(strings.TrimPrefix(text, "["), "]")
	if host == "" || text != host && text != "["+host+"]" || (text != host) != strings.Contains(text, ":") {
		return "", &WrongRingError{fmt.Sprintf("%q is no IP address and no name of a host", text)}
	}
	return host, requireHost(host)
}

// placeOf gives the host and the port of a text as 10.0.0.5:7100 or [fd00::5]:7100; a port alone is one of this host. Else
// a [WrongRingError].
func placeOf(text, host string) (string, int, error) {
	at := strings.LastIndex(text, ":")
	ports, isSo := numbers(portText, text[at+1:])
	if !isSo || ports[0] < 1 || ports[0] > lastPort {
		return "", 0, &WrongRingError{fmt.Sprintf("%q: a port is told as 7100, or as 10.0.0.5:7100", text)}
	}
	if at < 0 {
		return host, ports[0], nil
	}
	host, err := withinBrackets(text[:at])
	return host, ports[0], err
}

// isSameHost tells whether two hosts are told as one address, or by one name.
func isSameHost(one, other string) bool {
	one, other = hostOf(one), hostOf(other)
	address, err := netip.ParseAddr(one)
	if known, fault := netip.ParseAddr(other); err == nil && fault == nil {
		return address == known
	}
	return strings.EqualFold(one, other)
}

// hostOf is the host, or this one where none is told, or localhost is. No other name is looked up for that: it may be one
// of this host alone here, and of another one elsewhere.
func hostOf(host string) string {
	if host == "" || strings.EqualFold(strings.TrimSuffix(host, "."), "localhost") {
		return ownHost
	}
	return host
}

// address is that of a port of the host, of this one where none is told.
func address(host string, port int) string {
	return net.JoinHostPort(hostOf(host), strconv.Itoa(port))
}
