package trial

import (
	"fmt"
	"net"
	"testing"
)

func TestPortsAreHeldUntilTheyAreLetGo(t *testing.T) {
	first, letGo := HoldPorts(t, 3)
	for place := 0; place < 3; place++ {
		if _, err := hold(first + place); err == nil {
			t.Fatal("a port is held twice")
		}
	}
	for range make([]struct{}, 3) {
		if _, err := net.Dial("tcp", fmt.Sprint("127.0.0.1:", first)); err == nil {
			t.Fatal("what is held listens")
		}
		server, err := net.Listen("tcp", fmt.Sprint("127.0.0.1:", first))
		Must(t, err)
		client, err := net.Dial("tcp", fmt.Sprint("127.0.0.1:", first))
		Must(t, err)
		client.Close()
		server.Close()
	}
	letGo()
	Same(t, first > 1_023 && first+2 < endOfPorts(), true)
}
