package main

import (
	"net"
	"testing"
)

func TestLinesThatSayAClient(t *testing.T) {
	for _, it := range []struct {
		from net.Addr
		line string
	}{
		{&net.TCPAddr{IP: net.ParseIP("10.1.2.3"), Port: 65535}, "PROXY TCP4 10.1.2.3 0.0.0.0 65535 0\r\n"},
		{&net.TCPAddr{IP: net.ParseIP("::ffff:10.1.2.3"), Port: 1}, "PROXY TCP4 10.1.2.3 0.0.0.0 1 0\r\n"},
		{&net.TCPAddr{IP: net.ParseIP("2001:db8::1"), Port: 7}, "PROXY TCP6 2001:db8::1 :: 7 0\r\n"},
		{&net.TCPAddr{IP: net.ParseIP("fe80::1"), Zone: "eth0", Port: 7}, "PROXY TCP6 fe80::1 :: 7 0\r\n"},
		{&net.UnixAddr{Name: "@", Net: "unix"}, "PROXY UNKNOWN\r\n"},
	} {
		if line := proxyLine(it.from); line != it.line {
			t.Errorf("%v: %q, and not %q", it.from, line, it.line)
		}
	}
}
