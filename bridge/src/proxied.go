package main

import (
	"context"
	"fmt"
	"io"
	"net"

	"google.golang.org/grpc/peer"
)

// sayClient says to the control plane whose stream a connection carries, where that is asked for: version 1 of HAProxy's PROXY protocol.
func (b *bridge) sayClient(ctx context.Context, server io.Writer) error {
	from, ok := peer.FromContext(ctx)
	if !b.addresses || !ok {
		return nil
	}
	_, err := server.Write([]byte(proxyLine(from.Addr)))
	return err
}

// proxyLine is the line that says that a client connected from an address. To which it did isn't known, and stands as the address of none.
func proxyLine(from net.Addr) string {
	at, ok := from.(*net.TCPAddr)
	switch {
	case !ok || at.Port == 0:
		return "PROXY UNKNOWN\r\n"
	case at.IP.To4() != nil:
		return fmt.Sprintf("PROXY TCP4 %s 0.0.0.0 %d 0\r\n", at.IP.To4(), at.Port)
	}
	return fmt.Sprintf("PROXY TCP6 %s :: %d 0\r\n", at.IP, at.Port)
}
