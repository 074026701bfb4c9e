package main

import (
	"bytes"
	"fmt"
	"net"
	"sync"
	"testing"
)

// A standIn is a control plane that does next to nothing: what is put it tells at once on each stream, asked for or not.
// A stream that opens late is told the last put.
type standIn struct {
	mutex   sync.Mutex
	puts    int
	last    []byte
	streams map[net.Conn]chan []byte
}

func newStandIn(t *testing.T, at string) *standIn {
	listener, err := net.Listen("tcp", at)
	if err != nil {
		t.Fatal(err)
	}
	t.Cleanup(func() { listener.Close() })
	s := &standIn{streams: map[net.Conn]chan []byte{}}
	go func() {
		for {
			conn, err := listener.Accept()
			if err != nil {
				return
			}
			go s.serve(conn)
		}
	}()
	return s
}

// serve reads requests until the stream ends; the first opens it.
func (s *standIn) serve(conn net.Conn) {
	defer conn.Close()
	frames := newFrameReader(conn)
	for first := true; ; first = false {
		if _, _, err := frames.next(); err != nil {
			break
		}
		if first {
			puts := make(chan []byte, 4)
			go func() {
				for text := range puts {
					_ = writeFrame(conn, kindDeltaResponse, text)
				}
			}()
			s.mutex.Lock()
			s.streams[conn] = puts
			puts <- s.last
			s.mutex.Unlock()
		}
	}
	s.mutex.Lock()
	defer s.mutex.Unlock()
	if puts, ok := s.streams[conn]; ok {
		close(puts)
		delete(s.streams, conn)
	}
}

// Write takes a line `put 1 JSON`.
func (s *standIn) Write(line []byte) (int, error) {
	s.mutex.Lock()
	defer s.mutex.Unlock()
	s.puts++
	body := bytes.TrimSuffix(bytes.TrimPrefix(line, []byte("put 1 ")), []byte("\n"))
	const form = `{"nonce":"%d","resources":[{"name":"c0500","resource":%s,"version":"%d-1"}],"systemVersionInfo":"1.%d","typeUrl":"%s"}`
	s.last = []byte(fmt.Sprintf(form, s.puts, body, s.puts, s.puts, clusterURL))
	for _, puts := range s.streams {
		puts <- s.last
	}
	return len(line), nil
}
