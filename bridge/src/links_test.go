package main

import (
	"bytes"
	"context"
	"encoding/binary"
	"errors"
	"fmt"
	"io"
	"math/rand"
	"net"
	"strings"
	"sync"
	"sync/atomic"
	"syscall"
	"testing"
	"time"

	"google.golang.org/grpc/codes"
)

// linked is a link, and its other end.
func linked(t *testing.T) (*link, *net.TCPConn) {
	t.Helper()
	at, err := net.Listen("tcp", "127.0.0.1:0")
	if err != nil {
		t.Fatal(err)
	}
	defer at.Close()
	l, err := new(links).dial(context.Background(), at.Addr().String())
	if err != nil {
		t.Fatal(err)
	}
	there, err := at.Accept()
	if err != nil {
		t.Fatal(err)
	}
	t.Cleanup(func() {
		l.Close()
		there.Close()
	})
	return l, there.(*net.TCPConn)
}

// Whatever is carried at once and what by a thread of its own, all bytes come, once and in order, and then the end.
func TestALinkLosesNothing(t *testing.T) {
	for seed := int64(0); seed < 40; seed++ {
		l, there := linked(t)
		var got bytes.Buffer // of who has the link
		done := make(chan error, 1)
		mine := rand.New(rand.NewSource(seed))
		slow := func(rest []byte) {
			go func() {
				got.Write(rest)
				buffer := make([]byte, 1+mine.Intn(3000))
				for !l.back() {
					n, err := l.now(buffer)
					if err == errLater {
						continue
					}
					if got.Write(buffer[:n]); err != nil {
						done <- err
						return
					}
					if mine.Intn(3) == 0 { // (one that waits)
						if n, err = l.Read(buffer); err != nil {
							done <- err
							return
						}
						got.Write(buffer[:n])
					}
				}
			}()
		}
		quick := func(from []byte, _ *batch) int {
			n := len(from)
			if mine.Intn(3) == 0 {
				n = mine.Intn(n + 1)
			}
			got.Write(from[:n])
			return n
		}
		want := make([]byte, 300_000)
		theirs := rand.New(rand.NewSource(-seed))
		theirs.Read(want)
		if err := l.begin(quick, slow); err != nil {
			t.Fatal(err)
		}
		go func() {
			for left := want; len(left) > 0; {
				n := 1 + theirs.Intn(1<<uint(1+theirs.Intn(16)))
				if n > len(left) {
					n = len(left)
				}
				_, _ = there.Write(left[:n])
				left = left[n:]
				if theirs.Intn(20) == 0 {
					time.Sleep(time.Duration(theirs.Intn(1000)) * time.Microsecond)
				}
			}
			there.Close()
		}()
		select {
		case err := <-done:
			if err != io.EOF || !bytes.Equal(got.Bytes(), want) {
				t.Fatal(seed, err, got.Len())
			}
		case <-time.After(patience):
			t.Fatal(seed, "nothing more comes")
		}
	}
}

func TestALinkThatIsFullOrClosed(t *testing.T) {
	l, there := linked(t)
	if err := l.begin(func(bytes []byte, _ *batch) int { return 0 }, func([]byte) {}); err != nil {
		t.Fatal(err)
	}
	// What has no room waits, and goes on once there is some.
	text := bytes.Repeat([]byte("0123456789abcdef"), 1<<20)
	wrote := make(chan error, 1)
	write := func() {
		n, err := l.Write(text)
		if err == nil && n != len(text) {
			err = io.ErrShortWrite
		}
		wrote <- err
	}
	go write()
	time.Sleep(50 * time.Millisecond)
	select {
	case err := <-wrote:
		t.Fatal(err)
	default:
	}
	got := make([]byte, len(text))
	if _, err := io.ReadFull(there, got); err != nil || !bytes.Equal(got, text) || <-wrote != nil {
		t.Fatal(err)
	}
	// Who waits is told the end.
	go write()
	read := make(chan error, 1)
	l.keep(false)
	go func() {
		_, err := l.Read(make([]byte, 1))
		read <- err
	}()
	time.Sleep(50 * time.Millisecond)
	l.Close()
	l.Close()
	if err := <-wrote; !errors.Is(err, net.ErrClosed) {
		t.Fatal(err)
	}
	if err := <-read; !errors.Is(err, net.ErrClosed) {
		t.Fatal(err)
	}
	for _, err := range []error{l.CloseWrite(), func() error { _, err := l.now(make([]byte, 1)); return err }()} {
		if !errors.Is(err, net.ErrClosed) {
			t.Fatal(err)
		}
	}
}

func TestALinkThatBreaksOff(t *testing.T) {
	l, there := linked(t)
	lent := make(chan []byte, 1)
	if err := l.begin(func(bytes []byte, _ *batch) int { return 0 }, func(rest []byte) { lent <- rest }); err != nil {
		t.Fatal(err)
	}
	_ = there.SetLinger(0)
	there.Close()
	<-lent
	for i := 0; i < 2; i++ { // (the cause is told each time)
		if _, err := l.Read(make([]byte, 1)); !errors.Is(err, syscall.ECONNRESET) {
			t.Fatal(err)
		}
	}
	var of *net.OpError
	if _, err := l.Write([]byte("a")); !errors.As(err, &of) || of.Addr == nil {
		t.Fatal(err)
	}
}

func TestShortFramesAreCutAsOthers(t *testing.T) {
	random := rand.New(rand.NewSource(3))
	for i := 0; i < 20000; i++ {
		made := make([]byte, random.Intn(40))
		for n := range made {
			made[n] = byte(random.Intn(5))
		}
		if len(made) >= 4 && random.Intn(4) > 0 {
			binary.BigEndian.PutUint32(made, uint32(random.Intn(40)))
		}
		text, ok := wholeText(made, 4)
		kind, want, err := newFrameReader(bytes.NewReader(made)).next()
		if ok && (err != nil || kind != 4 || !bytes.Equal(text, want)) {
			t.Fatalf("%q: %q, not %q, %v", made, text, want, err)
		}
		if !ok && err == nil && kind == 4 {
			t.Fatalf("%q", made)
		}
	}
	long := make([]byte, frameHead+sharedFrom)
	putHead(long, 4, sharedFrom)
	if _, ok := wholeText(long, 4); ok {
		t.Fatal("a long text")
	}
	putHead(long, 4, sharedFrom-1)
	if _, ok := wholeText(long, 4); !ok {
		t.Fatal("a short text")
	}
}

// A loop rests where events come one by one for a while, and else not.
func TestThePaceOfALoop(t *testing.T) {
	at := func(p *pace, now time.Duration, events int) time.Duration {
		return p.rests(time.Unix(1000, 0).Add(now), events)
	}
	// Now and then: never.
	p := new(pace)
	for i := 0; i < 1000; i++ {
		if rest := at(p, time.Duration(i)*time.Millisecond/4, 1); rest != 0 {
			t.Fatal(i, rest)
		}
	}
	// All at once: never, however many they are.
	p = new(pace)
	for i := 0; i < 10; i++ {
		if rest := at(p, time.Duration(i)*3*time.Millisecond, 128); rest != 0 {
			t.Fatal(i, rest)
		}
	}
	// One by one: never for more than an eighth of the while, nor than a millisecond, and then for that.
	p = new(pace)
	last := time.Duration(0)
	for i := 0; i < 1000; i++ {
		now := time.Duration(i) * 50 * time.Microsecond
		if last = at(p, now, 1); last > now/restPart || last > restMost {
			t.Fatal(i, last)
		}
	}
	if last != restMost {
		t.Fatal(last)
	}
	// Behind a gap it begins again.
	if rest := at(p, 100*time.Millisecond, 1); rest != 0 {
		t.Fatal(rest)
	}
}

// Many streams that are told alike, over one connection and one loop, each have all responses, in order, with their own nonces,
// whatever pieces they come in; and so do streams between them that are told something else.
func TestManyStreamsAreToldAlike(t *testing.T) {
	w := newWorld(t)
	var all sync.WaitGroup
	for i := 0; i < 40; i++ {
		i, k, random := i, w.delta(), rand.New(rand.NewSource(int64(i)))
		of := clusterURL
		if i%4 == 3 {
			of = fmt.Sprint("t", i)
		}
		k.asks(`{"typeUrl":"` + of + `"}`)
		text := func(n int) string {
			return fmt.Sprintf(`{"nonce":"%d.%d","removedResources":["%d%s"],"typeUrl":"%s"}`, i%2, n, n, strings.Repeat("x", []int{0, 5000, 10_000, 70_000}[n%4]), of)
		}
		all.Add(2)
		go func() {
			defer all.Done()
			for n := 0; n < 60; n++ {
				frame := append(make([]byte, frameHead), text(n)...)
				putHead(frame, kindDeltaResponse, len(frame)-frameHead)
				if cut := random.Intn(2 * len(frame)); cut < len(frame) && random.Intn(4) == 0 {
					_, _ = k.server.Write(frame[:cut])
					time.Sleep(time.Millisecond)
					frame = frame[cut:]
				}
				_, _ = k.server.Write(frame)
			}
		}()
		go func() {
			defer all.Done()
			for n := 0; n < 60; n++ {
				var in message
				if err := k.client.RecvMsg(&in); err != nil {
					t.Error(err)
					return
				}
				if r := readWire(in.wire); r.nonce != fmt.Sprintf("%d.%d", i%2, n) {
					t.Errorf("%d: %q, not %d", i, r.nonce, n)
					return
				}
			}
		}()
	}
	all.Wait()
}

// A client that takes nothing of short responses holds up its own stream, and no other.
func TestASlowClientOfShortResponses(t *testing.T) {
	w := newWorld(t)
	slow, quick := w.delta(), w.delta()
	text := func(nonce int) string {
		return fmt.Sprintf(`{"nonce":"%d","removedResources":["%s"],"typeUrl":"%s"}`, nonce, strings.Repeat("x", 10_000), clusterURL)
	}
	var sent int32
	go func() {
		for n := 0; n < 4000; n++ {
			if err := writeFrame(slow.server, kindDeltaResponse, []byte(text(n))); err != nil {
				return
			}
			atomic.AddInt32(&sent, 1)
		}
	}()
	for before := int32(-1); before != atomic.LoadInt32(&sent); time.Sleep(200 * time.Millisecond) {
		before = atomic.LoadInt32(&sent)
	}
	if n := atomic.LoadInt32(&sent); n == 4000 {
		t.Fatal("all are under way")
	}
	for n := 0; n < 50; n++ {
		quick.answers(text(n))
		var in message
		if err := quick.client.RecvMsg(&in); err != nil || readWire(in.wire).nonce != fmt.Sprint(n) {
			t.Fatal(n, err)
		}
	}
	// Once it takes them, it has them all.
	for n := 0; n < 4000; n++ {
		var in message
		if err := slow.client.RecvMsg(&in); err != nil || readWire(in.wire).nonce != fmt.Sprint(n) {
			t.Fatal(n, err)
		}
	}
	slow.server.Close()
	slow.ends(codes.Unavailable, "closed the stream")
}

func TestHowManyLoopsThereAre(t *testing.T) {
	if loopsOf(1) != 1 || loopsOf(4) != 1 || loopsOf(5) != 2 {
		t.Error(loopsOf(1), loopsOf(4), loopsOf(5))
	}
}
