package main

import (
	"bytes"
	"context"
	"fmt"
	"math/rand"
	"runtime"
	"strings"
	"sync/atomic"
	"testing"
	"time"

	"google.golang.org/grpc"
	"google.golang.org/grpc/codes"
	"google.golang.org/grpc/stats"
	"google.golang.org/grpc/status"
)

func TestPiecesAreShortAndInMemoryOfTheirOwn(t *testing.T) {
	random := rand.New(rand.NewSource(1))
	for i := 0; i < 300; i++ {
		size := random.Intn(4 * pieceSize)
		if i < 8 {
			size = (i/4+1)*pieceSize - headSize - 2 + i%4
		}
		all := make([]byte, size)
		random.Read(all)
		made := &pieces{more: size + random.Intn(100)}
		if i%3 == 0 {
			made.more = 0
		}
		for left := all; len(left) > 0; {
			n := 1 + random.Intn(len(left))
			made.add(left[:n])
			left = left[n:]
		}
		whole := made.with([]byte("tail"))
		if made.size != size || !bytes.Equal(whole, append(all[:size:size], "tail"...)) || cap(whole) != len(whole) {
			t.Fatal(size, made.size, len(whole))
		}
		for n, it := range made.all {
			want := pieceSize
			if n == 0 {
				want -= headSize
			}
			if len(it) == 0 || cap(it) > pieceSize || (n < len(made.all)-1 && len(it) != want) {
				t.Fatal(size, n, len(it), cap(it))
			}
		}
	}
}

// weights are how long messages are that a client gets, as they come and as they are.
type weights struct{ wire, length int64 }

func (w *weights) TagRPC(ctx context.Context, _ *stats.RPCTagInfo) context.Context   { return ctx }
func (w *weights) TagConn(ctx context.Context, _ *stats.ConnTagInfo) context.Context { return ctx }
func (w *weights) HandleConn(context.Context, stats.ConnStats)                       {}
func (w *weights) HandleRPC(_ context.Context, it stats.RPCStats) {
	if in, ok := it.(*stats.InPayload); ok {
		atomic.StoreInt64(&w.wire, int64(in.WireLength))
		atomic.StoreInt64(&w.length, int64(in.Length))
	}
}

// Messages are the same whether they go in pieces or not, and compressed where the client's are.
func TestMessagesInPiecesAreTheSame(t *testing.T) {
	w := newWorld(t, "--max-message", "40000000", "--identifier", "me")
	if _, ok := preparedField("none"); ok || !w.bridge.inPieces {
		t.Fatal("this version of gRPC takes no pieces")
	}
	of := new(weights)
	conn, err := grpc.Dial(w.conn.Target(), grpc.WithInsecure(), grpc.WithCodec(codec{}), grpc.WithStatsHandler(of),
		grpc.WithDefaultCallOptions(grpc.MaxCallRecvMsgSize(2*maxText)))
	if err != nil {
		t.Fatal(err)
	}
	w.Cleanup(func() { conn.Close() })
	w.conn.Close()
	w.conn = conn
	for _, inPieces := range []bool{true, false} {
		w.bridge.inPieces = inPieces
		for _, v := range []*variant{&w.bridge.sotw, &w.bridge.delta} {
			for _, how := range [][]grpc.CallOption{nil, {grpc.UseCompressor("gzip")}} {
				method := adsMethod + "StreamAggregatedResources"
				if v.delta {
					method = adsMethod + "DeltaAggregatedResources"
				}
				k := w.talk(method, v, how...)
				k.asks(`{"typeUrl":"` + clusterURL + `"}`)
				for _, count := range []int{1, 10, 60, 700} {
					for _, nonce := range []string{"1", "", strings.Repeat("long", 20000)} {
						text := []byte(clustersText(nonce, count, v.delta))
						k.answers(string(text))
						made, _, err := w.bridge.assemble(text, v.delta)
						if err != nil || len(made.bodies) != 1 {
							t.Fatal(err)
						}
						var in message
						want := made.bodies[0].with(appendText(nil, responseNonce, nonce))
						if inPieces && how == nil && len(made.bodies[0].all) == 1 { // (what streams share comes behind their nonces)
							want = append(appendText(nil, responseNonce, nonce), made.bodies[0].all[0]...)
						}
						if err := k.client.RecvMsg(&in); err != nil || !bytes.Equal(in.wire, want) {
							t.Fatal(inPieces, v.delta, count, len(nonce), err, len(in.wire), len(want))
						}
						wire, length := int(atomic.LoadInt64(&of.wire)), int(atomic.LoadInt64(&of.length))
						if length != len(want) || (how == nil) != (wire >= length) {
							t.Fatal(inPieces, count, wire, length, len(want))
						}
					}
				}
				k.cancel()
				k.closes()
			}
		}
	}
	w.hasAllRoom()
}

// slowly has streams opened from now on whose clients take 64 KiB of what they don't read.
func (w *world) slowly() {
	w.Helper()
	conn, err := grpc.Dial(w.conn.Target(), grpc.WithInsecure(), grpc.WithCodec(codec{}), grpc.WithInitialWindowSize(64<<10),
		grpc.WithInitialConnWindowSize(16<<20), grpc.WithDefaultCallOptions(grpc.MaxCallRecvMsgSize(2*maxText)))
	if err != nil {
		w.Fatal(err)
	}
	w.Cleanup(func() { conn.Close() })
	w.conn.Close()
	w.conn = conn
}

// sending waits until clients are sent so many long responses, and answers what the last of them is.
func (w *world) sending(count int) (a *assembled) {
	w.Helper()
	found := 0
	for end := time.Now().Add(patience / 3); time.Now().Before(end); time.Sleep(5 * time.Millisecond) {
		found = 0
		for _, r := range []*room{w.bridge.rooms.small, w.bridge.rooms.large} {
			r.mutex.Lock()
			for it, n := range r.shared {
				a, found = it, found+n
			}
			r.mutex.Unlock()
		}
		if found == count {
			return a
		}
	}
	w.Fatalf("%d are sent long responses, and not %d", found, count)
	return nil
}

// hasAllRoom waits until no place is held.
func (w *world) hasAllRoom() {
	w.Helper()
	rooms := w.bridge.rooms
	for end := time.Now().Add(patience); ; time.Sleep(5 * time.Millisecond) {
		left := 0
		for _, r := range []*room{rooms.small, rooms.large} {
			r.mutex.Lock()
			left += r.left
			r.mutex.Unlock()
		}
		if left == smallRoom+largeRoom {
			return
		}
		if time.Now().After(end) {
			w.Fatal(rooms.small.left, rooms.large.left)
		}
	}
}

func TestRoomIsGivenBack(t *testing.T) {
	w := newWorld(t)
	for i := 0; i < 20; i++ {
		k := w.delta()
		k.asks(`{"typeUrl":"` + clusterURL + `"}`)
		k.answers(clustersText("1", 300+2000*(i%2), true))
		if i%4 < 2 {
			k.takes()
		}
		k.cancel()
		k.closes()
	}
	// (a response that is refused, and a stream that ends within a text)
	k := w.delta()
	k.asks(`{"typeUrl":"` + clusterURL + `"}`)
	k.answers(strings.Replace(clustersText("1", 300, true), "altStatName", "noSuch", 1))
	k.gets()
	k.answers(`{"nonce":"2","typeUrl":"` + clusterURL + `"}`)
	k.takes()
	w.hasAllRoom()
	_, _ = k.server.Write([]byte("\x00\x10\x00\x00\x04{"))
	k.server.Close()
	k.ends(codes.Unavailable, "within a frame")
	w.hasAllRoom()
}

// inUse is how many bytes of the heap are in use.
func inUse() int {
	var stats runtime.MemStats
	for i := 0; i < 3; i++ {
		runtime.GC()
	}
	runtime.ReadMemStats(&stats)
	return int(stats.HeapAlloc)
}

// Streams that are told alike but for the nonce hold no copies while their clients don't read.
func TestSlowClientsWithNoncesOfTheirOwnShare(t *testing.T) {
	w := newWorld(t)
	w.slowly()
	const streams = 40
	before := inUse()
	text := clustersText("N", 5000, true)
	var all []*talk
	for i := 0; i < streams; i++ {
		k := w.delta()
		k.asks(`{"typeUrl":"` + clusterURL + `"}`)
		k.answers(strings.Replace(text, `"N"`, fmt.Sprintf(`"n%d"`, i), 1))
		all = append(all, k)
	}
	size := w.sending(streams).size()
	if more := inUse() - before; size < 2<<20 || more > 3*size+streams<<18 {
		t.Fatalf("%d clients of %d bytes take %d", streams, size, more)
	}
	w.bridge.rooms.large.hasLeft(t, largeRoom-size-(10*2+(streams-10)*3))
	for i, k := range all {
		var in message
		if err := k.client.RecvMsg(&in); err != nil {
			t.Fatal(err)
		}
		if got := readWire(in.wire); got.nonce != fmt.Sprint("n", i) || len(got.resources) != 5000 {
			t.Fatal(i, got.nonce)
		}
	}
	w.hasAllRoom()
	// (it was found as long as it was sent, though what is kept has no room for it)
	if of := w.bridge.shared; of.made != 1 || len(of.held) != 0 || of.bytes != 0 {
		t.Fatal(of.made, len(of.held), of.bytes)
	}
}

// A client that takes nothing gives its place up where another waits. Then nothing of the response is left.
func TestAClientThatTakesNothingHoldsUpNobodyForGood(t *testing.T) {
	w := newWorld(t)
	w.slowly()
	w.bridge.rooms.large = newRoom(5 << 20)
	w.bridge.rooms.large.hold = 100 * time.Millisecond
	slow, quick := w.delta(), w.delta()
	slow.asks(`{"typeUrl":"` + clusterURL + `"}`)
	slow.answers(clustersText("1", 5000, true))
	gone := make(chan struct{})
	runtime.SetFinalizer(w.sending(1).bodies[0], func(*pieces) { close(gone) })
	time.Sleep(300 * time.Millisecond)
	if gaveUp(w.held()) {
		t.Fatal("nobody waits")
	}
	quick.asks(`{"typeUrl":"` + clusterURL + `"}`)
	quick.answers(clustersText("2", 5001, true))
	var in message
	if err := quick.client.RecvMsg(&in); err != nil || len(readWire(in.wire).resources) != 5001 {
		t.Fatal(err)
	}
	w.tells("slow clients: a stream of 127.0.0.1:")
	w.hasNumber("bridge_slow_clients_total 1\n", `bridge_streams{variant="delta"} 1`)
	slow.closes()
	for end := time.Now().Add(patience); ; {
		runtime.GC()
		select {
		case <-gone:
		case <-time.After(10 * time.Millisecond):
			if time.Now().After(end) {
				t.Fatal("the response is still held")
			}
			continue
		}
		break
	}
	// (it breaks off within a message, which clients tell in their own ways)
	if err := slow.client.RecvMsg(&in); status.Code(err) != codes.Internal && status.Code(err) != codes.ResourceExhausted {
		t.Fatal(err)
	}
	w.bridge.rooms.large.hasLeft(t, 5<<20)
}

// held is the place that is held longest in the room for large texts.
func (w *world) held() *place {
	r := w.bridge.rooms.large
	r.mutex.Lock()
	defer r.mutex.Unlock()
	return r.held.Front().Value.(*place)
}

// A status comes behind a message of which the client has a part.
func TestAStatusComesBehindAWholeMessage(t *testing.T) {
	for _, stops := range []bool{true, false} {
		w := newWorld(t)
		w.slowly()
		k := w.delta()
		k.asks(`{"typeUrl":"` + clusterURL + `"}`)
		k.answers(clustersText("1", 5000, true))
		w.sending(1)
		if stops {
			close(w.bridge.stopping)
		} else {
			k.sends(`{}`)
		}
		k.closes()
		time.Sleep(50 * time.Millisecond)
		var in message
		if err := k.client.RecvMsg(&in); err != nil || len(readWire(in.wire).resources) != 5000 {
			t.Fatal(err)
		}
		if stops {
			k.ends(codes.Unavailable, "stopping")
		} else {
			k.ends(codes.InvalidArgument, "type_url")
		}
		w.hasAllRoom()
	}
}

// A stream that ends while it waits for room leaves the line.
func TestAStreamThatEndsDoesntWaitForRoom(t *testing.T) {
	w := newWorld(t)
	r := w.bridge.rooms.small
	all := newPlace(nil)
	all.take(r, smallRoom)
	k := w.delta()
	k.asks(`{"typeUrl":"` + clusterURL + `"}`)
	k.answers(clustersText("1", 300, true))
	line := func(count int) {
		t.Helper()
		for end := time.Now().Add(patience); ; time.Sleep(time.Millisecond) {
			r.mutex.Lock()
			waiting := r.waiting.Len()
			r.mutex.Unlock()
			if waiting == count {
				return
			} else if time.Now().After(end) {
				t.Fatal(waiting)
			}
		}
	}
	line(1)
	k.cancel()
	line(0)
	k.closes()
	all.leave()
	w.hasAllRoom()
}
