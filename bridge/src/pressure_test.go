package main

import (
	"context"
	"errors"
	"os"
	"strings"
	"sync/atomic"
	"testing"
	"time"

	"google.golang.org/grpc"
	"google.golang.org/grpc/codes"
	"google.golang.org/grpc/health/grpc_health_v1"
)

// mostHeld is how many bytes may be under way where nobody takes them: what the kernel's sockets hold, and a message
// at each step.
const mostHeld = 24 << 20

func TestAClientThatDoesntReadHoldsUpTheServer(t *testing.T) {
	k := newWorld(t).sotw()
	text := []byte(`{"nonce":"` + strings.Repeat("x", 1<<20) + `"}`)
	_ = k.server.SetWriteDeadline(time.Now().Add(time.Second))
	sent := 0
	for ; sent < 2*mostHeld; sent += len(text) {
		if err := writeFrame(k.server, kindResponse, text); errors.Is(err, os.ErrDeadlineExceeded) {
			break
		} else if err != nil {
			t.Fatal(err)
		}
	}
	if sent > mostHeld {
		t.Fatalf("%d bytes are under way", sent)
	}
	// (another stream over the same connection isn't held up)
	other := k.delta()
	other.asks(`{"typeUrl":"t"}`)
	other.answers(`{"nonce":"1"}`)
	other.wants(other.takes(), `{"nonce":"1"}`)
}

func TestAServerThatDoesntReadHoldsUpTheClient(t *testing.T) {
	k := newWorld(t).sotw()
	const all = 3 * mostHeld / 2 >> 20
	wire := append([]byte("\x22\x01t\x0a\x80\x80\x40"), strings.Repeat("x", 1<<20)...)
	var sent int32
	ended := make(chan error, 1)
	go func() {
		for i := 0; i < all; i++ {
			if err := k.client.SendMsg(&message{wire}); err != nil {
				ended <- err
				return
			}
			atomic.AddInt32(&sent, 1)
		}
		ended <- nil
	}()
	time.Sleep(time.Second)
	if n := atomic.LoadInt32(&sent); n > mostHeld>>20 {
		t.Fatalf("%d MiB are under way", n)
	}
	// Meanwhile responses go on, and once the server reads, the requests that waited come.
	k.answers(`{"nonce":"1"}`)
	k.wants(k.takes(), `{"nonce":"1"}`)
	for i := 0; i < all; i++ {
		k.gets()
	}
	if err := <-ended; err != nil {
		t.Fatal(err)
	}
}

func TestMessagesThatAreTooLong(t *testing.T) {
	w := newWorld(t, "--max-message", "40000000")
	k := w.sotw()
	k.answers(`{"nonce":"` + strings.Repeat("x", maxText-12) + `"}`)
	var in message
	if err := k.client.RecvMsg(&in); err != nil || len(in.wire) < maxText-12 {
		t.Fatal(err, len(in.wire))
	}
	k.answers(`{"nonce":"` + strings.Repeat(`\n`, maxText/2-7) + `"}`)
	if err := k.client.RecvMsg(&in); err != nil || len(in.wire) < maxText/2-7 {
		t.Fatal(err, len(in.wire))
	}
	_ = k.client.SendMsg(&message{make([]byte, maxText+1)})
	k.ends(codes.ResourceExhausted, "larger than max")
	k.closes()
	// A byte 0 is six in JSON.
	k = w.sotw()
	_ = k.client.SendMsg(&message{append([]byte("\x22\x01t\x0a\x80\x80\x80\x02"), make([]byte, 4<<20)...)})
	k.ends(codes.ResourceExhausted, "longer than a frame")
	k.closes()
}

func TestLimitsOfOnesOwn(t *testing.T) {
	w := newWorld(t, "--max-request", "1000", "--max-message", "4096", "--max-streams", "1")
	k := w.sotw()
	k.asks(`{"typeUrl":"t","versionInfo":"` + strings.Repeat("x", 980) + `"}`)
	k.answers(`{"nonce":"` + strings.Repeat("x", 490) + `"}`)
	k.takes()
	w.refusesOneMore()
	k.sends(`{"versionInfo":"` + strings.Repeat("x", 1000) + `"}`)
	k.ends(codes.ResourceExhausted, "1000")
	k.closes()
	// (the client may have its status a moment before the stream's place is free)
	for end := time.Now().Add(patience); atomic.LoadInt32(&w.bridge.streams) > 0 && time.Now().Before(end); {
		time.Sleep(time.Millisecond)
	}
	w.delta()
}

// refusesOneMore opens a stream for which there is no room.
func (w *world) refusesOneMore() {
	w.Helper()
	ctx, cancel := context.WithTimeout(context.Background(), patience)
	defer cancel()
	client, err := w.conn.NewStream(ctx, &grpc.StreamDesc{ServerStreams: true, ClientStreams: true}, adsMethod+"DeltaAggregatedResources")
	if err != nil {
		w.Fatal(err)
	}
	(&talk{world: w, client: client}).ends(codes.ResourceExhausted, "--max-streams")
	w.hasNumber("bridge_streams_turned_away_total 1\n")
	state := health{w.bridge}.state(ctx, services[0].fullName())
	if state != grpc_health_v1.HealthCheckResponse_NOT_SERVING {
		w.Fatal(state)
	}
}

func TestNamesThatAreTooMany(t *testing.T) {
	k := newWorld(t).sotw()
	names := `["` + strings.Repeat("x", mostNames/3) + `"]`
	for _, of := range []string{"a", "b", "b", "a"} {
		k.asks(`{"typeUrl":"` + of + `","resourceNames":` + names + `}`)
	}
	k.sends(`{"typeUrl":"c","resourceNames":` + names + `}`)
	k.ends(codes.ResourceExhausted, "names of more than")
}
