package main

import (
	"context"
	"fmt"
	"net"
	"strings"
	"sync"
	"sync/atomic"
	"testing"
	"time"

	"google.golang.org/grpc/codes"
	"google.golang.org/grpc/health/grpc_health_v1"
)

// accepts counts the connections that a listener takes, and closes each at once, or holds it.
func accepts(t *testing.T, at net.Listener, hold bool) *int32 {
	count := new(int32)
	go func() {
		for {
			conn, err := at.Accept()
			if err != nil {
				return
			}
			atomic.AddInt32(count, 1)
			if hold {
				t.Cleanup(func() { conn.Close() })
			} else {
				conn.Close()
			}
		}
	}()
	return count
}

func listens(t *testing.T) net.Listener {
	at, err := net.Listen("tcp", "127.0.0.1:0")
	if err != nil {
		t.Fatal(err)
	}
	t.Cleanup(func() { at.Close() })
	return at
}

func TestManyWhoAskForHealthShareOneTry(t *testing.T) {
	for _, hold := range []bool{true, false} {
		at := listens(t)
		count := accepts(t, at, hold)
		r := &reach{server: at.Addr().String()}
		var all sync.WaitGroup
		for i := 0; i < 50; i++ {
			all.Add(1)
			go func() {
				defer all.Done()
				if r.holds(context.Background()) != hold {
					t.Error("it holds: ", !hold)
				}
			}()
		}
		all.Wait()
		if n := atomic.LoadInt32(count); n != 1 {
			t.Fatal(n)
		}
		r.doubt()
		if r.holds(context.Background()) != hold || atomic.LoadInt32(count) != 1 {
			t.Fatal("one more try at once")
		}
		r.tried = time.Time{}
		if r.holds(context.Background()) != hold || atomic.LoadInt32(count) != 2 {
			t.Fatal(atomic.LoadInt32(count))
		}
	}
	gone := listens(t)
	gone.Close()
	if (&reach{server: gone.Addr().String()}).holds(context.Background()) {
		t.Fatal("nobody listens")
	}
}

func TestStreamsShowWhetherTheServerTakesThem(t *testing.T) {
	w := newWorld(t)
	h := health{w.bridge}
	state := func() grpc_health_v1.HealthCheckResponse_ServingStatus {
		return h.state(context.Background(), services[0].fullName())
	}
	k := w.delta()
	k.asks(`{"typeUrl":"t"}`)
	k.answers(`{"nonce":"1"}`)
	k.takes()
	// (no stream is opened for it: the test accepts none)
	if it := state(); it != grpc_health_v1.HealthCheckResponse_SERVING {
		t.Fatal(it)
	}
	w.control.Close()
	k.server.Close()
	k.ends(codes.Unavailable, "closed")
	if it := state(); it != grpc_health_v1.HealthCheckResponse_NOT_SERVING {
		t.Fatal(it)
	}
}

func TestARequestWithoutAType(t *testing.T) {
	w := newWorld(t)
	for _, k := range []*talk{w.sotw(), w.delta()} {
		k.sends(`{"node":{"id":"n"}}`)
		k.ends(codes.InvalidArgument, "type_url")
	}
}

func TestResponsesNameTheControlPlane(t *testing.T) {
	w := newWorld(t, "--identifier", "me")
	for _, k := range []*talk{w.sotw(), w.delta()} {
		k.answers(`{"nonce":"1"}`)
		k.wants(k.takes(), `{"nonce":"1","controlPlane":{"identifier":"me"}}`)
	}
}

func TestConnectionsThatAreOldEnd(t *testing.T) {
	w := newWorld(t, "--max-connection-age", "300ms", "--max-connection-age-grace", "300ms")
	begun := time.Now()
	w.delta().ends(codes.Unavailable, "")
	if took := time.Since(begun); took < 500*time.Millisecond || took > 10*time.Second {
		t.Fatal(took)
	}
	w.delta()
}

func TestAnEmptyNeedsNoValue(t *testing.T) {
	const empty = `"@type":"type.googleapis.com/google.protobuf.Empty"`
	form := `{"@type":"` + clusterURL + `","metadata":{"filterMetadata":{"s":{"x":{` + empty + `}}}},"typedExtensionProtocolOptions":{"a":{%s},` +
		`"b":{"@type":"type.googleapis.com/google.protobuf.Any","value":{ %s }}}}`
	left, err := testTypes.wireOf([]byte(fmt.Sprintf(form, empty, empty+"\n\t")))
	if err != nil {
		t.Fatal(err)
	}
	given, err := testTypes.wireOf([]byte(fmt.Sprintf(form, empty+`,"value":{}`, `"value":{},`+empty)))
	if err != nil || string(left) != string(given) {
		t.Fatal(err)
	}
	for _, bad := range []string{empty + `,"x":1`, empty + `,"value":{"x":1}`, `"@type":"type.googleapis.com/google.protobuf.Duration"`} {
		if _, err := testTypes.wireOf([]byte(fmt.Sprintf(form, bad, empty))); err == nil || !strings.Contains(err.Error(), "typedExtensionProtocolOptions.a") {
			t.Errorf("%s: %v", bad, err)
		}
	}
	if _, err := testTypes.wireOf([]byte(`{` + empty + `}`)); err != nil {
		t.Error(err)
	}
}
