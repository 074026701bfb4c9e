package main

import (
	"context"
	"fmt"
	"net"
	"os"
	"os/exec"
	"regexp"
	"strconv"
	"strings"
	"sync/atomic"
	"testing"
	"time"

	"google.golang.org/grpc"
	"google.golang.org/grpc/codes"
	"google.golang.org/grpc/status"
	"google.golang.org/protobuf/encoding/protowire"
)

// What bridge/memory runs: how much memory a bridge takes at most while many streams of gRPC settle on many clusters. The
// control plane is the program that BRIDGE_MEMORY names, or where it is "stand-in" one that tells all clusters at once, the
// bridges are those of BRIDGE_PROGRAMS, separated by spaces, and BRIDGE_BENCH_STREAMS is how many the streams are (1,000). With
// BRIDGE_NONCES the stand-in gives each stream a nonce of its own. With BRIDGE_SLOW so many clients of the stand-in, each with a
// connection of its own, take nothing of a response of 13.5 MB: first all of the same, then each of another.
const (
	memoryConnections = 20
	slowBytes         = 13400 // of a cluster
	slowTime          = 40 * time.Second
)

func TestMemory(t *testing.T) {
	program := os.Getenv("BRIDGE_MEMORY")
	if program == "" {
		t.Skip("bridge/memory runs it")
	}
	streams, err := strconv.Atoi(os.Getenv("BRIDGE_BENCH_STREAMS"))
	if err != nil {
		streams = 1000
	}
	port, rest := freePort(t), freePort(t)
	b := &bench{T: t, streams: streams, versions: map[string]string{}}
	if program == "stand-in" {
		newSettler(t, "127.0.0.1:"+port)
	} else {
		serve := exec.Command(program, "serve", "--replicas", "1", "--port", port, "--rest-port", rest)
		b.input, _ = serve.StdinPipe()
		b.starts(serve, "streams on")
		for i := 0; i < benchClusters; i++ {
			b.put(fmt.Sprintf("c%04d", i))
		}
		b.settle("http://127.0.0.1:" + rest + "/v3/discovery:clusters")
	}
	if slow, err := strconv.Atoi(os.Getenv("BRIDGE_SLOW")); err == nil {
		b.slow(slow)
		return
	}
	fmt.Printf("%d streams settle on %d clusters of %d bytes; the most memory that the bridge had:\n", streams, benchClusters, benchBytes)
	for _, delta := range []bool{true, false} {
		for _, it := range strings.Fields(os.Getenv("BRIDGE_PROGRAMS")) {
			bridge := exec.Command(it, "--listen", "127.0.0.1:0", "--server", "127.0.0.1:"+port)
			line := b.starts(bridge, "listening on")
			begun := time.Now()
			b.settles(strings.Fields(line)[3], delta)
			took := time.Since(begun)
			fmt.Printf("delta %v, %s: %d MB, %.1f s\n", delta, it, mostMemory(t, bridge.Process.Pid)/1000, took.Seconds())
			_ = bridge.Process.Kill()
		}
	}
}

// settles opens streams at a bridge, and waits until each was told all clusters and accepted them.
func (b *bench) settles(at string, delta bool) {
	ctx, cancel := context.WithCancel(context.Background())
	defer cancel()
	done := make(chan error, b.streams)
	for i := 0; i < memoryConnections; i++ {
		conn, err := grpc.Dial(at, grpc.WithInsecure(), grpc.WithCodec(codec{}))
		if err != nil {
			b.Fatal(err)
		}
		defer conn.Close()
		for n := i; n < b.streams; n += memoryConnections {
			go func() {
				err := settle(ctx, conn, delta)
				for i := 0; i < 50 && status.Code(err) == codes.Unavailable; i++ {
					time.Sleep(100 * time.Millisecond) // (many streams at once may be too many for who accepts them)
					err = settle(ctx, conn, delta)
				}
				done <- err
			}()
		}
	}
	late := time.After(4 * benchPatience)
	for i := 0; i < b.streams; i++ {
		select {
		case err := <-done:
			if err != nil {
				b.Fatal(err)
			}
		case <-late:
			b.Fatalf("%d streams settled", i)
		}
	}
}

func settle(ctx context.Context, conn *grpc.ClientConn, delta bool) error {
	method, request := "StreamAggregatedResources", appendText(nil, 4, clusterURL)
	if delta {
		method, request = "DeltaAggregatedResources", appendText(nil, 2, clusterURL)
	}
	stream, err := conn.NewStream(ctx, &grpc.StreamDesc{ServerStreams: true, ClientStreams: true}, adsMethod+method)
	if err != nil {
		return err
	}
	for count := 0; count < benchClusters; {
		if err := stream.SendMsg(&message{request}); err != nil {
			return err
		}
		var in message
		if err := stream.RecvMsg(&in); err != nil {
			return err
		}
		version, nonce := "", ""
		count = 0
		wireFields(in.wire, func(field protowire.Number, value []byte) {
			switch field {
			case responseVersion:
				version = string(value)
			case responseNonce:
				nonce = string(value)
			case responseResources:
				count++
			}
		})
		if request = appendText(appendText(appendText(nil, 1, version), 4, clusterURL), 5, nonce); delta {
			request = appendText(appendText(nil, 2, clusterURL), 6, nonce)
		}
	}
	return stream.SendMsg(&message{request})
}

// slow measures bridges whose clients take nothing of a long response.
func (b *bench) slow(count int) {
	text := strings.ReplaceAll(clustersText("N", benchClusters, false), strings.Repeat("x", 500), strings.Repeat("x", slowBytes))
	for _, alike := range []bool{true, false} {
		for _, it := range strings.Fields(os.Getenv("BRIDGE_PROGRAMS")) {
			control, err := net.Listen("tcp", "127.0.0.1:0")
			if err != nil {
				b.Fatal(err)
			}
			var told int32
			go func() {
				for n := 0; ; n++ {
					conn, err := control.Accept()
					if err != nil {
						return
					}
					of := strings.Replace(text, `"N"`, fmt.Sprintf(`"%d"`, n), 1)
					if !alike {
						of = strings.TrimSuffix(of, `"v"}`) + fmt.Sprintf(`"v%d"}`, n)
					}
					go func() {
						if writeFrame(conn, kindResponse, []byte(of)) == nil {
							atomic.AddInt32(&told, 1)
						}
					}()
				}
			}()
			bridge := exec.Command(it, "--listen", "127.0.0.1:0", "--server", control.Addr().String(), "--max-message", "20000000")
			line := b.starts(bridge, "listening on")
			for i := 0; i < count; i++ {
				conn, err := grpc.Dial(strings.Fields(line)[3], grpc.WithInsecure(), grpc.WithCodec(codec{}), grpc.WithInitialWindowSize(64<<10),
					grpc.WithInitialConnWindowSize(64<<10), grpc.WithDefaultCallOptions(grpc.MaxCallRecvMsgSize(2*maxText)))
				if err != nil {
					b.Fatal(err)
				}
				defer conn.Close()
				stream, err := conn.NewStream(context.Background(), &grpc.StreamDesc{ServerStreams: true, ClientStreams: true},
					adsMethod+"StreamAggregatedResources")
				if err != nil {
					b.Fatal(err)
				}
				if err := stream.SendMsg(&message{appendText(nil, 4, clusterURL)}); err != nil {
					b.Fatal(err)
				}
			}
			begun := time.Now()
			for time.Since(begun) < slowTime && atomic.LoadInt32(&told) < int32(count) {
				time.Sleep(100 * time.Millisecond)
			}
			took := time.Since(begun)
			time.Sleep(time.Second)
			fmt.Printf("%d slow clients of %d bytes, alike %v, %s: %d MB, after %.1f s the bridge has read %d\n", count, len(text), alike, it,
				mostMemory(b.T, bridge.Process.Pid)/1000, took.Seconds(), atomic.LoadInt32(&told))
			_ = bridge.Process.Kill()
			control.Close()
		}
	}
}

// newSettler serves framed streams, each of which is told all clusters once.
func newSettler(t *testing.T, at string) {
	listener, err := net.Listen("tcp", at)
	if err != nil {
		t.Fatal(err)
	}
	t.Cleanup(func() { listener.Close() })
	texts := map[byte]string{kindDeltaRequest: clustersText("N", benchClusters, true), kindRequest: clustersText("N", benchClusters, false)}
	streams := int32(0)
	serve := func(conn net.Conn) {
		nonce := "1"
		if n := atomic.AddInt32(&streams, 1); os.Getenv("BRIDGE_NONCES") != "" {
			nonce = strconv.Itoa(int(n))
		}
		defer conn.Close()
		frames := newFrameReader(conn)
		for told := false; ; told = true {
			kind, _, err := frames.next()
			if err != nil {
				return
			}
			if !told {
				_ = writeFrame(conn, kind+1, []byte(strings.Replace(texts[kind], `"N"`, `"`+nonce+`"`, 1)))
			}
		}
	}
	go func() {
		for {
			conn, err := listener.Accept()
			if err != nil {
				return
			}
			go serve(conn)
		}
	}()
}

// mostMemory is how many kilobytes a process had at most.
func mostMemory(t *testing.T, pid int) int {
	text, err := os.ReadFile(fmt.Sprintf("/proc/%d/status", pid))
	if err != nil {
		t.Fatal(err)
	}
	found := regexp.MustCompile(`VmHWM:\s+(\d+) kB`).FindSubmatch(text)
	most, _ := strconv.Atoi(string(found[1]))
	return most
}
