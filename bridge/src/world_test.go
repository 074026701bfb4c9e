package main

import (
	"bytes"
	"context"
	"encoding/json"
	"fmt"
	"io"
	"net"
	"reflect"
	"strings"
	"sync"
	"testing"
	"time"

	"google.golang.org/grpc"
	"google.golang.org/grpc/codes"
	"google.golang.org/grpc/status"
	"google.golang.org/protobuf/encoding/protojson"
	"google.golang.org/protobuf/proto"
	"google.golang.org/protobuf/reflect/protoreflect"
	"google.golang.org/protobuf/types/dynamicpb"
)

const (
	clusterURL = typePrefix + "config.cluster.v3.Cluster"
	routeURL   = typePrefix + "config.route.v3.RouteConfiguration"
	adsMethod  = "/envoy.service.discovery.v3.AggregatedDiscoveryService/"
	patience   = 60 * time.Second
)

var testTypes = func() *types {
	small, err := readTypes(smallSet)
	if err != nil {
		panic(err)
	}
	return small
}()

// lines keeps what is told on the error output.
type lines struct {
	mutex sync.Mutex
	text  bytes.Buffer
}

func (l *lines) Write(p []byte) (int, error) {
	l.mutex.Lock()
	defer l.mutex.Unlock()
	return l.text.Write(p)
}

func (l *lines) String() string {
	l.mutex.Lock()
	defer l.mutex.Unlock()
	return l.text.String()
}

// A world is a bridge between a client and a control plane that the test plays.
type world struct {
	*testing.T
	control net.Listener
	bridge  *bridge
	grpc    *grpc.Server
	conn    *grpc.ClientConn
	told    *lines
}

func newWorld(t *testing.T, words ...string) *world {
	control, err := net.Listen("tcp", "127.0.0.1:0")
	if err != nil {
		t.Fatal(err)
	}
	listener, err := net.Listen("tcp", "127.0.0.1:0")
	if err != nil {
		t.Fatal(err)
	}
	w := &world{T: t, control: control, told: new(lines)}
	w.bridge = newBridge(control.Addr().String(), testTypes, testTypes, 1<<20, newTeller(w.told))
	o, err := readOptions(words, io.Discard)
	if err != nil {
		t.Fatal(err)
	}
	w.grpc = w.bridge.serving(o)
	go func() { _ = w.grpc.Serve(listener) }()
	w.conn, err = grpc.Dial(listener.Addr().String(), grpc.WithInsecure(), grpc.WithCodec(codec{}),
		grpc.WithDefaultCallOptions(grpc.MaxCallRecvMsgSize(2*maxText), grpc.MaxCallSendMsgSize(2*maxText)))
	if err != nil {
		t.Fatal(err)
	}
	t.Cleanup(func() {
		w.conn.Close()
		w.grpc.Stop()
		control.Close()
	})
	return w
}

// A talk is one stream, with both of its ends in the test's hands.
type talk struct {
	*world
	variant *variant
	client  grpc.ClientStream
	cancel  context.CancelFunc
	server  net.Conn
	frames  *frameReader
}

func (w *world) talk(method string, v *variant, options ...grpc.CallOption) *talk {
	w.Helper()
	ctx, cancel := context.WithTimeout(context.Background(), patience)
	w.Cleanup(cancel)
	client, err := w.conn.NewStream(ctx, &grpc.StreamDesc{ServerStreams: true, ClientStreams: true}, method, options...)
	if err != nil {
		w.Fatal(err)
	}
	_ = w.control.(*net.TCPListener).SetDeadline(time.Now().Add(patience))
	server, err := w.control.Accept()
	if err != nil {
		w.Fatal(err)
	}
	w.Cleanup(func() { server.Close() })
	_ = server.SetDeadline(time.Now().Add(patience))
	return &talk{w, v, client, cancel, server, newFrameReader(server)}
}

func (w *world) sotw() *talk {
	w.Helper()
	return w.talk(adsMethod+"StreamAggregatedResources", &w.bridge.sotw)
}

func (w *world) delta() *talk {
	w.Helper()
	return w.talk(adsMethod+"DeltaAggregatedResources", &w.bridge.delta)
}

// asks has the client send a request, and answers what the server gets.
func (k *talk) asks(text string) map[string]interface{} {
	k.Helper()
	k.sends(text)
	return k.gets()
}

func (k *talk) sends(text string) {
	k.Helper()
	made := k.variant.message.New().Interface()
	if err := protojson.Unmarshal([]byte(text), made); err != nil {
		k.Fatal(err)
	}
	wire, _ := proto.Marshal(made)
	if err := k.client.SendMsg(&message{wire}); err != nil {
		k.Fatal(err)
	}
}

// gets is the next request that the server gets.
func (k *talk) gets() map[string]interface{} {
	k.Helper()
	kind, text, err := k.frames.next()
	if err != nil || kind != k.variant.request {
		k.Fatal(kind, err)
	}
	var got map[string]interface{}
	if err := json.Unmarshal(text, &got); err != nil {
		k.Fatal(err)
	}
	return got
}

// tells waits until a line was told that has a part, and answers all lines.
func (w *world) tells(part string) string {
	w.Helper()
	for end := time.Now().Add(patience); !strings.Contains(w.told.String(), part); time.Sleep(5 * time.Millisecond) {
		if time.Now().After(end) {
			w.Fatalf("%q wasn't told: %s", part, w.told)
		}
	}
	return w.told.String()
}

// wants compares JSON.
func (w *world) wants(got interface{}, want string) {
	w.Helper()
	var read interface{}
	if err := json.Unmarshal([]byte(want), &read); err != nil {
		w.Fatal(err)
	}
	if !reflect.DeepEqual(got, read) {
		w.Fatalf("got  %v\nwant %v", got, read)
	}
}

// answers has the server send a response.
func (k *talk) answers(text string) {
	k.Helper()
	if err := writeFrame(k.server, k.variant.response, []byte(text)); err != nil {
		k.Fatal(err)
	}
}

// takes is the next response that the client takes, as JSON.
func (k *talk) takes() interface{} {
	k.Helper()
	var in message
	if err := k.client.RecvMsg(&in); err != nil {
		k.Fatal(err)
	}
	name := protoreflect.FullName("envoy.service.discovery.v3.DiscoveryResponse")
	if k.variant.delta {
		name = "envoy.service.discovery.v3.DeltaDiscoveryResponse"
	}
	found, err := testTypes.known.FindMessageByName(name)
	if err != nil {
		k.Fatal(err)
	}
	made := dynamicpb.NewMessage(found.Descriptor())
	if err := proto.Unmarshal(in.wire, made); err != nil {
		k.Fatal(err)
	}
	text, err := testTypes.jsonOf(made)
	if err != nil {
		k.Fatal(err)
	}
	var got interface{}
	_ = json.Unmarshal(text, &got)
	return got
}

// ends is the status that the client's stream ends with.
func (k *talk) ends(code codes.Code, part string) {
	k.Helper()
	var in message
	err := k.client.RecvMsg(&in)
	if status.Code(err) != code || !strings.Contains(fmt.Sprint(err), part) {
		k.Fatalf("ended by %v, not by %v with %q", err, code, part)
	}
}

// closes waits until the bridge closes the framed stream.
func (k *talk) closes() {
	k.Helper()
	if _, _, err := k.frames.next(); err == nil {
		k.Fatal("one more request")
	}
}
