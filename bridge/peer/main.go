// Command peer is what bridge/bench compares the bridge with: an xDS server in Go of the ordinary kind, over gRPC alone. It has
// one snapshot. Each stream waits for it to change by a watch, and is then sent a response of its own, which is made and
// marshalled for it. It holds one cluster, refuses nothing, has no groups and compares no versions of other clusters, so that
// it is the least that such a server does.
package main

import (
	"bufio"
	"fmt"
	"net"
	"os"
	"strconv"
	"strings"
	"sync"

	"google.golang.org/grpc"
	"google.golang.org/protobuf/proto"
	"google.golang.org/protobuf/types/known/anypb"

	"peer/peer"
)

const (
	clusterURL = "type.googleapis.com/envoy.config.cluster.v3.Cluster"
	bodyBytes  = 600
)

// A snapshot is what all streams are to have.
type snapshot struct {
	version string
	body    *anypb.Any
}

// A cache has the last snapshot, and the watches of streams for the next.
type cache struct {
	mutex   sync.Mutex
	last    *snapshot
	watches map[chan<- *snapshot]bool
}

// watch has a stream told the snapshot once it is another than it has; it is told once.
func (c *cache) watch(has string, to chan<- *snapshot) {
	c.mutex.Lock()
	defer c.mutex.Unlock()
	if c.last != nil && c.last.version != has {
		to <- c.last
		return
	}
	c.watches[to] = true
}

func (c *cache) leave(to chan<- *snapshot) {
	c.mutex.Lock()
	defer c.mutex.Unlock()
	delete(c.watches, to)
}

// set has a new snapshot, and tells it to all watches.
func (c *cache) set(version string) {
	made := &snapshot{version, &anypb.Any{TypeUrl: clusterURL, Value: []byte(strings.Repeat("x", bodyBytes-len(clusterURL)))}}
	c.mutex.Lock()
	defer c.mutex.Unlock()
	c.last = made
	for to := range c.watches {
		to <- made
		delete(c.watches, to)
	}
}

// serve serves one stream.
func (c *cache) serve(_ interface{}, stream grpc.ServerStream) error {
	requests, told := make(chan *peer.DeltaDiscoveryRequest), make(chan *snapshot, 1)
	failed := make(chan error, 1)
	go func() {
		for {
			in := new(peer.DeltaDiscoveryRequest)
			if err := stream.RecvMsg(in); err != nil {
				failed <- err
				return
			}
			select {
			case requests <- in:
			case <-stream.Context().Done():
				return
			}
		}
	}()
	defer c.leave(told)
	has, nonce := "", 0
	for {
		select {
		case in := <-requests:
			if in.ResponseNonce == "" || in.ResponseNonce == strconv.Itoa(nonce) {
				c.watch(has, told)
			}
		case it := <-told:
			nonce++
			has = it.version
			err := stream.SendMsg(&peer.DeltaDiscoveryResponse{
				SystemVersionInfo: it.version,
				TypeUrl:           clusterURL,
				Nonce:             strconv.Itoa(nonce),
				Resources:         []*peer.Resource{{Name: "c0500", Version: it.version, Resource: it.body}},
				ControlPlane:      &peer.ControlPlane{Identifier: "peer"},
			})
			if err != nil {
				return err
			}
		case err := <-failed:
			return err
		}
	}
}

// codec is the usual one. (That of Debian's gRPC is of a version of the protobuf package before these messages.)
type codec struct{}

func (codec) Marshal(v interface{}) ([]byte, error) { return proto.Marshal(v.(proto.Message)) }

func (codec) Unmarshal(data []byte, v interface{}) error {
	return proto.Unmarshal(data, v.(proto.Message))
}

func (codec) String() string { return "proto" }

// main serves, and has a new snapshot for each line of its input, which is its version.
func main() {
	listener, err := net.Listen("tcp", "127.0.0.1:0")
	if err != nil {
		fmt.Fprintln(os.Stderr, err)
		os.Exit(1)
	}
	c := &cache{watches: map[chan<- *snapshot]bool{}}
	server := grpc.NewServer(grpc.CustomCodec(codec{}))
	server.RegisterService(&grpc.ServiceDesc{
		ServiceName: "envoy.service.discovery.v3.AggregatedDiscoveryService",
		HandlerType: (*interface{})(nil),
		Streams:     []grpc.StreamDesc{{StreamName: "DeltaAggregatedResources", Handler: c.serve, ServerStreams: true, ClientStreams: true}},
	}, c)
	go func() { _ = server.Serve(listener) }()
	fmt.Fprintln(os.Stderr, "listening on", listener.Addr())
	for lines := bufio.NewScanner(os.Stdin); lines.Scan(); {
		c.set(lines.Text())
	}
}
