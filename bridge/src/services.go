package main

import (
	"context"

	"google.golang.org/grpc"
	"google.golang.org/grpc/codes"
	"google.golang.org/grpc/encoding"
	_ "google.golang.org/grpc/encoding/gzip"  // for clients that compress
	_ "google.golang.org/grpc/encoding/proto" // the codec for messages of health
	"google.golang.org/grpc/status"
	"google.golang.org/protobuf/reflect/protoreflect"
	"google.golang.org/protobuf/reflect/protoregistry"
)

// A bridge has what its streams share.
type bridge struct {
	server   string // its address
	types    *types
	bodies   *bodies
	sotw     variant
	delta    variant
	stopping chan struct{} // closed once it stops
	skipBad  bool          // responses are served without what can't be converted
	identity string        // what of a client's certificate the cluster of its node has to be
	tell     *teller
	frozen   *frozen
	counters *counters
	reach    *reach
	shared   *assemblies
	alikes   *alikes
	rooms    *rooms
	links    links
	inPieces bool // long messages are sent piece by piece
	limits   *limits
	files    []*protoregistry.Files // for reflection

	addresses  bool   // the control plane is told the address of each client
	identifier string // what responses say of the control plane
	maxMessage int    // how many bytes a message to a client may have
	maxStreams int    // how many there may be at a time, or 0
	streams    int32  // how many there are
}

// newBridge makes the bridge to a server. The messages of requests are small's where known has none of them.
func newBridge(server string, known, small *types, cacheBytes int, tell *teller) *bridge {
	request := func(name protoreflect.FullName) protoreflect.MessageType { return known.message(name, small) }
	b := &bridge{
		server:   server,
		types:    known,
		bodies:   newBodies(cacheBytes, known.wireOf),
		sotw:     variant{false, kindRequest, kindResponse, request(requestName)},
		delta:    variant{true, kindDeltaRequest, kindDeltaResponse, request(deltaRequestName)},
		stopping: make(chan struct{}),
		tell:     tell,
		frozen:   newFrozen(tell),
		counters: newCounters(),
		reach:    &reach{server: server},
		files:    []*protoregistry.Files{known.files, small.files},
		shared:   newAssemblies(cacheBytes),
		alikes:   newAlikes(),
		rooms:    newRooms(),
		inPieces: canCut,
	}
	b.limits = &limits{bridge: b, above: map[string]bool{}}
	return b
}

// A service is one of discovery.
type service struct {
	name    string // after envoy.service.
	what    string // what its methods are called after
	typeURL string // of a service of a single type
	rest    string // the path of its type for polls by HTTP
}

const typePrefix = "type.googleapis.com/envoy."

var services = []service{
	{"discovery.v3.AggregatedDiscoveryService", "AggregatedResources", "", ""},
	{"cluster.v3.ClusterDiscoveryService", "Clusters", "config.cluster.v3.Cluster", "clusters"},
	{"endpoint.v3.EndpointDiscoveryService", "Endpoints", "config.endpoint.v3.ClusterLoadAssignment", "endpoints"},
	{"listener.v3.ListenerDiscoveryService", "Listeners", "config.listener.v3.Listener", "listeners"},
	{"route.v3.RouteDiscoveryService", "Routes", "config.route.v3.RouteConfiguration", "routes"},
	{"secret.v3.SecretDiscoveryService", "Secrets", "extensions.transport_sockets.tls.v3.Secret", "secrets"},
}

func (s *service) fullName() string { return "envoy.service." + s.name }

// register makes a service known to a gRPC server.
func (b *bridge) register(to *grpc.Server, s service) {
	only := ""
	if s.typeURL != "" {
		only = typePrefix + s.typeURL
	}
	method := func(name string, v *variant) grpc.StreamDesc {
		carry := func(_ interface{}, client grpc.ServerStream) error { return b.carry(client, v, only) }
		return grpc.StreamDesc{StreamName: name + s.what, Handler: carry, ServerStreams: true, ClientStreams: true}
	}
	made := &grpc.ServiceDesc{
		ServiceName: s.fullName(),
		HandlerType: (*interface{})(nil),
		Streams:     []grpc.StreamDesc{method("Stream", &b.sotw), method("Delta", &b.delta)},
	}
	if s.rest != "" {
		fetch := func(interface{}, context.Context, func(interface{}) error, grpc.UnaryServerInterceptor) (interface{}, error) {
			const text = "the bridge carries streams alone: poll the control plane by REST, a POST to /v3/discovery:%s"
			return nil, status.Errorf(codes.Unimplemented, text, s.rest)
		}
		made.Methods = []grpc.MethodDesc{{MethodName: "Fetch" + s.what, Handler: fetch}}
	}
	to.RegisterService(made, b)
}

// A message is the bytes of one, which the bridge reads and writes itself.
type message struct{ wire []byte }

// codec leaves messages of discovery as they are.
type codec struct{}

func (codec) Marshal(v interface{}) ([]byte, error) {
	if m, ok := v.(*message); ok {
		return m.wire, nil
	}
	return encoding.GetCodec("proto").Marshal(v)
}

func (codec) Unmarshal(data []byte, v interface{}) error {
	if m, ok := v.(*message); ok {
		m.wire = data
		return nil
	}
	return encoding.GetCodec("proto").Unmarshal(data, v)
}

func (codec) String() string { return "proto" }
