package main

import (
	"context"
	"errors"
	"io"
	"net"
	"os"
	"sync"
	"sync/atomic"
	"time"

	"google.golang.org/grpc/codes"
	"google.golang.org/grpc/health/grpc_health_v1"
	"google.golang.org/grpc/status"
)

const (
	// healthDial is how long the server may take to accept a connection for health's sake, and healthTurn how long it may
	// take to close one that it turns away.
	healthDial = time.Second
	healthTurn = 300 * time.Millisecond
	// healthWatch is how often what is watched is looked at, and for how long what is known of the server is taken as so.
	healthWatch = 5 * time.Second
	// healthAgain is how long after one try the next may be.
	healthAgain = time.Second
)

// reach is what is known of whether the server takes streams: by the streams of clients, and where these say nothing for a
// while by a stream that is opened for it and ends at once, one for all who ask.
type reach struct {
	server string

	trying sync.Mutex // held by the one who tries
	tried  time.Time  // the last time, of who holds it

	mutex sync.Mutex
	takes bool
	known time.Time // when that was so; zero where it has to be tried
}

// say notes what a client's stream shows.
func (r *reach) say(takes bool) {
	r.mutex.Lock()
	defer r.mutex.Unlock()
	r.takes, r.known = takes, time.Now()
}

// doubt notes that what is known may not be so any more.
func (r *reach) doubt() {
	r.mutex.Lock()
	defer r.mutex.Unlock()
	r.known = time.Time{}
}

func (r *reach) last() (takes, known bool) {
	r.mutex.Lock()
	defer r.mutex.Unlock()
	return r.takes, time.Since(r.known) < healthWatch
}

// holds tells whether the server takes streams.
func (r *reach) holds(ctx context.Context) bool {
	if takes, known := r.last(); known {
		return takes
	}
	r.trying.Lock()
	defer r.trying.Unlock()
	if takes, known := r.last(); known || time.Since(r.tried) < healthAgain {
		return takes // (another has tried meanwhile)
	}
	takes := r.try()
	r.tried = time.Now()
	if ctx.Err() == nil {
		r.say(takes)
	}
	return takes
}

// try opens a stream, and looks whether the server closes it at once, as it does where it has too many.
func (r *reach) try() bool {
	conn, err := net.DialTimeout("tcp", r.server, healthDial)
	if err != nil {
		return false
	}
	defer conn.Close()
	_ = conn.SetReadDeadline(time.Now().Add(healthTurn))
	_, err = conn.Read(make([]byte, 1))
	return errors.Is(err, os.ErrDeadlineExceeded)
}

// health answers gRPC's health service. The service with no name is the bridge: it serves until it stops. The services
// of discovery serve while the server takes streams, and the bridge has room for one.
type health struct{ bridge *bridge }

func (h health) Check(ctx context.Context, r *grpc_health_v1.HealthCheckRequest) (*grpc_health_v1.HealthCheckResponse, error) {
	state := h.state(ctx, r.Service)
	if state == grpc_health_v1.HealthCheckResponse_SERVICE_UNKNOWN {
		return nil, status.Errorf(codes.NotFound, "there is no service %.200q here", r.Service)
	}
	return &grpc_health_v1.HealthCheckResponse{Status: state}, nil
}

func (h health) Watch(r *grpc_health_v1.HealthCheckRequest, to grpc_health_v1.Health_WatchServer) error {
	told := grpc_health_v1.HealthCheckResponse_UNKNOWN
	for {
		if state := h.state(to.Context(), r.Service); state != told {
			told = state
			if err := to.Send(&grpc_health_v1.HealthCheckResponse{Status: state}); err != nil {
				return err
			}
		}
		select {
		case <-time.After(healthWatch):
		case <-to.Context().Done():
			return status.FromContextError(to.Context().Err()).Err()
		case <-h.bridge.stopping:
			return errStopping
		}
	}
}

func (h health) state(ctx context.Context, name string) grpc_health_v1.HealthCheckResponse_ServingStatus {
	serves := false
	switch {
	case h.bridge.isStopping():
	case name == "":
		serves = true
	case !isService(name):
		return grpc_health_v1.HealthCheckResponse_SERVICE_UNKNOWN
	default:
		full := h.bridge.maxStreams > 0 && int(atomic.LoadInt32(&h.bridge.streams)) >= h.bridge.maxStreams
		serves = !full && h.bridge.reach.holds(ctx)
	}
	if serves {
		return grpc_health_v1.HealthCheckResponse_SERVING
	}
	return grpc_health_v1.HealthCheckResponse_NOT_SERVING
}

func isService(name string) bool {
	for _, it := range services {
		if it.fullName() == name {
			return true
		}
	}
	return false
}

func (b *bridge) isStopping() bool {
	select {
	case <-b.stopping:
		return true
	default:
		return false
	}
}

// reads notes what reading a stream shows: the server took it once something came, and it is in doubt where the server ends it.
func (r *reach) reads(n int, err error, came *bool) {
	if n > 0 && !*came {
		*came = true
		r.say(true)
	}
	if errors.Is(err, io.EOF) {
		r.doubt()
	}
}
