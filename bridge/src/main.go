// Command bridge lets gRPC clients of Envoy's xDS v3 protocol talk to a control plane that speaks the same messages as
// JSON in frames over TCP.
package main

import (
	"errors"
	"flag"
	"fmt"
	"io"
	"net"
	"net/http"
	"os"
	"os/signal"
	"syscall"
	"time"

	"google.golang.org/grpc"
	"google.golang.org/grpc/grpclog"
	"google.golang.org/grpc/health/grpc_health_v1"
	"google.golang.org/grpc/keepalive"
	"google.golang.org/grpc/reflection/grpc_reflection_v1alpha"
)

const (
	wrongWords = 2
	failed     = 1
	// stopTime is how long streams have to take their status once the bridge stops.
	stopTime = 3 * time.Second
	// leastMessage and mostMessage are between what --max-message may say.
	leastMessage, mostMessage = 4096, 4 * maxText
	// handshakeTime is how long a connection has until it speaks gRPC.
	handshakeTime = 10 * time.Second
)

type options struct {
	listen, server            string
	descriptors               string
	cacheBytes                int
	maxRequest, maxMessage    int
	maxStreams                int
	tlsCert, tlsKey, clientCA string
	skipBad                   bool
	metrics, checks           string
	identity                  string
	identifier                string
	addresses                 bool
	maxAge, ageGrace          time.Duration
}

func main() {
	tell, code := newTeller(os.Stderr), 0
	// (what the package of gRPC has to say would be written without a bound, and waited for)
	grpclog.SetLoggerV2(grpclog.NewLoggerV2(io.Discard, io.Discard, io.Discard))
	o, err := readOptions(os.Args[1:], os.Stdout)
	switch {
	case errors.Is(err, flag.ErrHelp):
	case err != nil:
		tell.say("%v (--help shows the words)", err)
		code = wrongWords
	default:
		if err := run(o, tell); err != nil {
			tell.say("%v", err)
			code = failed
		}
	}
	tell.close()
	os.Exit(code)
}

// readOptions reads the words of the command line. Help goes to where it was asked for.
func readOptions(words []string, help io.Writer) (*options, error) {
	o := new(options)
	f := flag.NewFlagSet("bridge", flag.ContinueOnError)
	f.StringVar(&o.listen, "listen", "127.0.0.1:18200", "the `ADDRESS` at which gRPC is served; without TLS a loopback one")
	f.StringVar(&o.server, "server", "127.0.0.1:18000", "the `ADDRESS` of the control plane's framed streams")
	f.StringVar(&o.descriptors, "descriptors", "", "a `FILE` with the FileDescriptorSet of all that resources may have in them")
	f.IntVar(&o.cacheBytes, "cache-bytes", 64<<20, "how many `BYTES` of converted resources are kept")
	f.IntVar(&o.maxRequest, "max-request", maxText, "how many `BYTES` a client's message may have")
	f.IntVar(&o.maxMessage, "max-message", 4<<20, "how many `BYTES` a message to a client may have; clients of gRPC take 4 MiB")
	f.IntVar(&o.maxStreams, "max-streams", 0, "how `MANY` streams there may be at a time; 0: any number")
	f.StringVar(&o.tlsCert, "tls-cert", "", "the `FILE` of the certificate chain (PEM), for TLS")
	f.StringVar(&o.tlsKey, "tls-key", "", "the `FILE` of its key (PEM)")
	f.StringVar(&o.clientCA, "client-ca", "", "a `FILE` of certificates (PEM), by one of which a client's has to be signed")
	f.StringVar(&o.identity, "identity", identityNone,
		"`WHAT` of a client's certificate its node's cluster has to be: san (a DNS name or URI), cn (the common name), none")
	f.BoolVar(&o.addresses, "client-addresses", false, "tell the control plane each client's address, by a line PROXY before its stream")
	f.StringVar(&o.identifier, "identifier", "", "the `TEXT` by which responses name the control plane; left out: xds at the address of --server")
	f.DurationVar(&o.maxAge, "max-connection-age", 0, "how `LONG` a connection lives until its client is told to open another, as 30m; 0: for good")
	f.DurationVar(&o.ageGrace, "max-connection-age-grace", 30*time.Second, "how `LONG` its streams may go on then")
	f.BoolVar(&o.skipBad, "skip-bad", false, "serve a response without the resources that can't be converted, in place of refusing it")
	f.StringVar(&o.metrics, "metrics", "", "the loopback `ADDRESS` at which numbers are served by HTTP, at /metrics")
	f.StringVar(&o.checks, "check", "", "the loopback `ADDRESS` at which a resource is checked by HTTP, which is POSTed as JSON")
	f.SetOutput(io.Discard)
	f.Usage = func() {}
	if err := f.Parse(words); err != nil {
		if errors.Is(err, flag.ErrHelp) {
			fmt.Fprintln(help, "bridge carries gRPC streams of xDS over a control plane's framed streams")
			f.SetOutput(help)
			f.PrintDefaults()
		}
		return nil, err
	}
	return o, o.check(f.Args())
}

// check tells what of the words is wrong.
func (o *options) check(left []string) error {
	host, _, err := net.SplitHostPort(o.listen)
	switch {
	case len(left) > 0:
		return fmt.Errorf("unknown word %q", left[0])
	case err != nil:
		return fmt.Errorf("--listen: %v", err)
	case (o.tlsCert == "") != (o.tlsKey == ""):
		return errors.New("--tls-cert and --tls-key are given together or not at all")
	case o.clientCA != "" && o.tlsCert == "":
		return errors.New("--client-ca needs --tls-cert and --tls-key")
	case o.identity != identityNone && o.identity != identitySAN && o.identity != identityCN:
		return fmt.Errorf("--identity is san, cn or none, not %q", o.identity)
	case o.maxAge < 0 || o.ageGrace < 0:
		return errors.New("--max-connection-age and --max-connection-age-grace are at least 0")
	case o.identity != identityNone && o.clientCA == "":
		return errors.New("--identity needs --client-ca")
	case o.tlsCert == "" && !isLoopback(host):
		return fmt.Errorf("--listen %s: without --tls-cert and --tls-key the bridge listens on loopback alone, as 127.0.0.1", o.listen)
	case o.cacheBytes < 0:
		return errors.New("--cache-bytes is less than 0")
	case o.maxRequest < 1 || o.maxRequest > maxText:
		return fmt.Errorf("--max-request is from 1 to %d", maxText)
	case o.maxMessage < leastMessage || o.maxMessage > mostMessage:
		return fmt.Errorf("--max-message is from %d to %d", leastMessage, mostMessage)
	case o.maxStreams < 0:
		return errors.New("--max-streams is less than 0")
	}
	if _, _, err := net.SplitHostPort(o.server); err != nil {
		return fmt.Errorf("--server: %v", err)
	}
	for _, it := range []struct{ word, address string }{{"--metrics", o.metrics}, {"--check", o.checks}} {
		if it.address == "" {
			continue
		}
		host, _, err := net.SplitHostPort(it.address)
		if err != nil {
			return fmt.Errorf("%s: %v", it.word, err)
		}
		if !isLoopback(host) {
			return fmt.Errorf("%s %s: it is served on loopback alone, as 127.0.0.1", it.word, it.address)
		}
	}
	return nil
}

func isLoopback(host string) bool {
	ip := net.ParseIP(host)
	return host == "localhost" || (ip != nil && ip.IsLoopback())
}

// run serves until it is stopped by a signal.
func run(o *options, tell *teller) error {
	small, err := readTypes(smallSet)
	if err != nil {
		return err
	}
	known := small
	if o.descriptors != "" {
		set, err := os.ReadFile(o.descriptors)
		if err != nil {
			return err
		}
		if known, err = readTypes(set); err != nil {
			return fmt.Errorf("%s: %v", o.descriptors, err)
		}
	}
	b := newBridge(o.server, known, small, o.cacheBytes, tell)
	security, how, err := b.security(o)
	if err != nil {
		return err
	}
	listener, err := net.Listen("tcp", o.listen)
	if err != nil {
		return err
	}
	if o.identifier == "" {
		o.identifier = "xds at " + o.server
	}
	server := b.serving(o, security...)
	for _, it := range []struct {
		word, address string
		handler       http.Handler
	}{{"numbers", o.metrics, b.numbersHandler()}, {"checks", o.checks, b.checkHandler()}} {
		if it.address == "" {
			continue
		}
		at, err := net.Listen("tcp", it.address)
		if err != nil {
			return err
		}
		go func(h http.Handler) { _ = httpServer(h).Serve(at) }(it.handler)
		tell.say("%s on %s", it.word, at.Addr())
	}
	go b.frozen.watch(b.stopping)
	stop, served := make(chan os.Signal, 1), make(chan error, 1)
	signal.Notify(stop, syscall.SIGTERM, syscall.SIGINT)
	go func() { served <- server.Serve(listener) }()
	tell.say("listening on %s (%s), over the control plane at %s", listener.Addr(), how, o.server)
	select {
	case err := <-served:
		return err
	case <-stop:
		b.stop(server)
		return nil
	}
}

// serving makes the gRPC server.
func (b *bridge) serving(o *options, more ...grpc.ServerOption) *grpc.Server {
	b.skipBad, b.identity, b.identifier, b.addresses = o.skipBad, o.identity, o.identifier, o.addresses
	b.maxMessage, b.maxStreams = o.maxMessage, o.maxStreams
	alive := keepalive.ServerParameters{Time: time.Minute, Timeout: 20 * time.Second}
	if o.maxAge > 0 {
		alive.MaxConnectionAge, alive.MaxConnectionAgeGrace = o.maxAge, o.ageGrace
	}
	server := grpc.NewServer(append(more,
		grpc.CustomCodec(codec{}),
		grpc.MaxRecvMsgSize(o.maxRequest),
		grpc.MaxSendMsgSize(2*mostMessage),
		grpc.ConnectionTimeout(handshakeTime),
		// (windows of a fixed size: a client that asks faster than the server takes it is held up soon)
		grpc.InitialWindowSize(64<<10),
		grpc.InitialConnWindowSize(1<<20),
		grpc.KeepaliveParams(alive),
		grpc.KeepaliveEnforcementPolicy(keepalive.EnforcementPolicy{MinTime: 5 * time.Second, PermitWithoutStream: true}),
	)...)
	for _, it := range services {
		b.register(server, it)
	}
	grpc_health_v1.RegisterHealthServer(server, health{b})
	grpc_reflection_v1alpha.RegisterServerReflectionServer(server, reflection{server: server, sets: b.files})
	return server
}

// stop ends all streams with a status, and waits a while until clients have it. What then still stands, as a connection
// on which nothing came, ends with the program.
func (b *bridge) stop(server *grpc.Server) {
	close(b.stopping)
	done := make(chan struct{})
	go func() {
		server.GracefulStop()
		close(done)
	}()
	select {
	case <-done:
	case <-time.After(stopTime):
	}
}

// security is how connections are secured, in gRPC's words and in ours. Where there are certificates, they are read again on
// SIGHUP and when their files change; else SIGHUP does nothing.
func (b *bridge) security(o *options) ([]grpc.ServerOption, string, error) {
	again := make(chan os.Signal, 1)
	signal.Notify(again, syscall.SIGHUP)
	if o.tlsCert == "" {
		return nil, "without TLS, so on loopback alone", nil
	}
	own, err := readCertificates(o.tlsCert, o.tlsKey, o.clientCA, b.tell)
	if err != nil {
		return nil, "", err
	}
	go own.watch(again, b.stopping)
	how := "TLS, for any client"
	if o.clientCA != "" {
		how = "mutual TLS"
	}
	return []grpc.ServerOption{grpc.Creds(toldCredentials{own.credentials(), b})}, how, nil
}
