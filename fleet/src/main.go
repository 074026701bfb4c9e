// Command fleet keeps the catalogues of several xDS servers equal over etcd: one runs beside each server, puts what changes there
// under keys of etcd, and posts to it what others put.
package main

import (
	"context"
	"errors"
	"flag"
	"fmt"
	"os"
	"os/signal"
	"strings"
	"syscall"
	"time"
)

const (
	wrongWords = 2
	failed     = 1
)

func main() {
	tell := newTeller(os.Stderr)
	code := 0
	o, err := readOptions(os.Args[1:], os.Stdout)
	switch {
	case errors.Is(err, flag.ErrHelp):
	case err != nil:
		tell.say("%v (--help shows the words)", err)
		code = wrongWords
	default:
		if err := run(o, tell); err != nil {
			tell.say("%v", err)
			code = failed
		}
	}
	tell.close()
	os.Exit(code)
}

// run does what the words ask for, until it is told to stop, or the server has ended.
func run(o *options, tell *teller) error {
	ctx, stop := signal.NotifyContext(context.Background(), syscall.SIGTERM, syscall.SIGINT)
	defer stop()
	// (an error output that nobody reads any more ends nothing)
	signal.Notify(make(chan os.Signal, 1), syscall.SIGPIPE)
	numbers := newCounters()
	token, err := readToken(o.token)
	if err != nil {
		return err
	}
	s, err := openStore(o, numbers)
	if err != nil {
		return err
	}
	defer s.close()
	if o.print {
		first, err := s.takeNumbers(ctx, o.replicas)
		if err != nil {
			return err
		}
		fmt.Println(first)
		return nil
	}
	f := &fleet{o: o, tell: tell, numbers: numbers, store: s, known: newKnown(), server: newServer(o, token), health: newHealth(), waiting: newWaiting(o.pendingBytes)}
	if o.listen != "" {
		end, err := f.listen()
		if err != nil {
			return err
		}
		defer end()
	}
	if o.attach {
		return f.attached(ctx)
	}
	return f.started(ctx)
}

// A fleet is what one server is carried by.
type fleet struct {
	o       *options
	tell    *teller
	numbers *counters
	store   *store
	known   *known
	server  *server
	health  *health
	waiting *waiting
}

// attached carries a server that runs already.
func (f *fleet) attached(ctx context.Context) error {
	if err := f.server.waitUp(ctx, f.o.startTime); err != nil {
		return err
	}
	return f.carry(ctx, nil)
}

// started takes numbers, starts a server with them, and carries it.
func (f *fleet) started(ctx context.Context) error {
	first, err := f.store.takeNumbers(ctx, f.o.replicas)
	if err != nil {
		return err
	}
	f.numbers.set("fleet_first_number", int64(first))
	child, err := f.server.start(first)
	if err != nil {
		return err
	}
	f.tell.say("the server has the numbers %d to %d and the process id %d", first, first+f.o.replicas-1, child.pid())
	defer child.stop(f.server)
	if err := child.waitUp(ctx, f.server, f.o.startTime); err != nil {
		return err
	}
	return f.carry(ctx, child)
}

// carry posts all that stands in etcd, lets the server be ready, and then carries changes both ways until it is told to stop, or the
// server has ended.
func (f *fleet) carry(ctx context.Context, child *child) error {
	revision, err := f.postAll(ctx, f.everyReplica())
	if err != nil {
		return err
	}
	if err := f.server.ready(ctx); err != nil {
		return err
	}
	f.health.began()
	f.tell.say("ready: %d writes stood in etcd", f.known.size())
	work, end := context.WithCancel(context.Background())
	defer end()
	for _, it := range []func(context.Context){f.follow, f.post, func(ctx context.Context) { f.watch(ctx, revision) }} {
		go it(work)
	}
	select {
	case <-ctx.Done():
		f.passLast()
		f.tell.say("stopped")
		return nil
	case <-child.ended():
		return fmt.Errorf("the server has ended: %v", child.status())
	}
}

// everyReplica has the places of all replicas of the server.
func (f *fleet) everyReplica() []int {
	places := make([]int, f.o.replicas)
	for i := range places {
		places[i] = i + 1
	}
	return places
}

// pause waits longer after each failure, up to a second. It answers false once there is nothing to wait for.
func pause(ctx context.Context, failures int) bool {
	long := 20 * time.Millisecond << uint(failures)
	if failures > 6 || long > time.Second {
		long = time.Second
	}
	select {
	case <-ctx.Done():
		return false
	case <-time.After(long):
		return true
	}
}

// cause is an error in one line.
func cause(err error) string { return strings.ReplaceAll(err.Error(), "\n", " ") }
