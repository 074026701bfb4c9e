package main

import (
	"errors"
	"flag"
	"fmt"
	"io"
	"net"
	"os"
	"strings"
	"time"
)

// mostNumber is the greatest number that a replica may have, and mostReplicas how many replicas a server has at most.
const mostNumber, mostReplicas = 65535, 16

type options struct {
	endpoints          string
	caCert, cert, key  string
	user, password     string
	prefix             string
	program            string
	replicas           int
	port, rest, admin  int
	token              string   // the file that has it
	words              []string // for the server
	listen             string
	print, attach      bool
	startTime          time.Duration
	putWrites          int
	putBytes           int
	postWrites         int
	postBytes          int
	pendingBytes       int
	timeout, heartbeat time.Duration
}

// readOptions reads the words of the command line. Help goes to where it was asked for.
func readOptions(words []string, help io.Writer) (*options, error) {
	o := &options{startTime: 60 * time.Second, putWrites: 100, putBytes: 512 << 10, postWrites: 2000, postBytes: 1 << 20, timeout: 3 * time.Second, heartbeat: time.Second}
	f := flag.NewFlagSet("fleet", flag.ContinueOnError)
	f.StringVar(&o.endpoints, "endpoints", "127.0.0.1:2379", "the `ADDRESSES` of etcd's members, with commas between them")
	f.StringVar(&o.caCert, "cacert", "", "a `FILE` of certificates (PEM), by one of which etcd's has to be signed, for TLS")
	f.StringVar(&o.cert, "cert", "", "the `FILE` of the certificate (PEM) by which etcd knows this program")
	f.StringVar(&o.key, "key", "", "the `FILE` of its key (PEM)")
	f.StringVar(&o.user, "user", os.Getenv("ETCDCTL_USER"), "the `NAME` of a user of etcd, or NAME:PASSWORD")
	f.StringVar(&o.password, "password", os.Getenv("ETCDCTL_PASSWORD"), "the user's `PASSWORD`")
	f.StringVar(&o.prefix, "prefix", "/xds", "what all keys begin with: a `TEXT` with no slash at its end")
	f.StringVar(&o.program, "program", "xds", "the `PROGRAM` of the server")
	f.IntVar(&o.replicas, "replicas", 2, "how `MANY` replicas the server has, from 1 to 16")
	f.IntVar(&o.port, "port", 18000, "the `PORT` of the first replica's streams")
	f.IntVar(&o.rest, "rest-port", 18100, "the `PORT` of the first replica's polls")
	f.IntVar(&o.admin, "admin-port", 18200, "the server's operator's `PORT`")
	f.StringVar(&o.token, "admin-token", "", "a `FILE` whose first line each request at the operator's port says, and at --listen")
	f.StringVar(&o.listen, "listen", "", "the loopback `ADDRESS` of /healthz, /metrics and /changes over HTTP; left out: there is none")
	f.BoolVar(&o.print, "print", false, "take numbers, print the first, and end")
	f.BoolVar(&o.attach, "attach", false, "carry a server that runs already, at --admin-port")
	f.IntVar(&o.pendingBytes, "pending-bytes", 64<<20, "how many `BYTES` of writes may wait to be posted")
	f.SetOutput(io.Discard)
	f.Usage = func() {}
	if err := f.Parse(words); err != nil {
		if errors.Is(err, flag.ErrHelp) {
			fmt.Fprintln(help, "fleet [WORD ..] [-- WORD ..]: carries what changes at an xDS server to others over etcd; the words behind -- are the server's")
			f.SetOutput(help)
			f.PrintDefaults()
		}
		return nil, err
	}
	o.words = f.Args()
	return o, o.check()
}

// readToken is the token in a file: its first line. There is none where no file is named.
func readToken(file string) (string, error) {
	if file == "" {
		return "", nil
	}
	text, err := os.ReadFile(file)
	if err != nil {
		return "", fmt.Errorf("--admin-token: %v", err)
	}
	line, _, _ := strings.Cut(string(text), "\n")
	token := strings.TrimSpace(line)
	if token == "" {
		return "", fmt.Errorf("--admin-token: the first line of %s is to be a token", file)
	}
	return token, nil
}

// check tells what of the words is wrong.
func (o *options) check() error {
	if name, word, found := strings.Cut(o.user, ":"); found {
		o.user, o.password = name, word
	}
	switch {
	case o.endpoints == "":
		return errors.New("--endpoints is empty")
	case (o.cert == "") != (o.key == ""):
		return errors.New("--cert and --key are given together or not at all")
	case o.prefix == "" || strings.HasSuffix(o.prefix, "/"):
		return errors.New("--prefix is a text with no slash at its end")
	case o.replicas < 1 || o.replicas > mostReplicas:
		return fmt.Errorf("--replicas is from 1 to %d", mostReplicas)
	case o.print && o.attach:
		return errors.New("--print and --attach don't go together")
	case (o.print || o.attach) && len(o.words) > 0:
		return fmt.Errorf("unknown word %q", o.words[0])
	case o.pendingBytes < 1:
		return errors.New("--pending-bytes is at least 1")
	}
	for _, it := range []struct {
		word string
		port int
	}{{"--port", o.port}, {"--rest-port", o.rest}, {"--admin-port", o.admin}} {
		if it.port < 1 || it.port > 65535 {
			return fmt.Errorf("%s is from 1 to 65535", it.word)
		}
	}
	if o.listen == "" {
		return nil
	}
	host, _, err := net.SplitHostPort(o.listen)
	if err != nil {
		return fmt.Errorf("--listen: %v", err)
	}
	if ip := net.ParseIP(host); ip == nil || !ip.IsLoopback() {
		return fmt.Errorf("--listen %s: it is served on loopback alone, as 127.0.0.1", o.listen)
	}
	return nil
}
