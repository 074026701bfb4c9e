package main

import (
	"context"
	"crypto/sha256"
	"crypto/tls"
	"crypto/x509"
	"errors"
	"fmt"
	"net"
	"os"
	"strings"
	"sync"
	"time"

	"google.golang.org/grpc/codes"
	"google.golang.org/grpc/credentials"
	"google.golang.org/grpc/peer"
	"google.golang.org/grpc/status"
)

// certificatesLook is how often the files of certificates are looked at.
const certificatesLook = 2 * time.Second

// certificates are the certificates in use. Their files are read again on a signal and when they change; what is read
// takes effect with the next connection. What can't be used is told, and what is in use stays.
type certificates struct {
	cert, key, ca string // the files; ca may be empty
	tell          *teller

	mutex  sync.Mutex
	config *tls.Config // in use
	seen   [sha256.Size]byte
}

// readCertificates reads the files for the first time.
func readCertificates(cert, key, ca string, tell *teller) (*certificates, error) {
	c := &certificates{cert: cert, key: key, ca: ca, tell: tell}
	texts, err := c.texts()
	if err == nil {
		c.seen = sumOf(texts)
		c.config, err = c.configOf(texts)
	}
	return c, err
}

// texts are the contents of the files.
func (c *certificates) texts() (texts [3][]byte, err error) {
	for i, name := range []string{c.cert, c.key, c.ca} {
		if name == "" {
			continue
		}
		if texts[i], err = os.ReadFile(name); err != nil {
			return texts, err
		}
	}
	return texts, nil
}

func sumOf(texts [3][]byte) [sha256.Size]byte {
	sum := sha256.New()
	for _, it := range texts {
		fmt.Fprintf(sum, "%d:", len(it))
		sum.Write(it)
	}
	var made [sha256.Size]byte
	sum.Sum(made[:0])
	return made
}

// configOf is what is used of the files' contents.
func (c *certificates) configOf(texts [3][]byte) (*tls.Config, error) {
	own, err := tls.X509KeyPair(texts[0], texts[1])
	if err != nil {
		return nil, fmt.Errorf("%s, %s: %v", c.cert, c.key, err)
	}
	config := &tls.Config{Certificates: []tls.Certificate{own}, MinVersion: tls.VersionTLS12, NextProtos: []string{"h2"}}
	if c.ca != "" {
		config.ClientCAs = x509.NewCertPool()
		if !config.ClientCAs.AppendCertsFromPEM(texts[2]) {
			return nil, fmt.Errorf("%s has no certificate", c.ca)
		}
		config.ClientAuth = tls.RequireAndVerifyClientCert
	}
	return config, nil
}

// look reads the files, and takes what they have where it is new. What is wrong with the same contents is told once, but
// for when they are read because somebody asked.
func (c *certificates) look(asked bool) {
	texts, err := c.texts()
	sum := sumOf(texts)
	if err != nil {
		sum = sha256.Sum256([]byte(err.Error()))
	}
	c.mutex.Lock()
	defer c.mutex.Unlock()
	if sum == c.seen && !asked {
		return
	}
	c.seen = sum
	var config *tls.Config
	if err == nil {
		config, err = c.configOf(texts)
	}
	if err != nil {
		c.tell.say("the certificates in use stay, since the new ones are bad: %v", err)
		return
	}
	c.config = config
	c.tell.say("certificates are read again")
}

// watch looks at the files every few seconds and at each signal, until the bridge stops.
func (c *certificates) watch(signals <-chan os.Signal, stopping <-chan struct{}) {
	look := time.NewTicker(certificatesLook)
	defer look.Stop()
	for {
		select {
		case <-look.C:
			c.look(false)
		case <-signals:
			c.look(true)
		case <-stopping:
			return
		}
	}
}

// credentials are gRPC's, of what is in use at the time of a handshake.
func (c *certificates) credentials() credentials.TransportCredentials {
	return credentials.NewTLS(&tls.Config{
		MinVersion: tls.VersionTLS12,
		GetConfigForClient: func(*tls.ClientHelloInfo) (*tls.Config, error) {
			c.mutex.Lock()
			defer c.mutex.Unlock()
			return c.config, nil
		},
	})
}

// toldCredentials tell and count the handshakes that fail.
type toldCredentials struct {
	credentials.TransportCredentials
	bridge *bridge
}

func (c toldCredentials) ServerHandshake(conn net.Conn) (net.Conn, credentials.AuthInfo, error) {
	secured, info, err := c.TransportCredentials.ServerHandshake(conn)
	if err != nil {
		c.bridge.counters.add(numHandshakes, 1)
		c.bridge.tell.few("TLS handshake refused", "%s: %v", conn.RemoteAddr(), err)
	}
	return secured, info, err
}

func (c toldCredentials) Clone() credentials.TransportCredentials {
	return toldCredentials{c.TransportCredentials.Clone(), c.bridge}
}

// The ways to bind a client's certificate to the cluster of its node.
const (
	identityNone = "none"
	identitySAN  = "san"
	identityCN   = "cn"
)

// clustersOf are the clusters that a client's certificate allows its node to name.
func clustersOf(ctx context.Context, identity string) ([]string, error) {
	from, ok := peer.FromContext(ctx)
	if !ok {
		return nil, errors.New("the client has no address")
	}
	info, ok := from.AuthInfo.(credentials.TLSInfo)
	if !ok || len(info.State.VerifiedChains) == 0 {
		return nil, errors.New("the client has no certificate")
	}
	of := info.State.VerifiedChains[0][0]
	if identity == identityCN {
		return []string{of.Subject.CommonName}, nil
	}
	names := append([]string(nil), of.DNSNames...)
	for _, it := range of.URIs {
		names = append(names, it.String())
	}
	return names, nil
}

// mayBe is nil where a client may say that its node is of a cluster, else the status for it.
func (b *bridge) mayBe(ctx context.Context, node, cluster string) error {
	if b.identity == identityNone || b.identity == "" {
		return nil
	}
	names, err := clustersOf(ctx, b.identity)
	if err != nil {
		return status.Errorf(codes.PermissionDenied, "%v", err)
	}
	for _, it := range names {
		if it == cluster && it != "" {
			return nil
		}
	}
	b.counters.add(numIdentities, 1)
	b.tell.few("cluster refused", "node %q says that it is of the cluster %q, its certificate allows %q", shortened(node, mostName),
		shortened(cluster, mostName), shortened(strings.Join(names, " "), mostName))
	what := "names"
	if b.identity == identityCN {
		what = "common name"
	}
	return status.Errorf(codes.PermissionDenied, "the node says that it is of the cluster %.200q, which isn't among the %s of the client's certificate",
		cluster, what)
}
