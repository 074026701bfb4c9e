package main

import (
	"context"
	"crypto/tls"
	"errors"
	"fmt"
	"io"
	"strconv"
	"strings"
	"time"

	"go.etcd.io/etcd/clientv3"
	"go.etcd.io/etcd/etcdserver/api/v3rpc/rpctypes"
	"go.etcd.io/etcd/pkg/transport"
	"go.uber.org/zap"
	"google.golang.org/grpc/grpclog"
)

// pageKeys is how many keys are read from etcd at a time.
const pageKeys = 200

// longestSent is how many bytes a request to etcd may have, as far as this program cares: etcd has a bound of its own.
const longestSent = 32 << 20

// A store is etcd, under a prefix.
type store struct {
	o       *options
	numbers *counters
	client  *clientv3.Client
}

func openStore(o *options, numbers *counters) (*store, error) {
	// (what the package of gRPC has to say would be written without a bound)
	grpclog.SetLoggerV2(grpclog.NewLoggerV2(io.Discard, io.Discard, io.Discard))
	config := clientv3.Config{
		Endpoints:          strings.Split(o.endpoints, ","),
		DialTimeout:        10 * time.Second,
		DialKeepAliveTime:  10 * time.Second,
		MaxCallSendMsgSize: longestSent,
		Username:           o.user,
		Password:           o.password,
		LogConfig:          &zap.Config{Level: zap.NewAtomicLevelAt(zap.FatalLevel), Encoding: "json"},
	}
	if o.caCert != "" || o.cert != "" {
		words, err := tlsOf(o)
		if err != nil {
			return nil, err
		}
		config.TLS = words
	}
	client, err := clientv3.New(config)
	if err != nil {
		return nil, fmt.Errorf("etcd at %s: %v", o.endpoints, cause(err))
	}
	return &store{o: o, numbers: numbers, client: client}, nil
}

func tlsOf(o *options) (*tls.Config, error) {
	it := transport.TLSInfo{CertFile: o.cert, KeyFile: o.key, TrustedCAFile: o.caCert}
	return it.ClientConfig()
}

func (s *store) close() { _ = s.client.Close() }

func (s *store) at(key string) string { return s.o.prefix + "/" + key }

func (s *store) below(key []byte) string { return strings.TrimPrefix(string(key), s.o.prefix+"/") }

// failed counts a failure, but for those by which it is told to stop.
func (s *store) failed(ctx context.Context, what string, err error) error {
	if err != nil && ctx.Err() == nil {
		s.numbers.add("fleet_errors_total", 1, "side", "etcd", "what", what)
	}
	return err
}

// rule: new-numbers
// takeNumbers takes so many numbers, which nobody took before and nobody will take: by a transaction on the key of the next number. Of
// one whose outcome isn't known the numbers are left out.
func (s *store) takeNumbers(ctx context.Context, many int) (int, error) {
	key := s.at("next-number")
	for failures := 0; ; {
		first, err := s.tryNumbers(ctx, key, many)
		switch {
		case err == nil && first > 0:
			return first, nil
		case errors.Is(err, errUsedUp), errors.Is(err, errNoNumber):
			return 0, err
		case err != nil:
			_ = s.failed(ctx, "numbers", err)
			failures++
		}
		if failures > 30 || !pause(ctx, failures) {
			return 0, fmt.Errorf("no numbers are taken: %v", err)
		}
	}
}

var errUsedUp = errors.New("all 65,535 replica numbers are used up: begin again under another --prefix")

var errNoNumber = errors.New("the key of the next number holds none")

// tryNumbers tries once. It answers 0 where another came first.
func (s *store) tryNumbers(ctx context.Context, key string, many int) (int, error) {
	least, err := s.leastNumber(ctx, key)
	if err != nil {
		return 0, err
	}
	ctx, end := context.WithTimeout(ctx, s.o.timeout)
	defer end()
	got, err := s.client.Get(ctx, key)
	if err != nil {
		return 0, err
	}
	next, revision := least, int64(0)
	if len(got.Kvs) > 0 {
		next, err = strconv.Atoi(string(got.Kvs[0].Value))
		if err != nil || next < 1 {
			return 0, errNoNumber
		}
		revision = got.Kvs[0].ModRevision
	}
	if next+many-1 > mostNumber {
		return 0, errUsedUp
	}
	done, err := s.client.Txn(ctx).
		If(clientv3.Compare(clientv3.ModRevision(key), "=", revision)).
		Then(clientv3.OpPut(key, strconv.Itoa(next+many))).Commit()
	if err != nil || !done.Succeeded {
		return 0, err
	}
	return next, nil
}

// leastNumber is the least number that may be free where there is no key of the next number: that behind the greatest which stands in a
// stamp.
func (s *store) leastNumber(ctx context.Context, key string) (int, error) {
	inTime, end := context.WithTimeout(ctx, s.o.timeout)
	defer end()
	got, err := s.client.Get(inTime, key)
	if err != nil || len(got.Kvs) > 0 {
		return 1, err
	}
	least := 1
	_, err = s.list(ctx, func(page []standing) error {
		for _, it := range page {
			if w, err := readWrite(it.value); err == nil && int(w.stamp.writer) >= least {
				least = int(w.stamp.writer) + 1
			}
		}
		return nil
	})
	return least, err
}

// A standing is what stands in etcd at a key.
type standing struct {
	key      string
	value    []byte
	revision int64
}

// list hands on all that stands below the prefix, page by page, as of one revision, and answers that.
func (s *store) list(ctx context.Context, take func([]standing) error) (int64, error) {
	s.numbers.add("fleet_lists_total", 1)
	from, to, revision := s.at(""), clientv3.GetPrefixRangeEnd(s.at("")), int64(0)
	for {
		page, err := s.page(ctx, from, to, revision)
		if err != nil {
			return 0, s.failed(ctx, "list", err)
		}
		if revision == 0 {
			revision = page.Header.Revision
		}
		var found []standing
		for _, it := range page.Kvs {
			found = append(found, standing{s.below(it.Key), it.Value, it.ModRevision})
		}
		if err := take(found); err != nil {
			return 0, err
		}
		if !page.More || len(page.Kvs) == 0 {
			return revision, nil
		}
		from = string(page.Kvs[len(page.Kvs)-1].Key) + "\x00"
	}
}

func (s *store) page(ctx context.Context, from, to string, revision int64) (*clientv3.GetResponse, error) {
	ctx, end := context.WithTimeout(ctx, 2*s.o.timeout)
	defer end()
	return s.client.Get(ctx, from, clientv3.WithRange(to), clientv3.WithLimit(pageKeys), clientv3.WithRev(revision))
}

// rule: greatest-write
// putAll puts writes where they are greater than what stands there, each by comparing what is known to stand there, and tries again
// where something else does.
func (s *store) putAll(ctx context.Context, k *known, writes []write) error {
	for len(writes) > 0 {
		done, err := s.tryPut(ctx, k, writes)
		if err != nil {
			if len(writes) > 1 && isTooLarge(err) {
				for _, it := range writes {
					if err := s.putAll(ctx, k, []write{it}); err != nil {
						return err
					}
				}
				return nil
			}
			return s.failed(ctx, "put", err)
		}
		if done.Succeeded {
			for _, it := range writes {
				k.stood(it.key, it.stamp, done.Header.Revision)
			}
			s.numbers.add("fleet_put_writes_total", int64(len(writes)))
			return nil
		}
		s.numbers.add("fleet_put_conflicts_total", 1)
		writes = s.greater(k, writes, done)
	}
	return nil
}

// tryPut tries once, in one transaction.
func (s *store) tryPut(ctx context.Context, k *known, writes []write) (*clientv3.TxnResponse, error) {
	ctx, end := context.WithTimeout(ctx, s.o.timeout)
	defer end()
	var ifs []clientv3.Cmp
	var thens, elses []clientv3.Op
	for _, it := range writes {
		key := s.at(it.key)
		ifs = append(ifs, clientv3.Compare(clientv3.ModRevision(key), "=", k.of(it.key).revision))
		thens = append(thens, clientv3.OpPut(key, string(it.line)))
		elses = append(elses, clientv3.OpGet(key))
	}
	s.numbers.add("fleet_put_transactions_total", 1)
	return s.client.Txn(ctx).If(ifs...).Then(thens...).Else(elses...).Commit()
}

// greater notes what stands at each key, and answers the writes that are greater.
func (s *store) greater(k *known, writes []write, done *clientv3.TxnResponse) []write {
	var left []write
	for i, it := range writes {
		var there stamp
		revision := int64(0)
		if i < len(done.Responses) {
			if found := done.Responses[i].GetResponseRange().Kvs; len(found) > 0 {
				revision = found[0].ModRevision
				// (what is no write is less than any)
				if w, err := readWrite(found[0].Value); err == nil && w.key == it.key {
					there = w.stamp
				}
			}
		}
		k.stood(it.key, there, revision)
		if there.less(it.stamp) {
			left = append(left, it)
		}
	}
	return left
}

// isTooLarge tells whether a request has more bytes than etcd takes.
func isTooLarge(err error) bool {
	return errors.Is(err, rpctypes.ErrRequestTooLarge) || strings.Contains(err.Error(), "larger than max") ||
		strings.Contains(err.Error(), "request is too large")
}
