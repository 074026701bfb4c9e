package main

import (
	"context"
	"errors"
	"fmt"
	"sync"
	"time"

	"go.etcd.io/etcd/clientv3"
	"go.etcd.io/etcd/etcdserver/api/v3rpc/rpctypes"
)

// silent is for how many heartbeats etcd may say nothing before another member is asked.
const silent = 4

var errFull = errors.New("too much waits to be posted")

// watch takes what others put in etcd after a revision, until it is told to stop. After a compaction of what it didn't see yet, it posts
// all that stands.
func (f *fleet) watch(ctx context.Context, revision int64) {
	for failures := 0; ctx.Err() == nil; {
		seen, err := f.watchOnce(ctx, revision)
		if seen > revision {
			revision, failures = seen, 0
		}
		switch {
		case ctx.Err() != nil:
			return
		case errors.Is(err, errFull):
			f.waiting.waitRoom(ctx)
			continue
		case errors.Is(err, rpctypes.ErrCompacted):
			f.numbers.add("fleet_compactions_total", 1)
			f.tell.say("etcd has forgotten what changed after revision %d: all is listed", revision)
			if seen, err = f.postAll(ctx, []int{1}); err == nil {
				revision, failures = seen, 0
				continue
			}
		}
		f.numbers.add("fleet_errors_total", 1, "side", "etcd", "what", "watch")
		f.tell.sometimes("watch", "what changes in etcd isn't heard: %v", cause(err))
		if failures++; !pause(ctx, failures) {
			return
		}
	}
}

// watchOnce takes what is put after a revision, until that breaks off, and answers the last revision that was taken.
func (f *fleet) watchOnce(ctx context.Context, revision int64) (int64, error) {
	ctx, end := context.WithCancel(clientv3.WithRequireLeader(ctx))
	defer end()
	heard := f.store.client.Watch(ctx, f.store.at(""), clientv3.WithPrefix(), clientv3.WithRev(revision+1), clientv3.WithCreatedNotify())
	beat := time.NewTicker(f.o.heartbeat)
	defer beat.Stop()
	quiet := 0
	for {
		select {
		case <-ctx.Done():
			return revision, ctx.Err()
		case <-beat.C:
			if quiet++; quiet > silent {
				return revision, errors.New("it says nothing")
			}
			// (it is answered by a word of progress; what that says of revisions isn't looked at)
			go func() { _ = f.store.client.RequestProgress(ctx) }()
		case it, ok := <-heard:
			if !ok {
				return revision, errors.New("it broke off")
			}
			if err := it.Err(); err != nil {
				return revision, err
			}
			quiet = 0
			f.health.etcd()
			if len(it.Events) == 0 {
				continue
			}
			full := f.take(it.Events)
			revision = it.Events[len(it.Events)-1].Kv.ModRevision
			f.numbers.set("fleet_revision", revision)
			if full {
				return revision, errFull
			}
		}
	}
}

// take has what others put wait to be posted. It answers whether no more may wait.
func (f *fleet) take(events []*clientv3.Event) bool {
	full := false
	for _, it := range events {
		key := f.store.below(it.Kv.Key)
		if !isKey(key) {
			continue
		}
		if it.Type == clientv3.EventTypeDelete {
			f.known.stood(key, stamp{}, 0)
			continue
		}
		if w, err := f.standing(standing{key, it.Kv.Value, it.Kv.ModRevision}); err == nil && f.known.of(key).held.less(w.stamp) {
			full = f.waiting.add(w) || full
		}
	}
	return full
}

// standing notes what stands in etcd, and answers the write that it is, if it is one.
func (f *fleet) standing(it standing) (write, error) {
	w, err := readWrite(it.value)
	if err == nil && w.key != it.key {
		err = errNoWrite
	}
	if err != nil {
		f.known.stood(it.key, stamp{}, it.revision)
		f.refused(it.key, err)
		return write{}, err
	}
	f.known.stood(it.key, w.stamp, it.revision)
	return w, nil
}

// refused tells of what stands in etcd and is no write.
func (f *fleet) refused(key string, err error) {
	f.numbers.add("fleet_refused_writes_total", 1)
	f.tell.sometimes("refused", "what stands at %s is no write, and isn't posted: %v", f.store.at(key), cause(err))
}

// postAll posts all that stands in etcd to these replicas, page by page, and answers the revision as of which that was.
func (f *fleet) postAll(ctx context.Context, replicas []int) (int64, error) {
	for failures := 0; ; failures++ {
		revision, err := f.store.list(ctx, func(page []standing) error {
			var writes []write
			for _, it := range page {
				if !isKey(it.key) {
					continue
				}
				if w, err := f.standing(it); err == nil {
					writes = append(writes, w)
				}
			}
			for _, replica := range replicas {
				if err := f.postSurely(ctx, replica, writes); err != nil {
					return err
				}
			}
			return nil
		})
		if err == nil {
			f.health.etcd()
			return revision, nil
		}
		f.tell.sometimes("list", "what stands in etcd isn't posted: %v", cause(err))
		if !pause(ctx, failures) {
			return 0, fmt.Errorf("what stands in etcd isn't posted: %v", cause(err))
		}
	}
}

// postSurely posts writes to a replica, and tries again until it takes them.
func (f *fleet) postSurely(ctx context.Context, replica int, writes []write) error {
	for failures := 0; ; failures++ {
		err := f.postWrites(ctx, replica, writes)
		if err == nil {
			return nil
		}
		f.tell.sometimes("post", "what others put isn't posted: %v", cause(err))
		if !pause(ctx, failures) {
			return err
		}
	}
}

// post posts what waits, until it is told to stop.
func (f *fleet) post(ctx context.Context) {
	for failures := 0; ctx.Err() == nil; {
		writes := f.waiting.first(ctx, f.o.postWrites, f.o.postBytes)
		if len(writes) == 0 {
			continue
		}
		if err := f.postWrites(ctx, 1, writes); err != nil {
			f.numbers.add("fleet_retries_total", 1, "what", "post")
			f.tell.sometimes("post", "what others put isn't posted: %v", cause(err))
			if failures++; !pause(ctx, failures) {
				return
			}
			continue
		}
		failures = 0
		f.waiting.done(writes)
	}
}

// postWrites posts writes to a replica, in parts that it takes, but for those that it says are none.
func (f *fleet) postWrites(ctx context.Context, replica int, writes []write) error {
	for len(writes) > 0 {
		part := partOf(writes, f.o.postWrites, f.o.postBytes)
		lines := make([][]byte, len(part))
		for i, it := range part {
			lines[i] = it.line
		}
		bad, err := f.server.post(ctx, replica, lines)
		switch {
		case err == nil:
			f.health.server()
			f.numbers.add("fleet_posted_writes_total", int64(len(part)))
			for _, it := range part {
				f.known.holds(it.key, it.stamp)
			}
			writes = writes[len(part):]
		case bad >= 0:
			f.refused(part[bad].key, err)
			writes = append(append([]write{}, writes[:bad]...), writes[bad+1:]...)
		case isTooMuch(err) && len(part) == 1:
			f.refused(part[0].key, err)
			writes = writes[1:]
		case isTooMuch(err):
			if err := f.postWrites(ctx, replica, part[:len(part)/2]); err != nil {
				return err
			}
			writes = writes[len(part)/2:]
		default:
			if ctx.Err() == nil {
				f.numbers.add("fleet_errors_total", 1, "side", "server", "what", "post")
			}
			return err
		}
	}
	return nil
}

// partOf is a beginning of writes of at most so many and so many bytes, but for the first.
func partOf(writes []write, most, mostBytes int) []write {
	bytes := 0
	for i, it := range writes {
		bytes += len(it.line) + 1
		if i == most || i > 0 && bytes > mostBytes {
			return writes[:i]
		}
	}
	return writes
}

// waiting are the writes that wait to be posted: of each key the greatest, in the order in which their keys came.
type waiting struct {
	most int

	mutex  sync.Mutex
	writes map[string]write
	order  []string
	bytes  int
	since  time.Time
	come   chan struct{}
	gone   chan struct{}
}

func newWaiting(most int) *waiting {
	return &waiting{most: most, writes: map[string]write{}, come: make(chan struct{}, 1), gone: make(chan struct{}, 1)}
}

func nudge(it chan struct{}) {
	select {
	case it <- struct{}{}:
	default:
	}
}

// add has a write wait. It answers whether no more may wait.
func (q *waiting) add(w write) bool {
	q.mutex.Lock()
	defer q.mutex.Unlock()
	was, there := q.writes[w.key]
	if there && !was.stamp.less(w.stamp) {
		return q.bytes >= q.most
	}
	if !there {
		if len(q.order) == 0 {
			q.since = time.Now()
		}
		q.order = append(q.order, w.key)
	}
	q.bytes += len(w.line) - len(was.line)
	q.writes[w.key] = w
	nudge(q.come)
	return q.bytes >= q.most
}

// first waits for writes, and answers some of them, which wait on.
func (q *waiting) first(ctx context.Context, most, mostBytes int) []write {
	for {
		q.mutex.Lock()
		var found []write
		bytes := 0
		for _, key := range q.order {
			it := q.writes[key]
			if len(found) == most || len(found) > 0 && bytes+len(it.line) > mostBytes {
				break
			}
			found, bytes = append(found, it), bytes+len(it.line)
		}
		q.mutex.Unlock()
		if len(found) > 0 {
			return found
		}
		select {
		case <-ctx.Done():
			return nil
		case <-q.come:
		}
	}
}

// done has these writes wait no more, unless a greater one came for their key meanwhile.
func (q *waiting) done(writes []write) {
	q.mutex.Lock()
	defer q.mutex.Unlock()
	var kept []string
	for _, it := range writes {
		if now := q.writes[it.key]; it.stamp.less(now.stamp) {
			kept = append(kept, it.key)
			continue
		}
		q.bytes -= len(it.line)
		delete(q.writes, it.key)
	}
	q.order = append(q.order[len(writes):], kept...)
	q.since = time.Now()
	nudge(q.gone)
}

// waitRoom waits until less than half of what may wait does.
func (q *waiting) waitRoom(ctx context.Context) {
	for {
		q.mutex.Lock()
		bytes := q.bytes
		q.mutex.Unlock()
		if bytes <= q.most/2 {
			return
		}
		select {
		case <-ctx.Done():
			return
		case <-q.gone:
		}
	}
}

// size is how many writes wait, of how many bytes, and for how long the first of them.
func (q *waiting) size() (int, int, time.Duration) {
	q.mutex.Lock()
	defer q.mutex.Unlock()
	if len(q.order) == 0 {
		return 0, 0, 0
	}
	return len(q.order), q.bytes, time.Since(q.since)
}
