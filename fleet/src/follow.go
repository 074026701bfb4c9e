package main

import (
	"context"
	"time"
)

// lastTime is how long the last changes may take to be put, once the program is told to stop.
const lastTime = 3 * time.Second

// follow puts what changes at the server in etcd, until it is told to stop. What changed is asked for again where it couldn't be put, and
// nothing more is asked for meanwhile: the server keeps it, the latest write of each name.
func (f *fleet) follow(ctx context.Context) {
	marks, failures := "", 0
	for ctx.Err() == nil {
		now, err := f.followOnce(ctx, marks, followWait)
		if err != nil {
			if failures++; !pause(ctx, failures) {
				return
			}
			continue
		}
		marks, failures = now, 0
		f.health.put()
	}
}

// followOnce puts what changed at the server after these marks, and answers the marks then.
func (f *fleet) followOnce(ctx context.Context, marks string, wait int) (string, error) {
	var writes []write
	bytes := 0
	flush := func() error {
		err := f.store.putAll(ctx, f.known, writes)
		writes, bytes = nil, 0
		if err == nil {
			f.health.etcd()
			return nil
		}
		if isTooLarge(err) {
			f.numbers.add("fleet_too_large_total", 1)
			f.tell.sometimes("large", "a write has more bytes than etcd takes, and isn't put: %v", cause(err))
			return nil
		}
		f.health.behind()
		f.tell.sometimes("put", "changes aren't put in etcd: %v", cause(err))
		return err
	}
	now, err := f.server.changed(ctx, marks, wait, func(line []byte) error {
		it, err := readWrite(line)
		if err != nil {
			return err
		}
		f.known.holds(it.key, it.stamp)
		if !f.known.of(it.key).stands.less(it.stamp) {
			return nil
		}
		writes, bytes = append(writes, it), bytes+len(line)
		if len(writes) >= f.o.putWrites || bytes >= f.o.putBytes {
			return flush()
		}
		return nil
	})
	if err == nil && len(writes) > 0 {
		err = flush()
	}
	if err != nil {
		if ctx.Err() == nil {
			f.numbers.add("fleet_retries_total", 1, "what", "follow")
		}
		return "", err
	}
	f.health.server()
	return now, nil
}

// passLast puts the last changes in etcd before the server is stopped.
func (f *fleet) passLast() {
	ctx, end := context.WithTimeout(context.Background(), lastTime)
	defer end()
	for failures := 0; ; failures++ {
		_, err := f.followOnce(ctx, "", 0)
		if err == nil {
			return
		}
		if !pause(ctx, failures) {
			f.tell.say("the last changes may not be in etcd: %v", cause(err))
			return
		}
	}
}
