package main

import (
	"context"
	"sync"
)

// What is known of a key: the stamp that stands in etcd and the revision it came by (0: nothing stands there), and the greatest stamp
// that the server is known to hold.
type entry struct {
	stands   stamp
	revision int64
	held     stamp
}

// known has the entries of all keys.
type known struct {
	mutex   sync.Mutex
	entries map[string]entry
	moved   chan struct{} // closed whenever something stands
}

func newKnown() *known { return &known{entries: map[string]entry{}, moved: make(chan struct{})} }

func (k *known) size() int {
	k.mutex.Lock()
	defer k.mutex.Unlock()
	return len(k.entries)
}

func (k *known) of(key string) entry {
	k.mutex.Lock()
	defer k.mutex.Unlock()
	return k.entries[key]
}

// stood notes what stands in etcd, unless something later is known.
func (k *known) stood(key string, s stamp, revision int64) {
	k.mutex.Lock()
	defer k.mutex.Unlock()
	it := k.entries[key]
	if revision != 0 && revision < it.revision {
		return
	}
	it.stands, it.revision = s, revision
	k.entries[key] = it
	close(k.moved)
	k.moved = make(chan struct{})
}

// holds notes what the server holds.
func (k *known) holds(key string, s stamp) {
	k.mutex.Lock()
	defer k.mutex.Unlock()
	it := k.entries[key]
	if it.held.less(s) {
		it.held = s
		k.entries[key] = it
	}
}

// wait waits until a stamp, or a greater one, stands at a key. It answers false where that doesn't come about in time.
func (k *known) wait(ctx context.Context, key string, s stamp) bool {
	for {
		k.mutex.Lock()
		stands, moved := k.entries[key].stands, k.moved
		k.mutex.Unlock()
		if !stands.less(s) {
			return true
		}
		select {
		case <-ctx.Done():
			return false
		case <-moved:
		}
	}
}
