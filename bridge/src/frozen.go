package main

import (
	"sort"
	"sync"
	"time"
)

const (
	// frozenLook is how often types are looked at that are frozen, and frozenAgain how often it is told that one still is.
	frozenLook  = time.Second
	frozenAgain = time.Minute
)

// frozen are the types of which some clients have a response that was refused in their place, and nothing since.
type frozen struct {
	tell  *teller
	mutex sync.Mutex
	types map[string]*ice
}

// ice is what is known of one frozen type.
type ice struct {
	since   time.Time
	why     string
	waiting map[*stream]bool
	told    string // the cause that was told last, or empty
	toldAt  time.Time
}

func newFrozen(tell *teller) *frozen {
	return &frozen{tell: tell, types: map[string]*ice{}}
}

// add notes that a stream waits for a type.
func (f *frozen) add(typeURL string, s *stream, why string) {
	f.mutex.Lock()
	defer f.mutex.Unlock()
	it := f.types[typeURL]
	if it == nil {
		it = &ice{since: time.Now(), waiting: map[*stream]bool{}}
		f.types[typeURL] = it
	} else if len(it.waiting) == 0 {
		it.since = time.Now()
	}
	it.why = why
	it.waiting[s] = true
}

// remove notes that a stream doesn't wait for a type any more.
func (f *frozen) remove(typeURL string, s *stream) {
	f.mutex.Lock()
	defer f.mutex.Unlock()
	if it := f.types[typeURL]; it != nil {
		delete(it.waiting, s)
	}
}

// leave notes that a stream has ended.
func (f *frozen) leave(s *stream) {
	f.mutex.Lock()
	defer f.mutex.Unlock()
	for _, it := range f.types {
		delete(it.waiting, s)
	}
}

// watch tells what freezes and thaws, until the bridge stops.
func (f *frozen) watch(stopping <-chan struct{}) {
	look := time.NewTicker(frozenLook)
	defer look.Stop()
	for {
		select {
		case <-look.C:
			f.look(time.Now())
		case <-stopping:
			return
		}
	}
}

// look tells each type that is frozen since the last look, for another cause than was told, or still after a while, and
// each that isn't any more.
func (f *frozen) look(now time.Time) {
	f.mutex.Lock()
	defer f.mutex.Unlock()
	for typeURL, it := range f.types {
		switch {
		case len(it.waiting) == 0:
			if it.told != "" {
				f.tell.say("%s isn't frozen any more: no client waits", typeURL)
			}
			delete(f.types, typeURL)
		case it.told != it.why || now.Sub(it.toldAt) >= frozenAgain:
			it.told, it.toldAt = it.why, now
			clients := "clients wait"
			if len(it.waiting) == 1 {
				clients = "client waits"
			}
			f.tell.say("%s is frozen since %s, %d %s: %s", typeURL, it.since.UTC().Format(time.RFC3339), len(it.waiting), clients, it.why)
		}
	}
}

// A frozenType is what numbers say of one.
type frozenType struct {
	typeURL, why string
	since        time.Time
	clients      int
}

// all are the frozen types, in the order of their names.
func (f *frozen) all() (found []frozenType) {
	f.mutex.Lock()
	defer f.mutex.Unlock()
	for typeURL, it := range f.types {
		if len(it.waiting) > 0 {
			found = append(found, frozenType{typeURL, it.why, it.since, len(it.waiting)})
		}
	}
	sort.Slice(found, func(i, j int) bool { return found[i].typeURL < found[j].typeURL })
	return found
}
