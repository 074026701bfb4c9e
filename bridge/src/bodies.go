package main

import (
	"container/list"
	"sync"
)

// entryCost is what an entry is counted with beside its texts.
const entryCost = 256

// bodies keeps converted resources by their JSON texts, however many streams want them. What was used longest ago
// goes first once they take more than a bound. A text that is being converted isn't converted a second time
// meanwhile: who wants it waits for it.
type bodies struct {
	convert func(text []byte) ([]byte, error)
	most    int

	mutex   sync.Mutex
	held    map[string]*list.Element
	recent  *list.List // of *body, the one used last in front
	bytes   int
	made    int // how many conversions there were
	dropped int // how many entries went
}

type body struct {
	text  string
	done  chan struct{} // closed once wire and err are there
	wire  []byte
	err   error
	bytes int
}

func newBodies(most int, convert func(text []byte) ([]byte, error)) *bodies {
	return &bodies{convert: convert, most: most, held: map[string]*list.Element{}, recent: list.New()}
}

// of gives what a text is converted to, or why it can't be.
func (b *bodies) of(text []byte) ([]byte, error) {
	b.mutex.Lock()
	if found, ok := b.held[string(text)]; ok {
		b.recent.MoveToFront(found)
		b.mutex.Unlock()
		it := found.Value.(*body)
		<-it.done
		return it.wire, it.err
	}
	it := &body{text: string(text), done: make(chan struct{})}
	b.made++
	b.held[it.text] = b.recent.PushFront(it)
	b.weigh(it)
	b.mutex.Unlock()

	it.wire, it.err = b.convert(text)
	close(it.done)

	b.mutex.Lock()
	if _, ok := b.held[it.text]; ok && b.held[it.text].Value == it {
		b.weigh(it)
	}
	b.mutex.Unlock()
	return it.wire, it.err
}

// has tells whether a text is converted, or can't be, which takes no time to find.
func (b *bodies) has(text []byte) bool {
	b.mutex.Lock()
	defer b.mutex.Unlock()
	found, ok := b.held[string(text)]
	if !ok {
		return false
	}
	select {
	case <-found.Value.(*body).done:
		return true
	default:
		return false
	}
}

// weigh counts an entry as it now is, and drops what there is no room for.
func (b *bodies) weigh(it *body) {
	b.bytes -= it.bytes
	it.bytes = entryCost + len(it.text) + len(it.wire)
	b.bytes += it.bytes
	for b.bytes > b.most {
		last := b.recent.Back()
		gone := b.recent.Remove(last).(*body)
		delete(b.held, gone.text)
		b.bytes -= gone.bytes
		b.dropped++
	}
}
