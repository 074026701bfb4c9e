package main

import (
	"fmt"
	"io"
	"strings"
	"sync"
	"time"
	"unicode/utf8"
)

const (
	// mostLines is how many lines wait for the error output; what has no room is dropped, and counted.
	mostLines = 1024
	// longestLine is how many bytes of a line are told.
	longestLine = 2000
	// fewLines is how many lines of one kind are told in fewTime; the others are counted.
	fewLines = 20
	fewTime  = 10 * time.Second
	// mostKeys is how many things that are told once are remembered.
	mostKeys = 4096
	// lastLines is how long the program waits at its end for the error output to take what waits.
	lastLines = time.Second
)

// A teller tells lines on the error output. Nobody waits for it: lines wait in a queue, and what has no room is counted.
type teller struct {
	to    io.Writer
	lines chan string
	done  chan struct{}

	mutex   sync.Mutex
	closed  bool
	dropped int // since the last line that says so
	lost    int // in all
	kinds   map[string]*kind
	once    map[string]bool
	order   []string // of what once has, the oldest first
}

// A kind is of lines that are told a few at a time.
type kind struct {
	told, left int // since the last look
}

func newTeller(to io.Writer) *teller {
	t := &teller{to: to, lines: make(chan string, mostLines), done: make(chan struct{}), kinds: map[string]*kind{}, once: map[string]bool{}}
	go t.write()
	return t
}

// write is the one thread that waits for the error output.
func (t *teller) write() {
	defer close(t.done)
	look := time.NewTicker(fewTime)
	defer look.Stop()
	for {
		select {
		case line, ok := <-t.lines:
			if !ok {
				return
			}
			_, _ = io.WriteString(t.to, "bridge: "+line+"\n")
		case <-look.C:
			t.look()
		}
		t.mutex.Lock()
		dropped := t.dropped
		t.dropped = 0
		t.mutex.Unlock()
		if dropped > 0 {
			_, _ = fmt.Fprintf(t.to, "bridge: %d lines are left out\n", dropped)
		}
	}
}

// look tells how many lines of each kind weren't told since the last look.
func (t *teller) look() {
	t.mutex.Lock()
	defer t.mutex.Unlock()
	for name, it := range t.kinds {
		if it.left > 0 {
			t.add(fmt.Sprintf("%s: %d more in %v", name, it.left, fewTime))
		}
		it.told, it.left = 0, 0
	}
}

// say tells a line.
func (t *teller) say(format string, words ...interface{}) {
	line := oneLine(fmt.Sprintf(format, words...))
	t.mutex.Lock()
	defer t.mutex.Unlock()
	t.add(line)
}

// few tells a line of a kind, of which a few are told in a time and the others counted.
func (t *teller) few(name string, format string, words ...interface{}) {
	line := oneLine(name + ": " + fmt.Sprintf(format, words...))
	t.mutex.Lock()
	defer t.mutex.Unlock()
	it := t.kinds[name]
	if it == nil {
		it = new(kind)
		t.kinds[name] = it
	}
	if it.told == fewLines {
		it.left++
		return
	}
	it.told++
	t.add(line)
}

// first tells whether a key is a new one. The oldest are forgotten.
func (t *teller) first(key string) bool {
	t.mutex.Lock()
	defer t.mutex.Unlock()
	if t.once[key] {
		return false
	}
	if len(t.order) == mostKeys {
		delete(t.once, t.order[0])
		t.order = append(t.order[:0], t.order[1:]...)
	}
	t.once[key] = true
	t.order = append(t.order, key)
	return true
}

// add queues a line, with the mutex held.
func (t *teller) add(line string) {
	if t.closed {
		return
	}
	select {
	case t.lines <- line:
	default:
		t.dropped++
		t.lost++
	}
}

// leftOut is how many lines were left out in all.
func (t *teller) leftOut() int {
	t.mutex.Lock()
	defer t.mutex.Unlock()
	return t.lost
}

// close tells what waits, as far as the error output takes it in a while.
func (t *teller) close() {
	t.mutex.Lock()
	if !t.closed {
		t.closed = true
		close(t.lines)
	}
	t.mutex.Unlock()
	select {
	case <-t.done:
	case <-time.After(lastLines):
	}
}

// oneLine is a text without what ends a line or moves a terminal's cursor, and not longer than a line may be.
func oneLine(text string) string {
	text = shortened(text, longestLine)
	return strings.Map(func(r rune) rune {
		if r < ' ' || (r >= 0x7f && r < 0xa0) {
			return '?'
		}
		return r
	}, text)
}

// shortened is a text's beginning of at most some bytes, with no piece of a letter at its end.
func shortened(text string, most int) string {
	if len(text) <= most {
		return text
	}
	for most > 0 && !utf8.RuneStart(text[most]) {
		most--
	}
	return text[:most]
}
