package main

import (
	"fmt"
	"io"
	"strings"
	"sync"
	"time"
	"unicode"
)

const (
	// mostLines is how many lines wait for the error output; what has no room is dropped, and counted.
	mostLines = 1024
	// longestLine is how many bytes of a line are told.
	longestLine = 2000
	// onceIn is how often lines of one kind are told.
	onceIn = 2 * time.Second
	// lastLines is how long the program waits at its end for the error output to take what waits.
	lastLines = time.Second
)

// A teller tells lines on the error output. Nobody waits for it: lines wait in a queue.
type teller struct {
	lines chan string
	done  chan struct{}

	mutex   sync.Mutex
	closed  bool
	dropped int
	kinds   map[string]*kind
}

// A kind is of lines that are told once in a while.
type kind struct {
	told time.Time
	left int // since then
}

func newTeller(to io.Writer) *teller {
	t := &teller{lines: make(chan string, mostLines), done: make(chan struct{}), kinds: map[string]*kind{}}
	go func() {
		defer close(t.done)
		for line := range t.lines {
			_, _ = io.WriteString(to, "fleet: "+line+"\n")
			if dropped := t.forget(); dropped > 0 {
				_, _ = fmt.Fprintf(to, "fleet: %d lines are left out\n", dropped)
			}
		}
	}()
	return t
}

func (t *teller) forget() int {
	t.mutex.Lock()
	defer t.mutex.Unlock()
	dropped := t.dropped
	t.dropped = 0
	return dropped
}

// say tells a line, with a question mark for each control character.
func (t *teller) say(format string, values ...interface{}) {
	line := strings.Map(func(r rune) rune {
		if unicode.IsControl(r) {
			return '?'
		}
		return r
	}, fmt.Sprintf(format, values...))
	if len(line) > longestLine {
		line = line[:longestLine] + ".."
	}
	t.mutex.Lock()
	defer t.mutex.Unlock()
	if t.closed {
		return
	}
	select {
	case t.lines <- line:
	default:
		t.dropped++
	}
}

// sometimes tells a line of a kind, unless one was told just before.
func (t *teller) sometimes(name, format string, values ...interface{}) {
	t.mutex.Lock()
	it := t.kinds[name]
	if it == nil {
		it = &kind{}
		t.kinds[name] = it
	}
	if time.Since(it.told) < onceIn {
		it.left++
		t.mutex.Unlock()
		return
	}
	left := it.left
	it.told, it.left = time.Now(), 0
	t.mutex.Unlock()
	if left > 0 {
		t.say("%s (and %d such lines before)", fmt.Sprintf(format, values...), left)
		return
	}
	t.say(format, values...)
}

// close tells what waits, for a moment at most.
func (t *teller) close() {
	t.mutex.Lock()
	t.closed = true
	close(t.lines)
	t.mutex.Unlock()
	select {
	case <-t.done:
	case <-time.After(lastLines):
	}
}
