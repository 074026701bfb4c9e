package main

import "sync"

// limits know how long responses are, and tell once when one is longer than half of what it may be.
type limits struct {
	bridge *bridge
	mutex  sync.Mutex
	above  map[string]bool // by what is limited: the last one was longer
}

// crosses tells whether a size is above half of a limit and the one before of its kind wasn't.
func (l *limits) crosses(what string, size, most int) bool {
	l.mutex.Lock()
	defer l.mutex.Unlock()
	above, before := size > most/2, l.above[what]
	l.above[what] = above
	return above && !before
}

// note notes a whole response: how long its text is, and of the state of the world its message.
func (l *limits) note(typeURL string, v *variant, text, message int) {
	b := l.bridge
	b.counters.set(numBytes, int64(text), "type", typeURL, "variant", v.name())
	if l.crosses(typeURL+" text "+v.name(), text, maxText) {
		b.tell.few("long responses", "%s (%s): a response of the control plane has %d bytes, more than half of the %d that a frame may have",
			typeURL, v.name(), text, maxText)
	}
	if !v.delta && l.crosses(typeURL+" message", message, b.maxMessage) {
		b.tell.few("long responses", "%s: a response to a client has %d bytes, more than half of the %d of --max-message, and can't be split",
			typeURL, message, b.maxMessage)
	}
}
