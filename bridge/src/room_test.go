package main

import (
	"bytes"
	"testing"
	"time"
)

// anAssembled is one message of so many bytes.
func anAssembled(of byte, size int) *assembled {
	body := &pieces{more: size}
	body.add(bytes.Repeat([]byte{of}, size))
	return &assembled{bodies: []*pieces{body}}
}

// waits has a place wait for room, and answers a channel that tells whether it was there.
func waits(r *room, p *place, size int) chan bool {
	r.mutex.Lock()
	before := r.waiting.Len()
	r.mutex.Unlock()
	got := make(chan bool, 1)
	go func() { got <- p.take(r, size) }()
	for {
		r.mutex.Lock()
		waiting := r.waiting.Len()
		r.mutex.Unlock()
		if waiting > before {
			return got
		}
		time.Sleep(time.Millisecond)
	}
}

// hasLeft fails where a room has less or more left.
func (r *room) hasLeft(t *testing.T, left int) {
	t.Helper()
	r.mutex.Lock()
	defer r.mutex.Unlock()
	if r.left != left {
		t.Fatal(r.left, left)
	}
}

// still fails where something comes.
func still(t *testing.T, got chan bool) {
	t.Helper()
	select {
	case it := <-got:
		t.Fatal("it came: ", it)
	case <-time.After(50 * time.Millisecond):
	}
}

func gaveUp(p *place) bool {
	select {
	case <-p.gone:
		return true
	default:
		return false
	}
}

func TestRoomIsWaitedForInALine(t *testing.T) {
	r := newRoom(10)
	a, b, c, d := newPlace(nil), newPlace(nil), newPlace(nil), newPlace(nil)
	if !a.take(r, 7) {
		t.Fatal("room")
	}
	whole := waits(r, b, 10)
	one := waits(r, c, 1)
	still(t, one) // (there is room for it, but another is before it)
	a.leave()
	if !<-whole {
		t.Fatal("room")
	}
	still(t, one)
	b.leave()
	if !<-one {
		t.Fatal("room")
	}
	r.hasLeft(t, 9)
	// What has more bytes than there are is let in alone, and who gives up waiting lets the next in.
	ended := make(chan struct{})
	d.ended = ended
	large := waits(r, d, 20)
	small := waits(r, a, 1)
	still(t, large)
	still(t, small)
	close(ended)
	if <-large || !<-small {
		t.Fatal("room")
	}
	r.hasLeft(t, 8)
	large = waits(r, b, 20)
	a.leave()
	still(t, large)
	c.leave()
	if !<-large {
		t.Fatal("room")
	}
	r.hasLeft(t, -10)
	b.leave()
	r.hasLeft(t, 10)
}

func TestWhatIsSharedHasRoomOnce(t *testing.T) {
	r := newRoom(1000)
	a, b, c := newPlace(nil), newPlace(nil), newPlace(nil)
	for _, it := range []*place{a, b, c} {
		if !it.take(r, 300) {
			t.Fatal("room")
		}
	}
	r.hasLeft(t, 100)
	one, two := anAssembled('x', 200), anAssembled('y', 200)
	a.sends(one, 5)
	r.hasLeft(t, 195)
	b.sends(one, 5)
	r.hasLeft(t, 490)
	c.sends(two, 5)
	r.hasLeft(t, 585)
	a.leave()
	r.hasLeft(t, 590)
	b.leave()
	r.hasLeft(t, 795)
	c.leave()
	r.hasLeft(t, 1000)
	if len(r.shared) != 0 || r.held.Len() != 0 {
		t.Fatal(r.shared, r.held.Len())
	}
}

// A place that is held for too long is given up where others wait, and no other is.
func TestAPlaceIsNotHeldForGood(t *testing.T) {
	r := newRoom(100)
	r.hold = time.Hour // (who waits looks at its twentieth, and so the test does)
	slow, alike, quick, late := newPlace(nil), newPlace(nil), newPlace(nil), newPlace(nil)
	one, two := anAssembled('x', 40), anAssembled('y', 40)
	for _, it := range []struct {
		of *place
		a  *assembled
	}{{slow, one}, {alike, one}, {quick, two}} {
		if !it.of.take(r, 1) {
			t.Fatal("room")
		}
		it.of.sends(it.a, 0)
	}
	r.hasLeft(t, 20)
	// looks has the room looked at after so many minutes, with places of which the client took something just before.
	looks := func(minutes int, took ...*place) {
		r.mutex.Lock()
		defer r.mutex.Unlock()
		now := time.Now().Add(time.Duration(minutes) * time.Minute)
		for _, it := range []*place{slow, alike, quick} {
			it.until = now.Add(time.Hour)
		}
		for _, it := range took {
			it.moved = now.Add(-time.Minute)
		}
		r.giveUp(now)
	}
	looks(100)
	if gaveUp(slow) || gaveUp(alike) || gaveUp(quick) {
		t.Fatal("nobody waits")
	}
	got := waits(r, late, 50)
	looks(50)
	looks(100, alike, quick) // (one who shares it isn't late, so that it would be kept all the same)
	still(t, got)
	if gaveUp(slow) {
		t.Fatal("it makes no room")
	}
	looks(200, quick)
	if !<-got || !gaveUp(slow) || !gaveUp(alike) || gaveUp(quick) {
		t.Fatal("room")
	}
	if _, ok := slow.piece(0, 0); ok || slow.body(0) != nil {
		t.Fatal("it is still there")
	}
	quick.moved = time.Time{}
	if it, ok := quick.piece(0, 0); !ok || len(it) != 40 || time.Since(quick.moved) > time.Minute {
		t.Fatal(it, ok, quick.moved)
	}
	slow.leave()
	alike.leave()
	r.hasLeft(t, 10)
	quick.leave()
	late.leave()
	r.hasLeft(t, 100)
}

// A text of which the server doesn't send the rest holds up nobody for good, and its stream goes on.
func TestATextThatDoesntComeIsNotCountedForGood(t *testing.T) {
	r := newRoom(100)
	r.hold = 50 * time.Millisecond
	stopped, next := newPlace(nil), newPlace(nil)
	if !stopped.take(r, 80) || !next.take(r, 80) || gaveUp(stopped) {
		t.Fatal("room")
	}
	r.hasLeft(t, 20)
	stopped.sends(anAssembled('x', 30), 1)
	r.hasLeft(t, -11)
	stopped.leave()
	next.leave()
	r.hasLeft(t, 100)
}

// The more bytes a place has, the longer it may be held, while the client takes some of them.
func TestAPlaceIsHeldAsLongAsItsBytesTake(t *testing.T) {
	r := newRoom(100 * leastRate)
	p := newPlace(nil)
	p.take(r, 1)
	begun := time.Now()
	p.sends(anAssembled('x', 3*leastRate), 2*leastRate)
	if takes := p.until.Sub(begun); takes < holdTime+5*time.Second || takes > holdTime+6*time.Second {
		t.Fatal(takes)
	}
	for _, it := range []struct {
		moved, now time.Duration
		late       bool
	}{{0, holdTime - time.Second, false}, {0, holdTime + time.Second, true}, {holdTime, holdTime + 4*time.Second, false},
		{holdTime + 5*time.Second, holdTime + 7*time.Second, true}} {
		p.moved = begun.Add(it.moved)
		if r.isLate(p, begun.Add(it.now)) != it.late {
			t.Error(it)
		}
	}
}

func TestSmallTextsDontWaitForLargeOnes(t *testing.T) {
	r := newRooms()
	if r.of(largeFrom-1) != r.small || r.of(largeFrom) != r.large || r.small.left != smallRoom || r.large.left != largeRoom {
		t.Fatal(r)
	}
}
