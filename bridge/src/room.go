package main

import (
	"container/list"
	"sync"
	"time"
)

const (
	// roomFrom is how many bytes the text of a response has from which on it needs a place.
	roomFrom = 64 << 10
	// largeFrom is how many it has from which on its place is of the room for large ones.
	largeFrom = 1 << 20
	smallRoom = 32 << 20
	largeRoom = 64 << 20
	// Where others wait, a place is given up of which the client took nothing for holdTime, or that is held for as long and a
	// second for each leastRate of its bytes.
	holdTime  = 10 * time.Second
	leastRate = 256 << 10
)

// rooms are for the bytes of long responses that are under way. Small ones don't wait for large ones.
type rooms struct{ small, large *room }

func newRooms() *rooms { return &rooms{newRoom(smallRoom), newRoom(largeRoom)} }

// of is the room for a text of so many bytes.
func (r *rooms) of(size int) *room {
	if size < largeFrom {
		return r.small
	}
	return r.large
}

// A room has so many bytes for responses that are under way. While the text of one is read and converted, these are the
// text's. While it is sent, they are those of what was made of it, which count once for all streams that share it. Who finds
// no room waits in a line.
type room struct {
	hold time.Duration

	mutex   sync.Mutex
	left    int                // less than 0 where what was made of texts has more bytes than these
	waiting *list.List         // of *place
	held    *list.List         // of *place, the one that is held longest in front
	shared  map[*assembled]int // how many places have it
}

func newRoom(size int) *room {
	return &room{hold: holdTime, left: size, waiting: list.New(), held: list.New(), shared: map[*assembled]int{}}
}

// A place is what a stream has of a room. It is the stream's thread of responses that takes and leaves it.
type place struct {
	ended <-chan struct{} // closed once the stream ends
	gone  chan struct{}   // closed once the place was given up while the client was sent something
	room  *room           // or nil where what is sent is short

	// With the room's mutex held:
	at     *list.Element // in held, or nil
	size   int           // bytes of its own
	shares *assembled    // what the client is sent
	own    *pieces       // a message in bytes of its own, which is sent in place of a shared one, or nil
	moved  time.Time     // when the client took something last
	until  time.Time     // how long it may be held where others wait
	free   chan struct{} // closed once there is room
}

func newPlace(ended <-chan struct{}) *place {
	return &place{ended: ended, gone: make(chan struct{})}
}

// take waits for room for a text, and tells whether it was there before the stream ended.
func (p *place) take(r *room, size int) bool {
	r.mutex.Lock()
	p.room, p.size, p.free = r, size, make(chan struct{})
	at := r.waiting.PushBack(p)
	r.next()
	r.mutex.Unlock()
	select {
	case <-p.free:
		return true
	default:
	}
	look := time.NewTicker(r.hold/20 + time.Millisecond)
	defer look.Stop()
	for {
		select {
		case <-p.free:
			return true
		case now := <-look.C:
			r.mutex.Lock()
			r.giveUp(now)
			r.mutex.Unlock()
		case <-p.ended:
			r.mutex.Lock()
			defer r.mutex.Unlock()
			select {
			case <-p.free: // (just now)
				r.drop(p)
			default:
				r.waiting.Remove(at)
				p.size = 0
			}
			r.next()
			p.room = nil
			return false
		}
	}
}

// sends makes a text's place one for what was made of the text, with so many bytes of its own.
func (p *place) sends(a *assembled, own int) {
	r := p.room
	if r == nil {
		p.shares = a
		return
	}
	r.mutex.Lock()
	defer r.mutex.Unlock()
	r.drop(p)
	if r.shared[a]++; r.shared[a] == 1 {
		r.left -= a.size()
		a.isSent(1)
	}
	r.left -= own
	p.shares, p.size = a, own
	r.holds(p, a.size()+own)
	r.next()
}

// sendsOwn has a message sent in bytes of the place's own, or with nil none any more.
func (p *place) sendsOwn(own *pieces) {
	if r := p.room; r != nil {
		r.mutex.Lock()
		defer r.mutex.Unlock()
	}
	if p.shares != nil { // (else it was given up)
		p.own = own
	}
}

// body is one of the messages that the client is sent, or nil where the place was given up.
func (p *place) body(message int) *pieces {
	if r := p.room; r != nil {
		r.mutex.Lock()
		defer r.mutex.Unlock()
	}
	if p.shares == nil {
		return nil
	}
	return p.shares.bodies[message]
}

// piece is a piece of what the client is sent in one of the messages, nil behind the last one. It answers false where the
// place was given up.
func (p *place) piece(message, at int) (piece []byte, ok bool) {
	if r := p.room; r != nil {
		r.mutex.Lock()
		defer r.mutex.Unlock()
	}
	if p.shares == nil {
		return nil, false
	}
	from := p.shares.bodies[message]
	if p.own != nil {
		from = p.own
	}
	if at < len(from.all) {
		piece = from.all[at]
	}
	p.moved = time.Now()
	return piece, true
}

// leave gives the place back.
func (p *place) leave() {
	if r := p.room; r != nil {
		r.mutex.Lock()
		r.drop(p)
		r.next()
		r.mutex.Unlock()
		p.room = nil
	}
	p.shares, p.own = nil, nil
}

// What follows is done with the room's mutex held.

// holds notes that a place of so many bytes is held from now on.
func (r *room) holds(p *place, size int) {
	p.moved = time.Now()
	p.until = p.moved.Add(r.hold + time.Duration(size)*time.Second/leastRate)
	p.at = r.held.PushBack(p)
}

// isLate tells whether a place is held for too long.
func (r *room) isLate(p *place, now time.Time) bool {
	return now.After(p.until) || (p.shares != nil && now.Sub(p.moved) > r.hold)
}

// drop takes from a place what it holds.
func (r *room) drop(p *place) {
	if p.at == nil {
		return
	}
	r.held.Remove(p.at)
	r.left += p.size
	if a := p.shares; a != nil {
		if r.shared[a]--; r.shared[a] == 0 {
			delete(r.shared, a)
			r.left += a.size()
			a.isSent(-1)
		}
	}
	p.at, p.size, p.shares, p.own = nil, 0, nil, nil
}

// next lets in who waits. What has more bytes than there are is let in alone.
func (r *room) next() {
	for at := r.waiting.Front(); at != nil; at = r.waiting.Front() {
		p := at.Value.(*place)
		if p.size > r.left && r.held.Len() > 0 {
			return
		}
		r.waiting.Remove(at)
		r.left -= p.size
		r.holds(p, p.size)
		close(p.free)
	}
}

// giveUp gives places up that are held for too long, as long as someone waits. A text of which the server doesn't send the
// rest isn't counted any more. What is sent is given up where all who share it are late, and their streams end.
func (r *room) giveUp(now time.Time) {
	late := map[*assembled][]*place{}
	for at := r.held.Front(); at != nil && r.waiting.Len() > 0; {
		p := at.Value.(*place)
		at = at.Next()
		if !r.isLate(p, now) {
			continue
		}
		a := p.shares
		if a == nil {
			r.drop(p)
			r.next()
			continue
		}
		if late[a] = append(late[a], p); len(late[a]) < r.shared[a] {
			continue
		}
		for _, it := range late[a] {
			r.drop(it)
			select {
			case <-it.gone:
			default:
				close(it.gone)
			}
		}
		r.next()
	}
}
