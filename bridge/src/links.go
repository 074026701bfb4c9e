package main

import (
	"context"
	"errors"
	"io"
	"net"
	"os"
	"runtime"
	"sort"
	"sync"
	"syscall"
	"time"
)

// A link is a connection to the control plane, of a stream. A thread for each, which sleeps until something comes, takes longer to
// wake than a short response takes to be carried. So a few loops wait for all links. What a loop can carry at once it does; a link
// with more to do than that is lent to a thread of its own, which gives it back.
type link struct {
	loop        *loop
	fd          int
	local, peer net.Addr
	quick       func(bytes []byte, to *batch) (done int) // carries whole frames as far as that needs no waiting
	slow        func(rest []byte)                        // begins to carry what is left, in a thread of its own

	over     chan struct{} // closed once the link is
	readable chan struct{} // has one in it where something came since its thread looked
	writable chan struct{} // has one in it where there was room again since a writer looked

	reading sync.Mutex // held while it is read, for moments
	failed  error      // what reading met, if it can't be read any more
	empty   bool       // all was read that was there
	writing sync.Mutex // held while something is written; both are held while it is closed

	mutex  sync.Mutex // held for moments, of what stands below
	closed bool
	lent   bool // to a thread of its own
	came   bool // something came since that thread looked
	ending bool // the end is among what is to be read
	waits  bool // a writer waits for room
}

// errLater is what a link that has nothing to read now says where it isn't waited for.
var errLater = errors.New("there is nothing to read yet")

// links are the loops that links are waited for by.
type links struct {
	mutex sync.Mutex
	loops []*loop
	next  int
}

// dial opens a link. It isn't read before it begins.
func (a *links) dial(ctx context.Context, address string) (*link, error) {
	o, err := a.loop()
	if err != nil {
		return nil, err
	}
	dialer := net.Dialer{Timeout: dialTime}
	conn, err := dialer.DialContext(ctx, "tcp", address)
	if err != nil {
		return nil, err
	}
	defer conn.Close()
	l := &link{loop: o, local: conn.LocalAddr(), peer: conn.RemoteAddr(), over: make(chan struct{}),
		readable: make(chan struct{}, 1), writable: make(chan struct{}, 1)}
	raw, err := conn.(*net.TCPConn).SyscallConn()
	if err != nil {
		return nil, err
	}
	// (another descriptor of the same socket, which Go's own loop doesn't know)
	var at uintptr
	var errno syscall.Errno
	if err := raw.Control(func(fd uintptr) {
		at, _, errno = syscall.Syscall(syscall.SYS_FCNTL, fd, syscall.F_DUPFD_CLOEXEC, 0)
	}); err != nil {
		return nil, err
	}
	if errno != 0 {
		return nil, os.NewSyscallError("fcntl", errno)
	}
	l.fd = int(at)
	return l, nil
}

// loop is the loop for one more link. The first has all begin.
func (a *links) loop() (*loop, error) {
	a.mutex.Lock()
	defer a.mutex.Unlock()
	for len(a.loops) < loopsOf(runtime.GOMAXPROCS(0)) {
		o, err := newLoop()
		if err != nil {
			return nil, err
		}
		a.loops = append(a.loops, o)
		go o.run()
	}
	a.next++
	return a.loops[a.next%len(a.loops)], nil
}

// loopsOf is how many loops there are for so many processors.
func loopsOf(processors int) int {
	return (processors + 3) / 4
}

// begin has the link read from now on.
func (l *link) begin(quick func(bytes []byte, to *batch) int, slow func(rest []byte)) error {
	l.quick, l.slow = quick, slow
	return l.loop.add(l)
}

// now reads what is there, and answers errLater where there is nothing.
func (l *link) now(to []byte) (int, error) {
	l.reading.Lock()
	defer l.reading.Unlock()
	if l.failed != nil {
		return 0, l.failed
	}
	for {
		n, err := syscall.Read(l.fd, to)
		switch {
		case err == syscall.EINTR:
			continue
		case err == syscall.EAGAIN:
			l.empty = true
			return 0, errLater
		case err != nil:
			l.failed = l.fault("read", err)
		case n == 0 && len(to) > 0:
			l.failed = io.EOF
		default:
			l.empty = n < len(to)
			return n, nil
		}
		return 0, l.failed
	}
}

// fault is an error as those of connections are.
func (l *link) fault(what string, err error) error {
	return &net.OpError{Op: what, Net: l.peer.Network(), Source: l.local, Addr: l.peer, Err: os.NewSyscallError(what, err)}
}

// Read reads what is there, and waits until something is. It is for the thread that the link is lent to.
func (l *link) Read(to []byte) (int, error) {
	for {
		n, err := l.now(to)
		if err != errLater {
			return n, err
		}
		select {
		case <-l.readable:
		case <-l.over:
			return 0, net.ErrClosed
		}
	}
}

// Write writes all, and waits until there is room for it.
func (l *link) Write(from []byte) (done int, err error) {
	l.writing.Lock()
	defer l.writing.Unlock()
	for waits := false; ; {
		if l.isOver() {
			return done, net.ErrClosed
		}
		n, err := syscall.Write(l.fd, from[done:])
		if n > 0 {
			done += n
		}
		switch {
		case err == syscall.EINTR:
		case err == syscall.EAGAIN && !waits:
			waits = true // (from now on the loop tells of room; there may be some since)
			l.waitsForRoom(true)
			defer l.waitsForRoom(false)
		case err == syscall.EAGAIN:
			select {
			case <-l.writable:
			case <-l.over:
			}
		case err != nil:
			return done, l.fault("write", err)
		case done == len(from):
			return done, nil
		}
	}
}

func (l *link) waitsForRoom(waits bool) {
	l.mutex.Lock()
	defer l.mutex.Unlock()
	l.waits = waits
}

func (l *link) isOver() bool {
	select {
	case <-l.over:
		return true
	default:
		return false
	}
}

// CloseWrite says that nothing more will be written.
func (l *link) CloseWrite() error {
	l.writing.Lock()
	defer l.writing.Unlock()
	if l.isOver() {
		return net.ErrClosed
	}
	if err := syscall.Shutdown(l.fd, syscall.SHUT_WR); err != nil {
		return l.fault("shutdown", err)
	}
	return nil
}

// Close closes the link. Who reads or writes it is told so.
func (l *link) Close() {
	l.mutex.Lock()
	closed := l.closed
	l.closed = true
	l.mutex.Unlock()
	if closed {
		return
	}
	close(l.over)
	l.loop.remove(l)
	l.reading.Lock()
	defer l.reading.Unlock()
	l.writing.Lock()
	defer l.writing.Unlock()
	l.failed = net.ErrClosed
	_ = syscall.Close(l.fd)
}

// lend lends the link to a thread of its own. There may be more to read where more says so.
func (l *link) lend(rest []byte, more bool) {
	l.keep(more)
	l.slow(append([]byte(nil), rest...))
}

// keep keeps the link from its loop.
func (l *link) keep(more bool) {
	l.mutex.Lock()
	defer l.mutex.Unlock()
	l.lent, l.came = true, more
}

// back gives a link that was lent back to its loop. It answers false where there may be something to read, and always where the end
// is, which no event tells again.
func (l *link) back() bool {
	l.reading.Lock()
	empty := l.empty
	l.reading.Unlock()
	l.mutex.Lock()
	defer l.mutex.Unlock()
	lent := l.came || !empty || l.ending
	l.lent, l.came = lent, false
	return !lent
}

// isEnding tells whether the end is among what is to be read.
func (l *link) isEnding() bool {
	l.mutex.Lock()
	defer l.mutex.Unlock()
	return l.ending
}

// The events of a link. They come once each time that there is something new.
const (
	eventEdge = 1 << 31 // EPOLLET, as a number that isn't negative
	eventEnd  = syscall.EPOLLRDHUP | syscall.EPOLLHUP | syscall.EPOLLERR
	eventRead = syscall.EPOLLIN | eventEnd
)

// happens notes an event of the link, and tells whether the loop is to read it.
func (l *link) happens(events uint32) bool {
	l.mutex.Lock()
	defer l.mutex.Unlock()
	if l.waits {
		select {
		case l.writable <- struct{}{}:
		default:
		}
	}
	if events&eventRead == 0 || l.closed {
		return false
	}
	l.ending = l.ending || events&eventEnd != 0
	if !l.lent {
		return true
	}
	l.came = true
	select {
	case l.readable <- struct{}{}:
	default:
	}
	return false
}

// A loop waits for many links.
type loop struct {
	epoll  int
	buffer []byte
	batch  batch

	mutex sync.Mutex
	links map[int32]*link // by their descriptors
}

// loopBuffer is how many bytes a loop reads of a link at a time: a short response fits.
const loopBuffer = sharedFrom + frameHead

func newLoop() (*loop, error) {
	fd, err := syscall.EpollCreate1(syscall.EPOLL_CLOEXEC)
	if err != nil {
		return nil, os.NewSyscallError("epoll_create1", err)
	}
	return &loop{epoll: fd, buffer: make([]byte, loopBuffer), links: map[int32]*link{}}, nil
}

// add waits for a link, too.
func (o *loop) add(l *link) error {
	o.mutex.Lock()
	defer o.mutex.Unlock()
	o.links[int32(l.fd)] = l
	event := syscall.EpollEvent{Events: syscall.EPOLLIN | syscall.EPOLLOUT | syscall.EPOLLRDHUP | eventEdge, Fd: int32(l.fd)}
	if err := syscall.EpollCtl(o.epoll, syscall.EPOLL_CTL_ADD, l.fd, &event); err != nil {
		delete(o.links, int32(l.fd))
		return os.NewSyscallError("epoll_ctl", err)
	}
	return nil
}

func (o *loop) remove(l *link) {
	o.mutex.Lock()
	defer o.mutex.Unlock()
	if o.links[int32(l.fd)] == l {
		delete(o.links, int32(l.fd))
		_ = syscall.EpollCtl(o.epoll, syscall.EPOLL_CTL_DEL, l.fd, new(syscall.EpollEvent))
	}
}

// of is the link of an event, or nil where it was closed meanwhile.
func (o *loop) of(event *syscall.EpollEvent) *link {
	o.mutex.Lock()
	defer o.mutex.Unlock()
	return o.links[event.Fd]
}

// run waits for links for good.
func (o *loop) run() {
	events := make([]syscall.EpollEvent, 128)
	var p pace
	for wait := -1; ; {
		n, err := syscall.EpollWait(o.epoll, events, wait)
		if err != nil && err != syscall.EINTR {
			panic(os.NewSyscallError("epoll_wait", err)) // (by no descriptor or memory that isn't there)
		}
		if n <= 0 {
			wait = -1
			continue
		}
		for i := range events[:n] {
			if l := o.of(&events[i]); l != nil && l.happens(events[i].Events) {
				o.take(l, events[i].Events)
			}
		}
		o.batch.send()
		runtime.Gosched() // (what was sent is written now, and not once this thread sleeps)
		wait = 0
		if n < len(events) {
			wait = -1
			if rest := p.rests(time.Now(), n); rest > 0 {
				sleep(rest)
				wait = 0
			}
		}
	}
}

// take reads a link, and carries what can be carried at once.
func (o *loop) take(l *link, events uint32) {
	n, err := l.now(o.buffer)
	if err == errLater {
		return
	}
	done := l.quick(o.buffer[:n], &o.batch)
	more := err != nil || n == len(o.buffer) || events&eventEnd != 0
	if more || done < n {
		l.lend(o.buffer[done:n], more)
	}
}

// sleep sleeps for less than Go's timers take where nothing else is done.
func sleep(d time.Duration) {
	left := syscall.NsecToTimespec(int64(d))
	_ = syscall.Nanosleep(&left, nil)
}

// A pace says how long a loop rests before it looks at its links again. To wake threads for each of a thousand responses takes
// longer than to carry them. So where they come one by one for a while, a few are taken together. Who waits for the last of them
// waits for an eighth longer at most, and for restMost; where few come there is no rest.
type pace struct {
	begun, last time.Time // when such a while began, and when something came last
	came        int       // how many events since
}

const (
	// restMost is how long a rest is at most, restPart which part of the while it is, restEvents how many events have to be
	// expected in it, and restGap how long after the last event a while is over.
	restMost   = 1 * time.Millisecond
	restPart   = 8
	restEvents = 8
	restGap    = 2 * time.Millisecond
)

func (p *pace) rests(now time.Time, events int) time.Duration {
	if now.Sub(p.last) > restGap {
		p.begun, p.came = now, 0
	}
	p.last = now
	p.came += events
	while := now.Sub(p.begun)
	rest := while / restPart
	if rest > restMost {
		rest = restMost
	}
	if while <= 0 || time.Duration(p.came)*rest/while < restEvents {
		return 0
	}
	return rest
}

// A batch is what a loop sends once it has looked at all links. What goes over one connection is sent together, so that its
// writer wakes once for it.
type batch struct{ all []sending }

// A sending is a message for a client, whose stream isn't sent anything else meanwhile.
type sending struct {
	stream *stream
	body   *pieces
	nonce  string
}

func (b *batch) send() {
	if len(b.all) > 1 {
		sort.Slice(b.all, func(i, j int) bool { return b.all[i].stream.from < b.all[j].stream.from })
	}
	var head, payload []byte
	for i, it := range b.all {
		if i == 0 || it.body != b.all[i-1].body || it.nonce != b.all[i-1].nonce {
			head, payload = plainMessage(it.body, it.nonce)
		}
		it.stream.sendNow(head, payload)
	}
	for i := range b.all {
		b.all[i] = sending{}
	}
	b.all = b.all[:0]
}
