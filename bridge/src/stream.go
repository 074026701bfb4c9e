package main

import (
	"errors"
	"io"
	"reflect"
	"sync"
	"sync/atomic"
	"time"

	"google.golang.org/grpc"
	"google.golang.org/grpc/codes"
	"google.golang.org/grpc/encoding"
	"google.golang.org/grpc/peer"
	"google.golang.org/grpc/status"
	"google.golang.org/protobuf/reflect/protoreflect"
)

const (
	// dialTime is how long the server may take to accept a stream.
	dialTime = 5 * time.Second
	// mostTypes is how many types a stream may ask for, and mostNames how many bytes the names may have that it asks for
	// in the variant of the state of the world: these are what the bridge has to keep.
	mostTypes = 128
	mostNames = 2 * maxText
)

// A variant is one of the two ways to speak: the state of the world, or incrementally.
type variant struct {
	delta             bool
	request, response byte
	message           protoreflect.MessageType
}

func (v *variant) name() string {
	if v.delta {
		return "delta"
	}
	return "sotw"
}

// A stream is one stream of gRPC and the framed stream that it is carried over.
type stream struct {
	bridge *bridge
	*variant
	only   string // the type URL of a service of a single type, else empty
	client grpc.ServerStream
	from   uintptr // the same for all streams of a connection
	server *link
	ended  chan error // has one in it once responses have ended
	came   bool       // something came from the server; of who reads responses
	named  bool       // the client may say that it is of the cluster that it says; of the thread that takes requests
	short  short      // the request that is carried, of that thread

	inPieces   bool // long messages are sent piece by piece
	compressor encoding.Compressor
	quota      *int32           // how many bytes may wait to be written to the client, or nil where that isn't known
	piece      grpc.PreparedMsg // what is being sent, of who is sending
	place      *place
	sending    chan struct{} // has one in it while a message is sent, and once the stream is over
	over       chan struct{} // closed once the stream is over

	writing sync.Mutex // held while a request is noted and written, so that what is kept is of what the server gets

	mutex  sync.Mutex // held for moments, of what stands below; taken after the one above
	asked  map[string]*asked
	lastOf string // the type that was looked for last in asked
	last   *asked // what was found, or nil
	names  int    // how many bytes the names in asked have
	closed bool   // the client said that it asks for nothing more
	left   bool   // the stream has ended
}

// asked is what a refusal in the client's place has to know of a type: what the client's last request said, and which
// nonces it knows.
type asked struct {
	version  string
	names    []string
	told     string // the nonce of the response that the client was sent last
	answered bool   // the client answered that one
	refused  string // the nonce of the response that was refused last in the client's place since then, else empty
	parts    *partsOf
}

// carry carries one stream until either side ends it, and answers the status for the client.
func (b *bridge) carry(client grpc.ServerStream, v *variant, only string) error {
	s := &stream{bridge: b, variant: v, only: only, client: client, asked: map[string]*asked{}, place: newPlace(client.Context().Done()),
		sending: make(chan struct{}, 1), over: make(chan struct{}), ended: make(chan error, 1), quota: quotaOf(client)}
	compressor, known := compressorOf(client)
	s.compressor, s.inPieces = compressor, known && b.inPieces
	if it, ok := peer.FromContext(client.Context()); ok && reflect.ValueOf(it.Addr).Kind() == reflect.Ptr {
		s.from = reflect.ValueOf(it.Addr).Pointer()
	}
	defer close(s.over)
	err := s.carry()
	// (a status comes behind whole messages, as far as the client takes them)
	select {
	case s.sending <- struct{}{}:
	case <-client.Context().Done():
	case <-s.place.gone:
	}
	if err == errSlow {
		b.counters.add(numSlow, 1)
		if it, ok := peer.FromContext(client.Context()); ok {
			b.tell.few("slow clients", "a stream of %s ends: the client took a response too slowly, and others wait for room", it.Addr)
		}
	}
	return err
}

// carry carries the stream.
func (s *stream) carry() error {
	b, client := s.bridge, s.client
	defer atomic.AddInt32(&b.streams, -1)
	if n := atomic.AddInt32(&b.streams, 1); b.maxStreams > 0 && int(n) > b.maxStreams {
		b.counters.add(numTurned, 1)
		return status.Errorf(codes.ResourceExhausted, "the bridge has as many streams as it may have, %d (--max-streams)", b.maxStreams)
	}
	server, err := b.links.dial(client.Context(), b.server)
	if err != nil {
		if client.Context().Err() == nil {
			b.reach.say(false)
		}
		return b.unreachable(err)
	}
	defer server.Close()
	b.counters.add(numStreams, 1, "variant", s.name())
	defer b.counters.add(numStreams, -1, "variant", s.name())
	s.server = server
	if err := b.sayClient(client.Context(), server); err != nil {
		return broken(err)
	}
	defer s.leave()
	requests := make(chan error, 1)
	go func() { requests <- s.takeRequests() }()
	if err := server.begin(s.quick, func(rest []byte) { go s.slow(rest) }); err != nil {
		return b.unreachable(err)
	}
	for {
		select {
		case err := <-requests:
			if err != nil {
				return err
			}
			requests = nil // the client asks for nothing more: what it is still owed goes on
		case err := <-s.ended:
			return err
		case <-client.Context().Done():
			return status.FromContextError(client.Context().Err()).Err()
		case <-s.place.gone:
			return errSlow
		case <-b.stopping:
			return errStopping
		}
	}
}

var (
	errStopping = status.Error(codes.Unavailable, "the bridge is stopping")
	errSlow     = status.Error(codes.ResourceExhausted, "the client took a response too slowly, and others wait for room in the bridge")
	errOver     = status.Error(codes.Canceled, "the stream is over")
)

func (b *bridge) unreachable(err error) error {
	return status.Errorf(codes.Unavailable, "the control plane at %s can't be reached: %v", b.server, err)
}

// broken is the status for a client whose framed stream can't be read or written any more.
func broken(err error) error {
	var bad errBadFrame
	switch {
	case errors.As(err, &bad):
		return status.Errorf(codes.Internal, "the control plane sent what is no frame: %v", err)
	case errors.Is(err, errTooLong):
		return status.Error(codes.ResourceExhausted, err.Error())
	case errors.Is(err, io.EOF):
		return status.Error(codes.Unavailable, "the control plane closed the stream")
	case errors.Is(err, io.ErrUnexpectedEOF):
		return status.Error(codes.Unavailable, "the control plane closed the stream within a frame")
	}
	return status.Errorf(codes.Unavailable, "the stream to the control plane broke off: %v", err)
}

// takeRequests carries requests, one at a time. It answers nil once the client has no more.
func (s *stream) takeRequests() error {
	for in := new(message); ; {
		if err := s.client.RecvMsg(in); errors.Is(err, io.EOF) {
			return s.half()
		} else if err != nil {
			return err
		}
		r, err := s.readRequest(in.wire)
		if err != nil {
			return status.Errorf(codes.InvalidArgument, "the request is no %s: %s", s.message.Descriptor().Name(), plainError(err))
		}
		if err := s.ask(r); err != nil {
			return err
		}
	}
}

// readRequest reads a request, which is good until the next.
func (s *stream) readRequest(wire []byte) (*request, error) {
	if s.short.read(wire, s.delta) {
		return &request{short: &s.short, of: s.message}, nil
	}
	return readLong(s.message, wire)
}

// half tells the server that the client has no more requests.
func (s *stream) half() error {
	s.writing.Lock()
	defer s.writing.Unlock()
	s.mutex.Lock()
	s.closed = true
	s.mutex.Unlock()
	if err := s.server.CloseWrite(); err != nil {
		return broken(err)
	}
	return nil
}

// ask carries one request to the server.
func (s *stream) ask(r *request) error {
	switch of := r.text("type_url"); {
	case of == "" && s.only == "":
		return status.Errorf(codes.InvalidArgument, "the %s says no type_url, which an aggregated stream needs", s.message.Descriptor().Name())
	case of == "":
		r.setText("type_url", s.only)
	case s.only != "" && of != s.only:
		return status.Errorf(codes.InvalidArgument, "this service is of the type %s, not of %.200q", s.only, of)
	}
	// (each node that is said is looked at: the server may take any of them; without one in the first request it is of none)
	if id, cluster, ok := r.node(); ok || !s.named {
		if err := s.bridge.mayBe(s.client.Context(), id, cluster); err != nil {
			return err
		}
		s.named = true
	}
	s.writing.Lock()
	defer s.writing.Unlock()
	if nothing, err := s.note(r); err != nil || nothing {
		return err
	}
	if r.short != nil {
		return s.askShort(r.short)
	}
	text, err := r.json(s.bridge.types)
	if err != nil {
		return status.Errorf(codes.InvalidArgument, "the request can't be said in JSON: %s", plainError(err))
	}
	if err := writeFrame(s.server, s.request, text); err != nil {
		return broken(err)
	}
	return nil
}

// askShort carries a short request.
func (s *stream) askShort(r *short) error {
	room := shortFrames.Get().(*[frameHead + shortText]byte)
	defer shortFrames.Put(room)
	frame := r.appendJSON(room[:frameHead])
	if len(frame) > frameHead+maxText {
		return broken(errTooLong)
	}
	if err := writeWhole(s.server, s.request, frame); err != nil {
		return broken(err)
	}
	return nil
}

// rule: stale-nonce
// note keeps of a request what a refusal in the client's place will have to say. The client knows nothing of the
// refusals that were made in its place: where its request names the response that it was sent last and answered before,
// and the server had others refused since, the last of these is named, by which a server knows that the client is up
// to date. It answers true where nothing is left of a request that answers a part of a response.
func (s *stream) note(r *request) (nothing bool, err error) {
	s.mutex.Lock()
	defer s.mutex.Unlock()
	of := r.text("type_url")
	it := s.askedOf(of)
	if it == nil {
		if len(s.asked) == mostTypes {
			return false, status.Errorf(codes.ResourceExhausted, "a stream asks for more than %d types", mostTypes)
		}
		it = new(asked)
		s.asked[of], s.lastOf, s.last = it, of, it
	}
	if !s.delta {
		s.names -= sizeOf(it.names)
		it.version, it.names = r.text("version_info"), r.names()
		if s.names += sizeOf(it.names); s.names > mostNames {
			return false, status.Errorf(codes.ResourceExhausted, "a stream asks for names of more than %d bytes", mostNames)
		}
	}
	if s.delta {
		if it.parts != nil && it.parts.join(r) {
			return true, nil
		}
		// (a late answer to a part of an earlier response is none to any response of the server's)
		if nonce := r.text("response_nonce"); nonce != it.told && isPart.MatchString(nonce) && r.noAnswer() {
			return true, nil
		}
	}
	if nonce := r.text("response_nonce"); nonce != "" && nonce == it.told {
		if it.answered && it.refused != "" {
			r.setText("response_nonce", it.refused)
		}
		it.answered = true
	}
	return false, nil
}

// askedOf is what is kept of a type, or nil, with the mutex held.
func (s *stream) askedOf(typeURL string) *asked {
	if s.last == nil || s.lastOf != typeURL {
		s.lastOf, s.last = typeURL, s.asked[typeURL]
	}
	return s.last
}

func sizeOf(names []string) (size int) {
	for _, it := range names {
		size += len(it) + 16
	}
	return size
}

// quick carries short responses with which bytes begin, as long as that needs no waiting, and answers how many bytes they have.
// Its resources have to be converted, as where another stream was told them, and gRPC has to have room for it.
func (s *stream) quick(bytes []byte, to *batch) (done int) {
	s.bridge.reach.reads(len(bytes), nil, &s.came)
	for {
		text, ok := wholeText(bytes[done:], s.response)
		if !ok || !s.isQuick(text, to) {
			return done
		}
		done += frameHead + len(text)
	}
}

// isQuick has a short response sent, if that can be done at once.
func (s *stream) isQuick(text []byte, to *batch) bool {
	if s.quota == nil || atomic.LoadInt32(s.quota) <= 0 {
		return false
	}
	a, nonce := s.bridge.assembledNow(text, s.delta)
	if a == nil || a.why != "" || len(a.bad) > 0 || len(a.bodies) != 1 || !s.isPlain(a.bodies[0]) {
		return false
	}
	select {
	case s.sending <- struct{}{}:
	default:
		return false
	}
	s.tells(a, nonce, len(text))
	to.all = append(to.all, sending{s, a.bodies[0], nonce})
	return true
}

// sendNow sends what isQuick has sent.
func (s *stream) sendNow(head, payload []byte) {
	err := s.sendPiece(head, payload)
	<-s.sending
	if err != nil {
		s.server.keep(false)
		s.ends(err)
	}
}

// ends ends responses, once.
func (s *stream) ends(err error) {
	select {
	case s.ended <- err:
	default:
	}
}

// tells notes that a response goes to the client.
func (s *stream) tells(a *assembled, nonce string, length int) {
	if s.isWhole(a.typeURL) {
		s.bridge.limits.note(a.typeURL, s.variant, length, a.length)
	}
	s.passes(a, nonce)
}

// slow carries responses, first those that begin with what was read, until there is nothing more to read for now.
func (s *stream) slow(rest []byte) {
	from := lentBytes{stream: s, rest: rest}
	frames := lentFrames.Get().(*frameReader)
	frames.from.Reset(&from)
	frames.rooms, frames.place = s.bridge.rooms, s.place
	err := s.takeResponses(frames, &from)
	if err != errBack { // (else the place may be another thread's already)
		frames.leave()
	}
	frames.from.Reset(nil)
	frames.rooms, frames.place = nil, nil
	if cap(frames.text) <= roomFrom {
		lentFrames.Put(frames)
	}
	if err != errBack {
		s.ends(err)
	}
}

// errBack is what takeResponses answers once the link was given back.
var errBack = errors.New("the link was given back")

// lentFrames are readers of frames for links that are lent.
var lentFrames = sync.Pool{New: func() interface{} { return newFrameReader(nil) }}

// lentBytes are what comes from a stream's link, behind what was read of it.
type lentBytes struct {
	stream *stream
	rest   []byte
	now    bool // reading doesn't wait
}

func (f *lentBytes) Read(to []byte) (n int, err error) {
	if len(f.rest) > 0 {
		n = copy(to, f.rest)
		f.rest = f.rest[n:]
		return n, nil
	}
	if f.now {
		n, err = f.stream.server.now(to)
	} else {
		n, err = f.stream.server.Read(to)
	}
	f.stream.bridge.reach.reads(n, err, &f.stream.came)
	return n, err
}

// back gives the link back, where nothing is left to read.
func (f *lentBytes) back(frames *frameReader) bool {
	for frames.from.Buffered() == 0 && len(f.rest) == 0 {
		frames.leave()
		if f.stream.server.back() {
			return true
		}
		f.now = true
		_, err := frames.from.Peek(1)
		f.now = false
		if err != errLater || f.stream.server.isEnding() {
			return false // (an error comes again, and the end soon)
		}
	}
	return false
}

// takeResponses carries responses, one at a time, until the link was given back.
func (s *stream) takeResponses(frames *frameReader, from *lentBytes) error {
	for {
		if from.back(frames) {
			return errBack
		}
		kind, text, err := frames.next()
		if err == errOver {
			return err
		}
		if err != nil {
			s.mutex.Lock()
			defer s.mutex.Unlock()
			if s.closed && errors.Is(err, io.EOF) {
				return nil
			}
			return broken(err)
		}
		if kind != s.response {
			return status.Errorf(codes.Internal, "the control plane sent a frame of kind %d, and not %d", kind, s.response)
		}
		a, nonce, err := s.bridge.assembledOf(text, s.delta)
		if err != nil {
			return status.Errorf(codes.Internal, "the control plane sent what is no response: %v", err)
		}
		length, own := len(text), len(nonce)
		if s.compressor != nil {
			own += length
		}
		frames.done() // (what follows waits for the client)
		if a.why == "" {
			s.place.sends(a, own)
		} else {
			s.place.leave()
		}
		a.isSent(-1) // (the room says it from now on)
		s.bridge.tellBad(a.typeURL, a.bad)
		if a.why != "" {
			if err := s.refuse(a, nonce, length); err != nil {
				return err
			}
			continue
		}
		s.tells(a, nonce, length)
		if err := s.sendAll(len(a.bodies), nonce); err != nil {
			return err
		}
	}
}

// sendAll sends the messages of the response that the place is for.
func (s *stream) sendAll(count int, nonce string) error {
	for i := 0; i < count; i++ {
		select {
		case s.sending <- struct{}{}: // (nearly always)
		default:
			select {
			case s.sending <- struct{}{}:
			case <-s.over:
				return errOver
			}
		}
		err := s.send(i, partNonce(nonce, i, count))
		<-s.sending
		if err != nil {
			return err
		}
	}
	return nil
}

// isWhole tells whether the response that comes next of a type is a whole one: each of the state of the world, and the first.
func (s *stream) isWhole(typeURL string) bool {
	s.mutex.Lock()
	defer s.mutex.Unlock()
	it := s.askedOf(typeURL)
	return !s.delta || (it != nil && it.told == "" && it.refused == "")
}

// passes notes that a response goes to the client.
func (s *stream) passes(a *assembled, nonce string) {
	s.mutex.Lock()
	defer s.mutex.Unlock()
	it := s.askedOf(a.typeURL)
	if it == nil {
		return
	}
	if it.refused != "" {
		s.bridge.frozen.remove(a.typeURL, s)
	}
	it.told, it.answered, it.refused, it.parts = nonce, false, "", nil
	if len(a.bodies) > 1 {
		it.parts = newParts(nonce, len(a.bodies))
	}
}

// leave notes that the stream has ended: it waits for nothing any more.
func (s *stream) leave() {
	s.mutex.Lock()
	defer s.mutex.Unlock()
	s.left = true
	s.bridge.frozen.leave(s)
}

// tellBad tells what can't be converted, each body of a resource once, however many streams have it.
func (b *bridge) tellBad(typeURL string, bad []*fault) {
	kind := "refused"
	if b.skipBad {
		kind = "left out"
		b.counters.add(numSkipped, int64(len(bad)), "type", typeURL)
	}
	for _, it := range bad {
		if b.tell.first(typeURL + "\x00" + it.resource + "\x00" + it.version) {
			b.tell.few(kind, "%s: %v", typeURL, it)
		}
	}
}

// rule: whole-or-nothing
// refuse refuses a response in the client's place.
func (s *stream) refuse(a *assembled, nonce string, length int) error {
	if s.isWhole(a.typeURL) {
		s.bridge.limits.note(a.typeURL, s.variant, length, a.length)
	}
	s.writing.Lock()
	defer s.writing.Unlock()
	s.mutex.Lock()
	closed, it := s.closed, s.askedOf(a.typeURL)
	if it == nil {
		it = new(asked)
	} else if !s.left {
		s.bridge.frozen.add(a.typeURL, s, a.why)
	}
	it.refused = nonce
	s.mutex.Unlock()
	s.bridge.counters.add(numRefused, 1, "type", a.typeURL)
	if closed {
		return nil // nothing more can be said to the server
	}
	text, err := refusal(a.typeURL, nonce, it.version, it.names, a.refusal)
	if err != nil {
		return status.Error(codes.Internal, err.Error())
	}
	if err := writeFrame(s.server, s.request, text); err != nil {
		return broken(err)
	}
	return nil
}
