package main

import (
	"encoding/binary"
	"reflect"
	"unsafe"

	"google.golang.org/grpc"
	"google.golang.org/grpc/encoding"
)

const (
	// pieceSize is how many bytes a piece of a message has at most. With headSize before them they fill frames of HTTP/2.
	pieceSize = 32 << 10
	// headSize is how many bytes gRPC puts before a message: whether it is compressed, and its length.
	headSize = 5
	// copiedBody is how many bytes the body of a message has at most that is copied.
	copiedBody = 2 << 10
)

// pieces are bytes in pieces, each in memory of its own: who holds one doesn't hold the others.
type pieces struct {
	all  [][]byte
	size int
	more int // how many bytes are to come at most, as far as that is known
}

// add adds bytes.
func (p *pieces) add(bytes []byte) {
	for len(bytes) > 0 {
		last := len(p.all) - 1
		if last < 0 || len(p.all[last]) == cap(p.all[last]) {
			room := pieceSize
			if last < 0 {
				room -= headSize
			}
			if p.more > 0 && p.more < room {
				room = p.more
			}
			p.all = append(p.all, make([]byte, 0, room))
			continue
		}
		it := p.all[last]
		n := copy(it[len(it):cap(it)], bytes)
		p.all[last] = it[:len(it)+n]
		bytes = bytes[n:]
		p.size += n
		p.more -= n
	}
}

// Write adds bytes, for a compressor.
func (p *pieces) Write(bytes []byte) (int, error) {
	p.add(bytes)
	return len(bytes), nil
}

// with are all bytes, and others behind them, in one piece.
func (p *pieces) with(tail []byte) []byte {
	whole := make([]byte, 0, p.size+len(tail))
	for _, it := range p.all {
		whole = append(whole, it...)
	}
	return append(whole, tail...)
}

// gRPC takes a message from its codec as one []byte, and holds it until the client has taken all of it. What it sends of a
// grpc.PreparedMsg are two of its fields, one behind the other, as they are: a head and a payload. With a head that says the
// length of a whole message, and none before the pieces that follow, a message is sent in pieces, each when the client
// has taken those before it but for gRPC's 64 KiB. These fields are the package's own. Where a version has others, each stream has a copy.

// preparedHead and preparedPayload are where these fields are, and canCut tells whether they are there.
var (
	preparedHead, hasHead       = preparedField("hdr")
	preparedPayload, hasPayload = preparedField("payload")
	canCut                      = hasHead && hasPayload
)

func preparedField(name string) (offset uintptr, ok bool) {
	field, ok := reflect.TypeOf(grpc.PreparedMsg{}).FieldByName(name)
	if !ok || field.Type != reflect.TypeOf([]byte(nil)) || len(field.Index) != 1 {
		return 0, false
	}
	return field.Offset, true
}

// quotaOf is where gRPC has how many bytes a stream may have that aren't written yet. While it is more than 0, who sends a message
// doesn't wait. It is nil where this version of the package has it elsewhere.
func quotaOf(client grpc.ServerStream) *int32 {
	of := reflect.ValueOf(grpc.ServerTransportStreamFromContext(client.Context()))
	if of.Kind() != reflect.Ptr || of.IsNil() || of.Type().Elem().Kind() != reflect.Struct {
		return nil
	}
	quotas, ok := of.Type().Elem().FieldByName("wq")
	if !ok || quotas.Type.Kind() != reflect.Ptr || quotas.Type.Elem().Kind() != reflect.Struct || len(quotas.Index) != 1 {
		return nil
	}
	quota, ok := quotas.Type.Elem().FieldByName("quota")
	if !ok || quota.Type.Kind() != reflect.Int32 || len(quota.Index) != 1 {
		return nil
	}
	at := *(*unsafe.Pointer)(unsafe.Add(unsafe.Pointer(of.Pointer()), quotas.Offset))
	if at == nil {
		return nil
	}
	return (*int32)(unsafe.Add(at, quota.Offset))
}

// sendPiece sends a head and a piece, as they are.
func (s *stream) sendPiece(head, piece []byte) error {
	*(*[]byte)(unsafe.Add(unsafe.Pointer(&s.piece), preparedHead)) = head
	*(*[]byte)(unsafe.Add(unsafe.Pointer(&s.piece), preparedPayload)) = piece
	err := s.client.SendMsg(&s.piece)
	s.piece = grpc.PreparedMsg{}
	return err
}

// headOf is what gRPC puts before a message of so many bytes.
func headOf(size int, compressed bool) []byte {
	head := make([]byte, headSize)
	putSize(head, size, compressed)
	return head
}

func putSize(head []byte, size int, compressed bool) {
	if compressed {
		head[0] = 1
	}
	binary.BigEndian.PutUint32(head[1:], uint32(size))
}

// compressorOf is how gRPC compresses messages to a client, by what those of the client say, or nil. It answers false where
// that can't be known.
func compressorOf(client grpc.ServerStream) (by encoding.Compressor, inPieces bool) {
	of, ok := grpc.ServerTransportStreamFromContext(client.Context()).(interface{ RecvCompress() string })
	if !ok {
		return nil, false
	}
	name := of.RecvCompress()
	if name == "" || name == encoding.Identity {
		return nil, true
	}
	by = encoding.GetCompressor(name)
	return by, by != nil
}

// send sends one of the messages that a place is for, with its nonce.
func (s *stream) send(number int, nonce string) error {
	body := s.place.body(number)
	if body == nil {
		return errSlow
	}
	if s.isPlain(body) {
		return s.sendPiece(plainMessage(body, nonce))
	}
	tail := appendText(nil, responseNonce, nonce)
	size := body.size + len(tail)
	if size <= pieceSize || !s.inPieces {
		return s.client.SendMsg(&message{body.with(tail)})
	}
	if s.compressor != nil {
		own, err := compressed(s.compressor, body, tail)
		if err != nil {
			return err
		}
		s.place.sendsOwn(own)
		defer s.place.sendsOwn(nil)
		size, tail = own.size, nil
	}
	return s.sendPieces(number, headOf(size, s.compressor != nil), tail)
}

// isPlain tells whether a message is one piece, which is sent behind its nonce as it is.
func (s *stream) isPlain(body *pieces) bool {
	return s.inPieces && s.compressor == nil && len(body.all) == 1
}

// plainMessage is a head and a payload of a message that is one piece. The order of a message's fields is any: so the nonce is in
// bytes of its own, before those that streams share. A short message is copied: where gRPC joins a head and a payload it clears
// 16 KiB first, which takes longer.
func plainMessage(body *pieces, nonce string) (head, payload []byte) {
	size, copied := sizeText(responseNonce, nonce), 0
	if body.size <= copiedBody {
		copied = body.size
	}
	own := appendText(make([]byte, headSize, headSize+size+copied), responseNonce, nonce)
	putSize(own, size+body.size, false)
	if copied == 0 {
		return own, body.all[0]
	}
	return nil, append(own, body.all[0]...)
}

// sendPieces sends a message piece by piece. Of those that aren't sent yet it holds none: the place does.
func (s *stream) sendPieces(number int, head, tail []byte) error {
	for at := 0; ; at++ {
		piece, ok := s.place.piece(number, at)
		if !ok {
			return errSlow
		}
		if piece == nil {
			break
		}
		if err := s.sendPiece(head, piece); err != nil {
			return err
		}
		head = nil
	}
	for len(head)+len(tail) > 0 {
		n := len(tail)
		if n > pieceSize {
			n = pieceSize
		}
		if err := s.sendPiece(head, tail[:n:n]); err != nil {
			return err
		}
		head, tail = nil, tail[n:]
	}
	return nil
}

// compressed is a message as a compressor has it.
func compressed(by encoding.Compressor, body *pieces, tail []byte) (*pieces, error) {
	made := new(pieces)
	to, err := by.Compress(made)
	if err != nil {
		return nil, err
	}
	for _, it := range append(body.all[:len(body.all):len(body.all)], tail) {
		if _, err := to.Write(it); err != nil {
			return nil, err
		}
	}
	return made, to.Close()
}
