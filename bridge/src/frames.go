package main

import (
	"bufio"
	"encoding/binary"
	"errors"
	"fmt"
	"io"
	"net"
	"sync"
)

// The kinds of frames that streams carry.
const (
	kindRequest       = 1
	kindResponse      = 2
	kindDeltaRequest  = 3
	kindDeltaResponse = 4
)

const (
	// frameHead is how many bytes stand before a text: four of length, one of kind.
	frameHead = 5
	// shortText is how many bytes a text has at most for which there are buffers, and copiedText how many one has that is copied to
	// be written in one piece with what stands before it.
	shortText  = 1 << 10
	copiedText = 64 << 10
)

// maxText is the length of the longest text that a frame has room for.
const maxText = 1<<24 - 1

// keptBuffer is how long a reader's buffer may be for the reader to keep it for the next frame.
const keptBuffer = 1 << 20

var errTooLong = fmt.Errorf("a text is longer than a frame's %d bytes", maxText)

// errBadFrame is what bytes that are no frame are told as.
type errBadFrame string

func (e errBadFrame) Error() string { return string(e) }

// writeFrame writes one frame: four bytes of length, one of kind, the text.
func writeFrame(to io.Writer, kind byte, text []byte) error {
	switch {
	case len(text) > maxText:
		return errTooLong
	case len(text) <= shortText:
		whole := shortFrames.Get().(*[frameHead + shortText]byte)
		defer shortFrames.Put(whole)
		copy(whole[frameHead:], text)
		return writeWhole(to, kind, whole[:frameHead+len(text)])
	case len(text) <= copiedText:
		return writeWhole(to, kind, append(make([]byte, frameHead, frameHead+len(text)), text...))
	}
	var head [frameHead]byte
	putHead(head[:], kind, len(text))
	parts := net.Buffers{head[:], text}
	_, err := parts.WriteTo(to)
	return err
}

// writeWhole writes a frame whose text stands behind the room for what stands before it.
func writeWhole(to io.Writer, kind byte, frame []byte) error {
	putHead(frame, kind, len(frame)-frameHead)
	_, err := to.Write(frame)
	return err
}

// putHead puts what stands before a text.
func putHead(head []byte, kind byte, length int) {
	binary.BigEndian.PutUint32(head, uint32(length+1))
	head[4] = kind
}

// shortFrames are buffers for frames with short texts, which are written as one piece.
var shortFrames = sync.Pool{New: func() interface{} { return new([frameHead + shortText]byte) }}

// frameReader reads one frame after another.
type frameReader struct {
	from  *bufio.Reader
	head  [frameHead]byte
	text  []byte
	rooms *rooms // in which long texts have a place, or nil
	place *place
	long  *[]byte
}

// longTexts are buffers for long texts.
var longTexts sync.Pool

func newFrameReader(from io.Reader) *frameReader {
	return &frameReader{from: bufio.NewReaderSize(from, 16<<10)}
}

// done says that the last text isn't needed any more.
func (r *frameReader) done() {
	if r.long != nil {
		*r.long = r.text
		longTexts.Put(r.long)
		r.long, r.text = nil, nil
	}
}

// leave says that what was made of the last text isn't needed any more, either.
func (r *frameReader) leave() {
	r.done()
	if r.rooms != nil {
		r.place.leave()
	}
}

// begin prepares for a text. It answers false where the stream ends before there is room for it.
func (r *frameReader) begin(length int) bool {
	if r.rooms == nil || length < roomFrom {
		return true
	}
	if !r.place.take(r.rooms.of(length), length) {
		return false
	}
	r.long, _ = longTexts.Get().(*[]byte)
	if r.long == nil {
		r.long = new([]byte)
	}
	r.text = *r.long
	return true
}

// rule: whole-frames
// next gives the kind and the text of the next frame; the text is good until the next call, or until done. At the end of the input
// it gives io.EOF, within a frame io.ErrUnexpectedEOF, for what is no frame an errBadFrame, and errOver where the stream has ended.
func (r *frameReader) next() (byte, []byte, error) {
	head := r.head[:]
	r.leave()
	if _, err := io.ReadFull(r.from, head[:4]); err != nil {
		return 0, nil, err
	}
	length := binary.BigEndian.Uint32(head[:4])
	if length == 0 || length > maxText+1 {
		return 0, nil, errBadFrame(fmt.Sprintf("a frame's length is %d", length))
	}
	if _, err := io.ReadFull(r.from, head[4:]); err != nil {
		return 0, nil, within(err)
	}
	if cap(r.text) > keptBuffer {
		r.text = nil
	}
	if !r.begin(int(length) - 1) {
		return 0, nil, errOver
	}
	err := r.fill(int(length) - 1)
	return head[4], r.text, within(err)
}

// fill reads a text. It takes memory as the text comes, and not as its length announces it.
func (r *frameReader) fill(length int) error {
	r.text = r.text[:0]
	for len(r.text) < length {
		have := len(r.text)
		more := length - have
		if most := have + keptBuffer; more > most {
			more = most
		}
		if need := have + more; need > cap(r.text) {
			longer := make([]byte, have, need)
			copy(longer, r.text)
			r.text = longer
		}
		r.text = r.text[:have+more]
		if _, err := io.ReadFull(r.from, r.text[have:]); err != nil {
			return err
		}
	}
	return nil
}

// wholeText is the text of a short frame of a kind with which bytes begin. It answers false where they begin with something else.
func wholeText(bytes []byte, kind byte) (text []byte, ok bool) {
	if len(bytes) < frameHead || bytes[4] != kind {
		return nil, false
	}
	length := binary.BigEndian.Uint32(bytes)
	if length == 0 || length > sharedFrom || int(length) > len(bytes)-(frameHead-1) {
		return nil, false
	}
	return bytes[frameHead : frameHead-1+length], true
}

// within is an error that was met behind a frame's first byte.
func within(err error) error {
	if errors.Is(err, io.EOF) {
		return io.ErrUnexpectedEOF
	}
	return err
}
