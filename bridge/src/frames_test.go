package main

import (
	"bytes"
	"errors"
	"io"
	"net"
	"strings"
	"testing"
)

// rule: whole-frames
func TestFramesAreReadAsTheyAreWritten(t *testing.T) {
	texts := []string{"", "{}", strings.Repeat("x", 3*keptBuffer+1), "{\"a\":1}", strings.Repeat("y", maxText)}
	here, there := net.Pipe()
	go func() {
		for i, text := range texts {
			if err := writeFrame(there, byte(i+1), []byte(text)); err != nil {
				t.Error(err)
			}
		}
		there.Close()
	}()
	frames := newFrameReader(here)
	for i, text := range texts {
		kind, got, err := frames.next()
		if err != nil || int(kind) != i+1 || string(got) != text {
			t.Fatalf("frame %d: kind %d, %d bytes, %v", i, kind, len(got), err)
		}
	}
	if _, _, err := frames.next(); !errors.Is(err, io.EOF) {
		t.Fatal(err)
	}
}

func TestATextIsTooLongForAFrame(t *testing.T) {
	here, _ := net.Pipe()
	if err := writeFrame(here, 1, make([]byte, maxText+1)); !errors.Is(err, errTooLong) {
		t.Fatal(err)
	}
}

func TestBytesThatAreNoFrame(t *testing.T) {
	for _, it := range []struct {
		bytes string
		bad   bool
		want  error
	}{
		{"\x00\x00\x00\x00", true, nil},
		{"\x01\x00\x00\x01", true, nil},
		{"", false, io.EOF},
		{"\x00\x00", false, io.ErrUnexpectedEOF},
		{"\x00\x00\x00\x03", false, io.ErrUnexpectedEOF},
		{"\x00\x00\x00\x03\x02", false, io.ErrUnexpectedEOF},
		{"\x00\x00\x00\x03\x02{", false, io.ErrUnexpectedEOF},
		{"\x01\x00\x00\x00\x02{", false, io.ErrUnexpectedEOF},
	} {
		_, _, err := newFrameReader(bytes.NewReader([]byte(it.bytes))).next()
		var bad errBadFrame
		if errors.As(err, &bad) != it.bad || (it.want != nil && !errors.Is(err, it.want)) {
			t.Errorf("%q: %v", it.bytes, err)
		}
	}
}
