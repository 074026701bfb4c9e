package main

import (
	"bytes"
	"hash/maphash"
	"sync/atomic"
)

const (
	// alikeMost is how many short responses are kept with what was made of them, one for each of as many places.
	alikeMost = 64
	// alikeNonce is how long a nonce may be of a response that is looked for among them.
	alikeNonce = 64
)

// alikes keep what was made of the short responses that came last, for streams that are told alike but for the nonce: all of
// a text behind the nonce, with which it begins, tells what is made of it. A response that is refused, or of which something is
// left out, isn't kept. They hold at most 64 times the text of a response that streams don't share, and what is made of it.
type alikes struct {
	seed  maphash.Seed
	delta [2][alikeMost]atomic.Pointer[alike] // of the state of the world, and incremental
}

type alike struct {
	rest []byte
	made *assembled
}

func newAlikes() *alikes { return &alikes{seed: maphash.MakeSeed()} }

// A cut is a response's text, cut behind its nonce.
type cut struct {
	nonce, rest []byte
	place       *atomic.Pointer[alike] // where the response is looked for, of a short one
}

var nonceBegin = []byte(`{"nonce":"`)

// cut cuts a text that begins with a nonce. It answers false where it doesn't.
func (a *alikes) cut(text []byte, delta bool) (c cut, ok bool) {
	if !bytes.HasPrefix(text, nonceBegin) {
		return c, false
	}
	behind := text[len(nonceBegin):]
	end := bytes.IndexByte(behind, '"')
	if end < 0 || end > alikeNonce || !plain(behind[:end]) {
		return c, false
	}
	of := &a.delta[0]
	if delta {
		of = &a.delta[1]
	}
	c.nonce, c.rest = behind[:end], behind[end+1:]
	if len(text) >= sharedFrom {
		return c, true
	}
	c.place = &of[maphash.Bytes(a.seed, c.rest)%alikeMost]
	return c, true
}

// made is what was made of a response that was told alike, or nil.
func (c *cut) made() *assembled {
	if it := c.place.Load(); it != nil && bytes.Equal(it.rest, c.rest) {
		return it.made
	}
	return nil
}

// keep keeps what was made of a response with one nonce.
func (c *cut) keep(made *assembled) {
	if made.nonces == 1 && made.why == "" && len(made.bad) == 0 && len(made.bodies) == 1 && made.length <= 2*sharedFrom {
		c.place.Store(&alike{append([]byte(nil), c.rest...), made})
	}
}
