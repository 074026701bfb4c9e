package main

import (
	"container/list"
	"crypto/aes"
	"crypto/cipher"
	"crypto/rand"
	"sync"
)

// sharedFrom is how many bytes the text of a response has from which on streams share what is made of it.
const sharedFrom = 16 << 10

// nonceRoom is how many bytes of each message are left for the nonce.
func nonceRoom(nonce string) int {
	if room := len(nonce) + 32; room > 128 {
		return room
	}
	return 128
}

// An assembled is what is made of a response, all of it but its nonce: what clients are sent, or why they aren't. Streams
// that are told alike share it.
type assembled struct {
	entry   *assembly // where streams share it, or nil
	typeURL string
	nonces  int       // how many the response says
	why     string    // the response is refused in the client's place, or empty
	refusal string    // what the server is told then
	bad     []*fault  // what can't be converted
	length  int       // how many bytes it would have in one message
	bodies  []*pieces // of the messages that a client is sent, without the nonce
}

// size is how many bytes its messages have.
func (a *assembled) size() (size int) {
	for _, it := range a.bodies {
		size += it.size
	}
	return size
}

// A responseKey is what tells responses apart, but for their nonces.
type responseKey struct {
	rest  [16]byte // a digest of the text without the nonce
	first bool     // the text began with the nonce
	delta bool
	room  int // for the nonce
}

// A digester makes digests of texts with a key that nobody knows. Two texts that don't depend on it have the same with a chance
// of at most 1 in 2 to the 128 for each 16 of their bytes: they are the tags of GCM for one nonce, which are linear in the key's
// powers. That takes a tenth of the time of a digest that holds without a key.
type digester struct{ by cipher.AEAD }

func newDigester() digester {
	var key [16]byte
	if _, err := rand.Read(key[:]); err != nil {
		panic(err)
	}
	block, err := aes.NewCipher(key[:])
	if err != nil {
		panic(err)
	}
	by, err := cipher.NewGCM(block)
	if err != nil {
		panic(err)
	}
	return digester{by}
}

func (d digester) of(text []byte) (made [16]byte) {
	var none [12]byte
	d.by.Seal(made[:0], none[:], nil, text)
	return made
}

// keyOf is the key of a response's text, and its nonce.
func (d digester) keyOf(text []byte, delta bool) (key responseKey, nonce string, err error) {
	var rest []byte
	written := 0
	err = members(text, func(name string, value []byte) (err error) {
		if name == "nonce" {
			// (value is a piece of text, so the rest of both ends at the same place)
			begin := cap(text) - cap(value)
			rest = append(rest, text[written:begin]...)
			written = begin + len(value)
			nonce, err = textOf(value)
		}
		return err
	})
	return responseKey{d.of(append(rest, text[written:]...)), false, delta, nonceRoom(nonce)}, nonce, err
}

// keyOf is the key of a response that is cut. It is that of all responses that are alike but for this nonce, of which there may be
// another behind it.
func (c *cut) keyOf(d digester, delta bool) responseKey {
	return responseKey{d.of(c.rest), true, delta, nonceRoom(string(c.nonce))}
}

// assemblies keeps what was assembled last, in a bounded number of bytes, and what clients are being sent. What is being
// assembled isn't assembled a second time meanwhile: who wants it waits for it.
type assemblies struct {
	most    int
	digests digester

	mutex  sync.Mutex
	held   map[responseKey]*assembly
	recent *list.List // of *assembly, the one used last in front
	bytes  int        // of those in recent
	made   int
}

type assembly struct {
	of   *assemblies
	key  responseKey
	done chan struct{} // closed once made is there
	made *assembled    // nil where it couldn't be made

	at    *list.Element // in recent, or nil
	bytes int
	sent  int // how many rooms have it as clients are being sent it, and how many streams are about to
}

func newAssemblies(most int) *assemblies {
	return &assemblies{most: most, digests: newDigester(), held: map[responseKey]*assembly{}, recent: list.New()}
}

// of gives what is made of a key's response, by assemble where that isn't there yet. It is noted to be sent once more.
func (a *assemblies) of(key responseKey, assemble func() (*assembled, error)) (*assembled, error) {
	a.mutex.Lock()
	if it, ok := a.held[key]; ok {
		it.sent++
		if it.at != nil {
			a.recent.MoveToFront(it.at)
		}
		a.mutex.Unlock()
		<-it.done
		if it.made != nil {
			return it.made, nil
		}
		return assemble()
	}
	it := &assembly{of: a, key: key, done: make(chan struct{}), sent: 1}
	a.made++
	a.held[key] = it
	it.at = a.recent.PushFront(it)
	a.mutex.Unlock()

	made, err := assemble()
	if it.made = made; made != nil {
		made.entry = it
	}
	close(it.done)

	a.mutex.Lock()
	defer a.mutex.Unlock()
	switch {
	case made == nil:
		a.drop(it)
		delete(a.held, key)
	case it.at != nil:
		it.bytes = entryCost + made.size()
		a.bytes += it.bytes
	}
	for a.bytes > a.most {
		a.drop(a.recent.Back().Value.(*assembly))
	}
	return made, err
}

// drop takes from what is kept, with the mutex held.
func (a *assemblies) drop(it *assembly) {
	if it.at != nil {
		a.recent.Remove(it.at)
		a.bytes -= it.bytes
		it.at = nil
	}
	a.weed(it)
}

// isSent notes that a room's clients are being sent it, or with -1 that they aren't any more.
func (a *assembled) isSent(more int) {
	it := a.entry
	if it == nil {
		return
	}
	it.of.mutex.Lock()
	defer it.of.mutex.Unlock()
	if it.sent += more; it.of.held[it.key] == nil {
		it.of.held[it.key] = it
	}
	it.of.weed(it)
}

// weed forgets what is neither kept nor sent, with the mutex held.
func (a *assemblies) weed(it *assembly) {
	if it.at == nil && it.sent == 0 && a.held[it.key] == it {
		delete(a.held, it.key)
	}
}
