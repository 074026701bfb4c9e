package main

import (
	"fmt"
	"regexp"

	"google.golang.org/protobuf/reflect/protoreflect"
)

// A response of the incremental variant that is too long for one message goes to the client in several, its parts. The last
// has the nonce of the response, the others have nonces of the bridge. The client answers each; the server is answered
// once, when all are: by an acceptance, or by the first rejection.

// partNonce is the nonce of one of the parts of a response, which are counted from 0.
func partNonce(nonce string, part, parts int) string {
	if part == parts-1 {
		return nonce
	}
	return fmt.Sprintf("%s#%dof%d", nonce, part+1, parts)
}

var isPart = regexp.MustCompile(`#[0-9]+of[0-9]+$`)

// parts are what the client was sent last of a type, where that was more than one message.
type partsOf struct {
	nonce    string          // of the response
	open     map[string]bool // by the parts' nonces: it isn't answered
	left     int             // how many aren't
	rejected protoreflect.Value
}

func newParts(nonce string, count int) *partsOf {
	p := &partsOf{nonce: nonce, open: map[string]bool{}, left: count}
	for i := 0; i < count; i++ {
		p.open[partNonce(nonce, i, count)] = true
	}
	return p
}

// join takes an answer to a part. The one that comes last becomes the answer to the whole response; of others that is left
// which isn't an answer: it answers true where nothing is.
func (p *partsOf) join(r *request) (nothing bool) {
	nonce := r.text("response_nonce")
	open, ours := p.open[nonce]
	if !ours {
		return false
	}
	if open {
		p.open[nonce] = false
		p.left--
		if !p.rejected.IsValid() {
			p.rejected = r.rejection()
		}
	}
	if !open || p.left > 0 {
		return r.noAnswer()
	}
	if p.rejected.IsValid() {
		r.lengthen()
		r.message.Set(r.fields.ByName("error_detail"), p.rejected)
	}
	r.setText("response_nonce", p.nonce)
	return false
}

// rejection is what a request rejects a response with, or nothing.
func (r *request) rejection() (it protoreflect.Value) {
	if r.short != nil {
		return it
	}
	if field := r.fields.ByName("error_detail"); r.message.Has(field) {
		it = r.message.Get(field)
	}
	return it
}

// noAnswer takes from a request what makes it an answer, and tells whether nothing is left of it.
func (r *request) noAnswer() (nothing bool) {
	if r.short != nil { // (of the incremental variant: it says no names)
		r.nonce = ""
		return true
	}
	r.message.Clear(r.fields.ByName("response_nonce"))
	r.message.Clear(r.fields.ByName("error_detail"))
	nothing = true
	r.message.Range(func(it protoreflect.FieldDescriptor, _ protoreflect.Value) bool {
		nothing = it.Name() == "type_url" || it.Name() == "node"
		return nothing
	})
	return nothing
}
