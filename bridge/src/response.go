package main

import (
	"crypto/sha256"
	"errors"
	"fmt"

	"google.golang.org/protobuf/encoding/protowire"
)

// A response is a DiscoveryResponse or a DeltaDiscoveryResponse, cut into its parts.
type response struct {
	version, typeURL, nonce string
	nonces                  int // how many it says
	removed                 []string
	resources               []resource
}

type resource struct {
	name, version string // in the incremental variant alone
	text          []byte // JSON, within the frame
	wire          []byte // of the Any
}

// The numbers of fields in discovery.proto.
const (
	responseVersion   = 1
	responseResources = 2
	responseTypeURL   = 4
	responseNonce     = 5
	responseRemoved   = 6

	responseControlPlane      = 6
	responseDeltaControlPlane = 7
	controlPlaneIdentifier    = 1

	resourceVersion = 1
	resourceBody    = 2
	resourceName    = 3
)

// readResponse cuts the text of a response. A member that it doesn't know is an error, so that none is lost.
func readResponse(text []byte, delta bool) (*response, error) {
	r := new(response)
	err := members(text, func(key string, value []byte) (err error) {
		switch {
		case key == "nonce":
			r.nonce, err = textOf(value)
			r.nonces++
		case key == "typeUrl":
			r.typeURL, err = textOf(value)
		case key == "versionInfo" && !delta, key == "systemVersionInfo" && delta:
			r.version, err = textOf(value)
		case key == "removedResources" && delta:
			err = elements(value, func(value []byte) error {
				name, err := textOf(value)
				r.removed = append(r.removed, name)
				return err
			})
		case key == "resources":
			err = elements(value, func(value []byte) error { return r.add(value, delta) })
		default:
			err = fmt.Errorf("its member %q isn't known", key)
		}
		return err
	})
	return r, err
}

func (r *response) add(text []byte, delta bool) error {
	if !delta {
		r.resources = append(r.resources, resource{text: text})
		return nil
	}
	var it resource
	err := members(text, func(key string, value []byte) (err error) {
		switch key {
		case "name":
			it.name, err = textOf(value)
		case "version":
			it.version, err = textOf(value)
		case "resource":
			it.text = value
		default:
			err = fmt.Errorf("the member %q of a resource isn't known", key)
		}
		return err
	})
	if err == nil && it.text == nil {
		err = errors.New("a resource lacks its body")
	}
	r.resources = append(r.resources, it)
	return err
}

// convert converts all resources. The first that can't be, or that is too long for a message, is its fault; with skip those
// are left out, and are its faults.
func (r *response) convert(of func(text []byte) ([]byte, error), most int, delta bool, maxMessage int, skip bool) (bad []*fault) {
	kept := r.resources[:0]
	for _, it := range r.resources {
		wire, err := of(it.text)
		it.wire = wire
		if err == nil && delta && it.size(delta) > most {
			err = &fault{cause: fmt.Sprintf("it has %d bytes, too many for a message of at most %d (--max-message; a frame of the control "+
				"plane may have %d)", len(wire), maxMessage, maxText)}
		}
		if err != nil {
			bad = append(bad, it.fault(err))
			if skip {
				continue
			}
			return bad
		}
		kept = append(kept, it)
	}
	r.resources = kept
	return bad
}

// fault is why a resource can't be converted, with its name and what tells this body of it from others.
func (it *resource) fault(err error) *fault {
	made := &fault{cause: plainError(err)}
	var of *fault
	if errors.As(err, &of) {
		*made = *of
	}
	sum := sha256.Sum256(it.text)
	made.resource, made.version = it.called(), string(sum[:])
	return made
}

// called is a resource's name: in the variant of the state of the world its body says it.
func (it *resource) called() string {
	name := it.name
	if name == "" {
		_ = members(it.text, func(key string, value []byte) error {
			if key == "name" || key == "clusterName" || key == "cluster_name" {
				name, _ = textOf(value)
			}
			return nil
		})
	}
	return name
}

// assemble makes of a response's text what clients are sent: messages of at most so many bytes, in which there is room for a
// nonce.
func (b *bridge) assemble(text []byte, delta bool) (*assembled, string, error) {
	r, err := readResponse(text, delta)
	if err != nil {
		return nil, "", err
	}
	return b.assembledFrom(r, delta), r.nonce, nil
}

// assembleReady does the same of a response whose resources are all converted. It answers nil for all others.
func (b *bridge) assembleReady(text []byte, delta bool) (*assembled, string) {
	r, err := readResponse(text, delta)
	if err != nil {
		return nil, ""
	}
	for i := range r.resources {
		if !b.bodies.has(r.resources[i].text) {
			return nil, ""
		}
	}
	return b.assembledFrom(r, delta), r.nonce
}

// assembledFrom assembles a response that was read.
func (b *bridge) assembledFrom(r *response, delta bool) *assembled {
	nonceBytes := nonceRoom(r.nonce)
	most := b.maxMessage - nonceBytes - len(r.version) - len(r.typeURL) - len(b.identifier) - 48
	bad := r.convert(b.bodies.of, most, delta, b.maxMessage, b.skipBad)
	a := &assembled{typeURL: r.typeURL, nonces: r.nonces, bad: bad}
	if len(bad) > 0 && !b.skipBad {
		a.why = bad[0].Error()
		a.refusal = "the gRPC bridge can't convert " + a.why
		return a
	}
	a.bodies = r.bodies(delta, most, b.identifier)
	a.length = a.size() + nonceBytes
	if !delta && a.length > b.maxMessage {
		a.bodies = nil
		a.why = fmt.Sprintf("a response of the state of the world has %d bytes and can't be split: --max-message allows %d, a frame of the "+
			"control plane %d", a.length, b.maxMessage, maxText)
		a.refusal = "the gRPC bridge refuses it: " + a.why
	}
	return a
}

// bodies are the messages of a converted response as protobuf, without the nonce. Of the incremental variant they are as
// many as it takes that none has more than so many bytes of resources and names.
func (r *response) bodies(delta bool, most int, identifier string) (made []*pieces) {
	at, gone := 0, 0
	for {
		end, endGone, size := at, gone, 0
		for ; end < len(r.resources); end++ {
			more := r.resources[end].size(delta)
			if delta && size > 0 && size+more > most {
				break
			}
			size += more
		}
		for ; end == len(r.resources) && endGone < len(r.removed); endGone++ {
			more := sizeText(responseRemoved, r.removed[endGone])
			if size > 0 && size+more > most {
				break
			}
			size += more
		}
		made = append(made, r.body(delta, identifier, r.resources[at:end], r.removed[gone:endGone], size))
		at, gone = end, endGone
		if at == len(r.resources) && gone == len(r.removed) {
			return made
		}
	}
}

// size is how many bytes a resource takes in a message.
func (it *resource) size(delta bool) int {
	if !delta {
		return sizeOfBytes(responseResources, len(it.wire))
	}
	return sizeOfBytes(responseResources, it.inner())
}

// inner is how many bytes a resource of the incremental variant has.
func (it *resource) inner() int {
	return sizeText(resourceVersion, it.version) + sizeText(resourceName, it.name) + sizeOfBytes(resourceBody, len(it.wire))
}

// body is one message, with the identifier of the control plane, if there is one.
func (r *response) body(delta bool, identifier string, resources []resource, removed []string, size int) *pieces {
	made := &pieces{more: size + len(r.version) + len(r.typeURL) + len(identifier) + 48}
	b := appendText(nil, responseVersion, r.version)
	for i := range resources {
		it := &resources[i]
		b = protowire.AppendTag(b, responseResources, protowire.BytesType)
		if delta {
			b = protowire.AppendVarint(b, uint64(it.inner()))
			b = appendText(b, resourceVersion, it.version)
			b = protowire.AppendTag(b, resourceBody, protowire.BytesType)
		}
		made.add(protowire.AppendVarint(b, uint64(len(it.wire))))
		made.add(it.wire)
		if b = b[:0]; delta {
			b = appendText(b, resourceName, it.name)
		}
	}
	b = appendText(b, responseTypeURL, r.typeURL)
	for _, name := range removed {
		b = protowire.AppendTag(b, responseRemoved, protowire.BytesType)
		b = protowire.AppendString(b, name)
	}
	if identifier != "" {
		field := protowire.Number(responseControlPlane)
		if delta {
			field = responseDeltaControlPlane
		}
		b = protowire.AppendTag(b, field, protowire.BytesType)
		b = protowire.AppendBytes(b, appendText(nil, controlPlaneIdentifier, identifier))
	}
	made.add(b)
	return made
}

// assembledOf is what clients are sent of a response's text, which streams share, and its nonce.
func (b *bridge) assembledOf(text []byte, delta bool) (*assembled, string, error) {
	cut, isCut := b.alikes.cut(text, delta)
	if len(text) < sharedFrom {
		if !isCut {
			return b.assemble(text, delta)
		}
		if made := cut.made(); made != nil {
			return made, string(cut.nonce), nil
		}
		made, nonce, err := b.assemble(text, delta)
		if err == nil {
			cut.keep(made)
		}
		return made, nonce, err
	}
	assemble := func() (*assembled, error) {
		made, _, err := b.assemble(text, delta)
		return made, err
	}
	if isCut {
		made, err := b.shared.of(cut.keyOf(b.shared.digests, delta), assemble)
		if err == nil && made.nonces != 1 {
			_, nonce, err := b.shared.digests.keyOf(text, delta)
			return made, nonce, err
		}
		return made, string(cut.nonce), err
	}
	key, nonce, err := b.shared.digests.keyOf(text, delta)
	if err != nil {
		return nil, "", err
	}
	made, err := b.shared.of(key, assemble)
	return made, nonce, err
}

// assembledNow is what clients are sent of a short response's text, and its nonce, where that takes no conversion. It is nil for all
// others.
func (b *bridge) assembledNow(text []byte, delta bool) (made *assembled, nonce string) {
	cut, isCut := b.alikes.cut(text, delta)
	if isCut {
		if made := cut.made(); made != nil {
			return made, string(cut.nonce)
		}
	}
	if made, nonce = b.assembleReady(text, delta); made != nil && isCut {
		cut.keep(made)
	}
	return made, nonce
}

// appendText appends a field that is a text, unless it is empty.
func appendText(b []byte, field protowire.Number, text string) []byte {
	if text == "" {
		return b
	}
	return protowire.AppendString(protowire.AppendTag(b, field, protowire.BytesType), text)
}

func sizeText(field protowire.Number, text string) int {
	if text == "" {
		return 0
	}
	return protowire.SizeTag(field) + protowire.SizeBytes(len(text))
}

// sizeOfBytes is how many bytes a field takes that has so many.
func sizeOfBytes(field protowire.Number, size int) int {
	return protowire.SizeTag(field) + protowire.SizeBytes(size)
}
