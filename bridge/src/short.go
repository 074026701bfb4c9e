package main

import (
	"encoding/json"

	"google.golang.org/protobuf/encoding/protowire"
	"google.golang.org/protobuf/reflect/protoreflect"
)

// A short is a request that says which response it answers, its type, and by the state of the world its version and names, all
// in plain letters, and nothing else. Nearly all requests are such. It is read and said in JSON without the protobuf package.
type short struct {
	version, typeURL, nonce string
	names                   []string
}

// The numbers of its fields in discovery.proto.
const (
	requestVersion      = 1
	requestNames        = 3
	requestTypeURL      = 4
	requestNonce        = 5
	requestDeltaTypeURL = 2
	requestDeltaNonce   = 6
)

// usualTypes are the type URLs of all services, by themselves, so that no request has a copy.
var usualTypes = func() map[string]string {
	made := map[string]string{}
	for _, it := range services {
		made[typePrefix+it.typeURL] = typePrefix + it.typeURL
	}
	return made
}()

// readShort reads a request that is a short one. It answers nil for all others, and for what is no request.
func readShort(wire []byte, delta bool) *short {
	if r := new(short); r.read(wire, delta) {
		return r
	}
	return nil
}

// read reads a request that is a short one, and answers false for all others.
func (r *short) read(wire []byte, delta bool) bool {
	*r = short{}
	for len(wire) > 0 {
		field, kind, n := protowire.ConsumeTag(wire)
		if n < 0 || kind != protowire.BytesType {
			return false
		}
		value, m := protowire.ConsumeBytes(wire[n:])
		if m < 0 || !plain(value) {
			return false
		}
		wire = wire[n+m:]
		switch {
		case delta && field == requestDeltaTypeURL, !delta && field == requestTypeURL:
			if of, ok := usualTypes[string(value)]; ok {
				r.typeURL = of
			} else {
				r.typeURL = string(value)
			}
		case delta && field == requestDeltaNonce, !delta && field == requestNonce:
			r.nonce = string(value)
		case !delta && field == requestVersion:
			r.version = string(value)
		case !delta && field == requestNames:
			r.names = append(r.names, string(value))
		default:
			return false
		}
	}
	return true
}

// text is a field that is a text, by its name in the descriptors.
func (r *short) text(field protoreflect.Name) *string {
	switch field {
	case "version_info":
		return &r.version
	case "type_url":
		return &r.typeURL
	case "response_nonce":
		return &r.nonce
	}
	panic("a short request has no " + string(field))
}

// appendJSON appends the request's JSON text.
func (r *short) appendJSON(to []byte) []byte {
	begun := len(to)
	to = append(to, '{')
	for _, it := range [...]struct{ key, text string }{
		{`"responseNonce":`, r.nonce}, {`"typeUrl":`, r.typeURL}, {`"versionInfo":`, r.version}} {
		if it.text != "" {
			to = appendQuoted(append(to, it.key...), it.text)
			to = append(to, ',')
		}
	}
	if len(r.names) > 0 {
		to = append(to, `"resourceNames":[`...)
		for _, it := range r.names {
			to = append(appendQuoted(to, it), ',')
		}
		to[len(to)-1] = ']'
		to = append(to, ',')
	}
	if len(to) == begun+1 {
		return append(to, '}')
	}
	to[len(to)-1] = '}'
	return to
}

// appendQuoted appends a text as JSON spells it.
func appendQuoted(to []byte, text string) []byte {
	for i := 0; i < len(text); i++ {
		if !isPlain(text[i]) { // (a server's nonce may be so)
			quoted, _ := json.Marshal(text)
			return append(to, quoted...)
		}
	}
	return append(append(append(to, '"'), text...), '"')
}
