package main

import "google.golang.org/protobuf/encoding/protowire"

// readWire reads of a DeltaDiscoveryResponse what the bench looks at: versions and names of resources, and the nonce.
func readWire(wire []byte) *response {
	r := new(response)
	wireFields(wire, func(field protowire.Number, value []byte) {
		switch field {
		case responseNonce:
			r.nonce = string(value)
		case responseResources:
			var it resource
			wireFields(value, func(field protowire.Number, value []byte) {
				switch field {
				case resourceVersion:
					it.version = string(value)
				case resourceName:
					it.name = string(value)
				}
			})
			r.resources = append(r.resources, it)
		}
	})
	return r
}

// wireFields calls take for each field of a message, all of which are texts, bytes or messages.
func wireFields(wire []byte, take func(field protowire.Number, value []byte)) {
	for len(wire) > 0 {
		field, _, n := protowire.ConsumeTag(wire)
		value, m := protowire.ConsumeBytes(wire[n:])
		if n < 0 || m < 0 {
			panic("bytes that are no message")
		}
		take(field, value)
		wire = wire[n+m:]
	}
}
