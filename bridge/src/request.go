package main

import (
	"encoding/json"

	"google.golang.org/protobuf/proto"
	"google.golang.org/protobuf/reflect/protoreflect"
)

// A request is a DiscoveryRequest or a DeltaDiscoveryRequest of a client.
type request struct {
	*short  // where it is a short one, else nil, and then:
	of      protoreflect.MessageType
	message protoreflect.Message
	fields  protoreflect.FieldDescriptors
}

// readLong reads any request.
func readLong(of protoreflect.MessageType, wire []byte) (r *request, err error) {
	defer asError(&err)
	message := of.New()
	if err := proto.Unmarshal(wire, message.Interface()); err != nil {
		return nil, err
	}
	return &request{nil, of, message, of.Descriptor().Fields()}, nil
}

// lengthen makes a short request of the incremental variant one to which all can be added.
func (r *request) lengthen() {
	if it := r.short; it != nil {
		r.short, r.message, r.fields = nil, r.of.New(), r.of.Descriptor().Fields()
		r.setText("type_url", it.typeURL)
		r.setText("response_nonce", it.nonce)
	}
}

// text is a field that is a text.
func (r *request) text(field protoreflect.Name) string {
	if r.short != nil {
		return *r.short.text(field)
	}
	return r.message.Get(r.fields.ByName(field)).String()
}

func (r *request) setText(field protoreflect.Name, text string) {
	if r.short != nil {
		*r.short.text(field) = text
		return
	}
	r.message.Set(r.fields.ByName(field), protoreflect.ValueOfString(text))
}

// names are the names that a request of the state of the world asks for.
func (r *request) names() []string {
	if r.short != nil {
		return r.short.names
	}
	list := r.message.Get(r.fields.ByName("resource_names")).List()
	made := make([]string, list.Len())
	for i := range made {
		made[i] = list.Get(i).String()
	}
	return made
}

// node is the id and the cluster of the request's node, if it says one.
func (r *request) node() (id, cluster string, ok bool) {
	if r.short != nil {
		return "", "", false
	}
	node := r.message.Get(r.fields.ByName("node")).Message()
	fields := node.Descriptor().Fields()
	return node.Get(fields.ByName("id")).String(), node.Get(fields.ByName("cluster")).String(), r.message.Has(r.fields.ByName("node"))
}

// json is the request's JSON text. Where JSON has no way to say something, as a number that is none in the node's
// metadata, or details of an error whose type isn't known, it says of the node its id and cluster alone, and of the
// error its code and message: these are what a server looks at.
func (r *request) json(known *types) ([]byte, error) {
	if r.short != nil {
		return r.short.appendJSON(make([]byte, 0, 256)), nil
	}
	text, err := known.jsonOf(r.message.Interface())
	if err == nil {
		return text, nil
	}
	r.keep("node", "id", "cluster")
	r.keep("error_detail", "code", "message")
	return known.jsonOf(r.message.Interface())
}

// keep clears all fields of a field that is a message, but for some.
func (r *request) keep(field protoreflect.Name, kept ...protoreflect.Name) {
	if !r.message.Has(r.fields.ByName(field)) {
		return
	}
	inner := r.message.Mutable(r.fields.ByName(field)).Message()
	inner.Range(func(it protoreflect.FieldDescriptor, _ protoreflect.Value) bool {
		for _, name := range kept {
			if it.Name() == name {
				return true
			}
		}
		inner.Clear(it)
		return true
	})
}

// invalidArgument is the code of gRPC by which a response is refused.
const invalidArgument = 3

// mostReason is how long the reason of a refusal is at most.
const mostReason = 1000

// rule: accept-reject
// refusal is the JSON text of a request that refuses a response in the client's place: of the state of the world with
// the names and the version that the client's last request of that type had, which of the incremental variant are none.
func refusal(typeURL, nonce, version string, names []string, reason string) ([]byte, error) {
	if len(reason) > mostReason {
		reason = reason[:mostReason]
	}
	type detail struct {
		Code    int    `json:"code"`
		Message string `json:"message"`
	}
	return json.Marshal(struct {
		Error   detail   `json:"errorDetail"`
		Names   []string `json:"resourceNames,omitempty"`
		Nonce   string   `json:"responseNonce,omitempty"`
		TypeURL string   `json:"typeUrl,omitempty"`
		Version string   `json:"versionInfo,omitempty"`
	}{detail{invalidArgument, reason}, names, nonce, typeURL, version})
}
