package main

import (
	_ "embed"
	"encoding/json"
	"fmt"
	"strings"

	"google.golang.org/protobuf/encoding/protojson"
	"google.golang.org/protobuf/proto"
	"google.golang.org/protobuf/reflect/protodesc"
	"google.golang.org/protobuf/reflect/protoreflect"
	"google.golang.org/protobuf/reflect/protoregistry"
	"google.golang.org/protobuf/types/descriptorpb"
	"google.golang.org/protobuf/types/dynamicpb"
	"google.golang.org/protobuf/types/known/anypb"
)

// smallSet is the descriptor set that build makes of protos/.
//
//go:embed envoy.binpb
var smallSet []byte

const (
	requestName      = "envoy.service.discovery.v3.DiscoveryRequest"
	deltaRequestName = "envoy.service.discovery.v3.DeltaDiscoveryRequest"
)

// types are the messages of a descriptor set.
type types struct {
	known *protoregistry.Types
	files *protoregistry.Files
}

// readTypes reads a FileDescriptorSet.
func readTypes(set []byte) (*types, error) {
	files := new(descriptorpb.FileDescriptorSet)
	if err := proto.Unmarshal(set, files); err != nil {
		return nil, fmt.Errorf("it is no FileDescriptorSet: %s", plainError(err))
	}
	read, err := protodesc.NewFiles(files)
	if err != nil {
		return nil, fmt.Errorf("it isn't whole: %s", plainError(err))
	}
	made := &types{known: new(protoregistry.Types), files: read}
	read.RangeFiles(func(file protoreflect.FileDescriptor) bool {
		err = made.add(file.Messages())
		return err == nil
	})
	return made, err
}

func (t *types) add(messages protoreflect.MessageDescriptors) error {
	for i := 0; i < messages.Len(); i++ {
		if err := t.known.RegisterMessage(dynamicpb.NewMessageType(messages.Get(i))); err != nil {
			return err
		}
		if err := t.add(messages.Get(i).Messages()); err != nil {
			return err
		}
	}
	return nil
}

// message is the type of a name, of this set or, where it lacks it, of another.
func (t *types) message(name protoreflect.FullName, other *types) protoreflect.MessageType {
	found, err := t.known.FindMessageByName(name)
	if err != nil {
		found, _ = other.known.FindMessageByName(name)
	}
	return found
}

// asError answers a panic as an error. Version 1.28 of the protobuf package panics at some bytes that are no message, as
// at an entry of a map with two keys, one of which is none.
func asError(err *error) {
	if it := recover(); it != nil {
		*err = fmt.Errorf("%v", it)
	}
}

// wireOf converts a resource, the JSON object of an Any, to the bytes of that Any. The same text gives the same bytes.
func (t *types) wireOf(text []byte) (wire []byte, err error) {
	defer asError(&err)
	// (version 1.28 of the protobuf package never ends at some texts with an Any in them that are no JSON)
	if !json.Valid(text) {
		return nil, &fault{cause: "it is no JSON"}
	}
	resource := new(anypb.Any)
	for i := 0; ; i++ {
		err := protojson.UnmarshalOptions{Resolver: t.known}.Unmarshal(text, resource)
		if err == nil {
			break
		}
		more := withValue(text, err)
		if more == nil || i == mostEmpty {
			return nil, faultOf(text, err)
		}
		text = more
	}
	if resource.TypeUrl == "" {
		return nil, &fault{cause: "it has no \"@type\""}
	}
	return proto.MarshalOptions{Deterministic: true}.Marshal(resource)
}

// jsonOf is the JSON text of a message.
func (t *types) jsonOf(message proto.Message) (text []byte, err error) {
	defer asError(&err)
	return protojson.MarshalOptions{Resolver: t.known}.Marshal(message)
}

// plainError is an error's text in one line, without what the protobuf package puts before it.
func plainError(err error) string {
	text := strings.ReplaceAll(err.Error(), "\u00a0", " ")
	text = strings.TrimPrefix(text, "proto: ")
	if strings.HasPrefix(text, "(line ") || strings.HasPrefix(text, "syntax error (line ") {
		if _, behind, ok := strings.Cut(text, "): "); ok {
			text = behind
		}
	}
	return strings.ReplaceAll(text, "\n", " ")
}
