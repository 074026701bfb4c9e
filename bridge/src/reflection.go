package main

import (
	"errors"
	"io"
	"sort"

	"google.golang.org/grpc"
	"google.golang.org/grpc/codes"
	"google.golang.org/grpc/reflection/grpc_reflection_v1alpha"
	"google.golang.org/protobuf/proto"
	"google.golang.org/protobuf/reflect/protodesc"
	"google.golang.org/protobuf/reflect/protoreflect"
	"google.golang.org/protobuf/reflect/protoregistry"
)

// reflection answers gRPC's service of server reflection by descriptor sets: the given one, and behind it the small one,
// which has the services.
type reflection struct {
	grpc_reflection_v1alpha.UnimplementedServerReflectionServer
	server *grpc.Server
	sets   []*protoregistry.Files
}

func (r reflection) ServerReflectionInfo(stream grpc_reflection_v1alpha.ServerReflection_ServerReflectionInfoServer) error {
	sent := map[string]bool{}
	for {
		request, err := stream.Recv()
		if errors.Is(err, io.EOF) {
			return nil
		}
		if err != nil {
			return err
		}
		if err := stream.Send(r.answer(request, sent)); err != nil {
			return err
		}
	}
}

// answer answers a request. Files that were sent on the stream aren't sent again, but for one that is asked for.
func (r reflection) answer(request *grpc_reflection_v1alpha.ServerReflectionRequest, sent map[string]bool) *grpc_reflection_v1alpha.ServerReflectionResponse {
	made := &grpc_reflection_v1alpha.ServerReflectionResponse{ValidHost: request.Host, OriginalRequest: request}
	switch it := request.MessageRequest.(type) {
	case *grpc_reflection_v1alpha.ServerReflectionRequest_ListServices:
		list := new(grpc_reflection_v1alpha.ListServiceResponse)
		for name := range r.server.GetServiceInfo() {
			list.Service = append(list.Service, &grpc_reflection_v1alpha.ServiceResponse{Name: name})
		}
		sort.Slice(list.Service, func(i, j int) bool { return list.Service[i].Name < list.Service[j].Name })
		made.MessageResponse = &grpc_reflection_v1alpha.ServerReflectionResponse_ListServicesResponse{ListServicesResponse: list}
		return made
	case *grpc_reflection_v1alpha.ServerReflectionRequest_FileByFilename:
		for _, set := range r.sets {
			if file, err := set.FindFileByPath(it.FileByFilename); err == nil {
				return withFiles(made, file, sent)
			}
		}
	case *grpc_reflection_v1alpha.ServerReflectionRequest_FileContainingSymbol:
		for _, set := range r.sets {
			if found, err := set.FindDescriptorByName(protoreflect.FullName(it.FileContainingSymbol)); err == nil {
				return withFiles(made, found.ParentFile(), sent)
			}
		}
	}
	made.MessageResponse = &grpc_reflection_v1alpha.ServerReflectionResponse_ErrorResponse{ErrorResponse: &grpc_reflection_v1alpha.ErrorResponse{
		ErrorCode: int32(codes.NotFound), ErrorMessage: "the bridge's descriptors don't have it"}}
	return made
}

// withFiles answers a file, and what it imports.
func withFiles(made *grpc_reflection_v1alpha.ServerReflectionResponse, file protoreflect.FileDescriptor, sent map[string]bool) *grpc_reflection_v1alpha.ServerReflectionResponse {
	files := new(grpc_reflection_v1alpha.FileDescriptorResponse)
	var add func(protoreflect.FileDescriptor, bool)
	add = func(it protoreflect.FileDescriptor, asked bool) {
		if it.IsPlaceholder() || (sent[it.Path()] && !asked) {
			return
		}
		sent[it.Path()] = true
		if wire, err := proto.Marshal(protodesc.ToFileDescriptorProto(it)); err == nil {
			files.FileDescriptorProto = append(files.FileDescriptorProto, wire)
		}
		for i := 0; i < it.Imports().Len(); i++ {
			add(it.Imports().Get(i).FileDescriptor, false)
		}
	}
	add(file, true)
	made.MessageResponse = &grpc_reflection_v1alpha.ServerReflectionResponse_FileDescriptorResponse{FileDescriptorResponse: files}
	return made
}
