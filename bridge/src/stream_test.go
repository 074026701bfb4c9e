package main

import (
	"context"
	"fmt"
	"io"
	"strings"
	"testing"
	"time"

	"google.golang.org/grpc"
	"google.golang.org/grpc/codes"
	"google.golang.org/grpc/status"
	"google.golang.org/protobuf/encoding/protojson"
	"google.golang.org/protobuf/proto"
)

func TestStateOfTheWorldPassesAsItIs(t *testing.T) {
	k := newWorld(t).sotw()
	request := `{"node":{"id":"n","cluster":"c","metadata":{"a":[1.5,null,"x"]},"userAgentName":"u"},"resourceNames":["b","a","b"],
		"typeUrl":"` + clusterURL + `","versionInfo":"7.1"}`
	k.wants(k.asks(request), request)
	response := `{"nonce":"1","resources":[{"@type":"` + clusterURL + `","name":"b","connectTimeout":"0.500s"},
		{"@type":"` + clusterURL + `","name":"a"}],"typeUrl":"` + clusterURL + `","versionInfo":"1.2.named"}`
	k.answers(response)
	k.wants(k.takes(), response)
	request = `{"resourceNames":["ä"],"responseNonce":"1","typeUrl":"` + clusterURL + `","versionInfo":"7.1",
		"errorDetail":{"code":13,"message":"no \"such\"\n"}}`
	k.wants(k.asks(request), request)
	k.answers(`{}`)
	k.wants(k.takes(), `{}`)
}

func TestDeltaPassesAsItIs(t *testing.T) {
	k := newWorld(t).delta()
	request := `{"node":{"id":"n"},"resourceNamesSubscribe":["*","a"],"resourceNamesUnsubscribe":["b"],"typeUrl":"` + clusterURL + `",
		"initialResourceVersions":{"a":"1-1","*":""}}`
	k.wants(k.asks(request), request)
	response := `{"nonce":"1","removedResources":["x","y"],"resources":[{"name":"a","resource":{"@type":"` + clusterURL + `","name":"a"},
		"version":"3-1"}],"systemVersionInfo":"1.4","typeUrl":"` + clusterURL + `"}`
	k.answers(response)
	k.wants(k.takes(), response)
	request = `{"responseNonce":"1","typeUrl":"` + clusterURL + `","errorDetail":{}}`
	k.wants(k.asks(request), request)
}

func TestWhatJSONCantSayOfARequestIsLeftOut(t *testing.T) {
	k := newWorld(t).sotw()
	node := `{"id":"n","cluster":"c","userAgentName":"u","metadata":{"a":1}}`
	made := k.variant.message.New().Interface()
	if err := protojson.Unmarshal([]byte(`{"node":`+node+`,"typeUrl":"t","errorDetail":{"code":3,"message":"m"}}`), made); err != nil {
		t.Fatal(err)
	}
	wire, _ := proto.Marshal(made)
	// (error_detail.details of an unknown type, as a second error_detail, which is merged into the first; an unknown field)
	wire = append(wire, "\x32\x0b\x1a\x09\x0a\x07x/y.Zzz\xca\x3e\x01a"...)
	if err := k.client.SendMsg(&message{wire}); err != nil {
		t.Fatal(err)
	}
	k.wants(k.gets(), `{"node":{"id":"n","cluster":"c"},"typeUrl":"t","errorDetail":{"code":3,"message":"m"}}`)
}

// rule: accept-reject, rule: whole-or-nothing
func TestARefusalInTheClientsPlace(t *testing.T) {
	k := newWorld(t).sotw()
	k.asks(`{"node":{"id":"n1"},"resourceNames":["a"],"typeUrl":"` + clusterURL + `"}`)
	k.asks(`{"resourceNames":["r"],"typeUrl":"` + routeURL + `"}`)
	good := `{"nonce":"1","resources":[{"@type":"` + clusterURL + `","name":"a"}],"typeUrl":"` + clusterURL + `","versionInfo":"v1"}`
	k.answers(good)
	k.wants(k.takes(), good)
	k.asks(`{"resourceNames":["a","b"],"typeUrl":"` + clusterURL + `","versionInfo":"v1","responseNonce":"1"}`)
	for _, nonce := range []string{"2", "3"} {
		k.answers(`{"nonce":"` + nonce + `","resources":[{"@type":"` + clusterURL + `","name":"a"},
			{"@type":"` + clusterURL + `","lbPolicy":"RANDOM","name":"b","nothingKnown":1}],"typeUrl":"` + clusterURL + `","versionInfo":"v2"}`)
		k.wants(k.gets(), `{"errorDetail":{"code":3,"message":"the gRPC bridge can't convert resource \"b\", field \"nothingKnown\": unknown field \"nothingKnown\""},
			"resourceNames":["a","b"],"responseNonce":"`+nonce+`","typeUrl":"`+clusterURL+`","versionInfo":"v1"}`)
	}
	// (which is told once, however often the same body is refused)
	k.tells(`refused: ` + clusterURL + `: resource "b", field "nothingKnown": unknown field "nothingKnown"`)
	k.bridge.frozen.look(time.Now())
	if told := k.tells("is frozen since"); strings.Count(told, "\n") != 2 || !strings.Contains(told, ", 1 client waits: resource \"b\", field") {
		t.Fatal(told)
	}
	k.hasNumber(`bridge_frozen_clients{type="`+clusterURL+`"} 1`, `,cause="resource \"b\", field \"nothingKnown\": unknown`,
		`bridge_refused_responses_total{type="`+clusterURL+`"} 2`)
	// The client knows the response 1 alone. What it asks next is up to date, and so has to name the response 3.
	k.wants(k.asks(`{"resourceNames":["a"],"typeUrl":"`+clusterURL+`","versionInfo":"v1","responseNonce":"1"}`),
		`{"resourceNames":["a"],"typeUrl":"`+clusterURL+`","versionInfo":"v1","responseNonce":"3"}`)
	// Another type has nothing to do with it.
	k.wants(k.asks(`{"resourceNames":["r"],"typeUrl":"`+routeURL+`","responseNonce":"1"}`),
		`{"resourceNames":["r"],"typeUrl":"`+routeURL+`","responseNonce":"1"}`)
	good = strings.Replace(strings.Replace(good, `"1"`, `"4"`, 1), "v1", "v3", 1)
	k.answers(good)
	k.wants(k.takes(), good)
	k.bridge.frozen.look(time.Now())
	k.tells(clusterURL + " isn't frozen any more")
	if found := k.bridge.frozen.all(); len(found) != 0 {
		t.Fatal(found)
	}
	for _, nonce := range []string{"4", "1", ""} {
		request := `{"resourceNames":["a"],"typeUrl":"` + clusterURL + `","versionInfo":"v3"}`
		if nonce != "" {
			request = strings.Replace(request, "{", `{"responseNonce":"`+nonce+`",`, 1)
		}
		k.wants(k.asks(request), request)
	}
}

// rule: stale-nonce
func TestAnAnswerIsNeverTakenForAnother(t *testing.T) {
	// A server that doesn't wait for the answer to one response before it sends the next.
	k := newWorld(t).delta()
	k.asks(`{"typeUrl":"` + clusterURL + `"}`)
	good := `{"nonce":"1","typeUrl":"` + clusterURL + `"}`
	k.answers(good)
	k.answers(`{"nonce":"2","resources":[{"name":"a","resource":{}}],"typeUrl":"` + clusterURL + `"}`)
	k.wants(k.gets()["responseNonce"], `"2"`)
	k.wants(k.takes(), good)
	answer := `{"responseNonce":"1","typeUrl":"` + clusterURL + `"}`
	k.wants(k.asks(answer), answer)
	k.wants(k.asks(answer), strings.Replace(answer, "1", "2", 1))
}

// rule: accept-reject, rule: whole-or-nothing
func TestARefusalOfADelta(t *testing.T) {
	k := newWorld(t).delta()
	k.asks(`{"resourceNamesSubscribe":["a"],"typeUrl":"` + clusterURL + `","initialResourceVersions":{"a":"1-1"}}`)
	k.answers(`{"nonce":"1","resources":[{"name":"a","resource":{"@type":"type.googleapis.com/un.Known"},"version":"1-1"}],"typeUrl":"` + clusterURL + `"}`)
	k.wants(k.gets(), `{"errorDetail":{"code":3,"message":"the gRPC bridge can't convert resource \"a\", field \"@type\": unable to resolve `+
		`\"type.googleapis.com/un.Known\": \"not found\""},"responseNonce":"1","typeUrl":"`+clusterURL+`"}`)
}

func TestHowStreamsEnd(t *testing.T) {
	w := newWorld(t)
	for _, it := range []struct {
		bytes string
		code  codes.Code
		part  string
	}{
		{"", codes.Unavailable, "closed the stream"},
		{"\x00\x00\x00", codes.Unavailable, "within a frame"},
		{"\x00\x00\x00\x03\x02{", codes.Unavailable, "within a frame"},
		{"\x00\x00\x00\x00", codes.Internal, "length is 0"},
		{"\x01\x00\x00\x01", codes.Internal, "length is 16777217"},
		{"HTTP/1.1 400 Bad Request\r\n\r\n", codes.Internal, "no frame"},
		{"\x00\x00\x00\x03\x04{}", codes.Internal, "kind 4"},
		{"\x00\x00\x00\x03\x01{}", codes.Internal, "kind 1"},
		{"\x00\x00\x00\x03\x02[]", codes.Internal, "no response"},
		{"\x00\x00\x00\x0b\x02{\"canary\":", codes.Internal, "no response"},
		{"\x00\x00\x00\x0d\x02{\"canary\":1}", codes.Internal, "canary"},
		{"\x00\x00\x00\x0c\x02{\"nonce\":1}", codes.Internal, "no response"},
	} {
		k := w.sotw()
		_, _ = io.WriteString(k.server, it.bytes)
		k.server.Close()
		k.ends(it.code, it.part)
	}
}

func TestTheClientEndsIt(t *testing.T) {
	w := newWorld(t)
	k := w.sotw()
	k.cancel()
	k.closes()
	// A client that asks for nothing more still takes what it is sent, and then the server's end is a good one.
	k = w.delta()
	_ = k.client.CloseSend()
	k.closes()
	k.answers(`{"nonce":"1"}`)
	k.wants(k.takes(), `{"nonce":"1"}`)
	k.server.Close()
	var in message
	if err := k.client.RecvMsg(&in); err != io.EOF {
		t.Fatal(err)
	}
}

func TestRequestsThatAreNone(t *testing.T) {
	w := newWorld(t)
	for _, wire := range []string{"\x00", "\x1a\x01\xff", "\x12\x02\x0a"} {
		k := w.sotw()
		_ = k.client.SendMsg(&message{[]byte(wire)})
		k.ends(codes.InvalidArgument, "no DiscoveryRequest")
		k.closes()
	}
	// (an entry of a map with two keys, the second of which is none)
	k := w.delta()
	_ = k.client.SendMsg(&message{[]byte("\x2a\x05\x0a\x01a\x08\x01")})
	k.ends(codes.InvalidArgument, "no DeltaDiscoveryRequest")
	k = w.sotw()
	for i := 0; i < mostTypes; i++ {
		k.asks(fmt.Sprintf(`{"typeUrl":"%d"}`, i))
	}
	k.sends(`{"typeUrl":"x"}`)
	k.ends(codes.ResourceExhausted, "128 types")
}

func TestServicesOfASingleType(t *testing.T) {
	w := newWorld(t)
	for _, it := range services[1:] {
		url := typePrefix + it.typeURL
		for _, v := range []*variant{&w.bridge.sotw, &w.bridge.delta} {
			method := "/" + it.fullName() + "/Stream" + it.what
			if v.delta {
				method = "/" + it.fullName() + "/Delta" + it.what
			}
			k := w.talk(method, v)
			k.wants(k.asks(`{"node":{"id":"n"}}`), `{"node":{"id":"n"},"typeUrl":"`+url+`"}`)
			k.wants(k.asks(`{"typeUrl":"`+url+`"}`), `{"typeUrl":"`+url+`"}`)
			k.sends(`{"typeUrl":"` + url + `x"}`)
			k.ends(codes.InvalidArgument, "of the type "+url)
			k.closes()
		}
		err := w.conn.Invoke(context.Background(), "/"+it.fullName()+"/Fetch"+it.what, &message{}, &message{})
		if status.Code(err) != codes.Unimplemented || !strings.Contains(err.Error(), "/v3/discovery:"+it.rest) {
			t.Fatal(err)
		}
	}
}

func TestAStoppedBridgeEndsStreams(t *testing.T) {
	w := newWorld(t)
	idle, silent := w.sotw(), w.delta()
	silent.asks(`{"typeUrl":"t"}`)
	stopped := make(chan struct{})
	go func() {
		w.bridge.stop(w.grpc)
		close(stopped)
	}()
	idle.ends(codes.Unavailable, "stopping")
	silent.ends(codes.Unavailable, "stopping")
	silent.closes()
	<-stopped
}

func TestAServerThatCantBeReached(t *testing.T) {
	w := newWorld(t)
	w.control.Close()
	ctx, cancel := context.WithTimeout(context.Background(), patience)
	defer cancel()
	client, err := w.conn.NewStream(ctx, &grpc.StreamDesc{ServerStreams: true, ClientStreams: true}, adsMethod+"DeltaAggregatedResources")
	if err != nil {
		t.Fatal(err)
	}
	k := &talk{world: w, client: client}
	k.ends(codes.Unavailable, "can't be reached")
}

func TestWrongWords(t *testing.T) {
	for _, words := range []string{
		"x", "--nothing", "--listen", "--listen 18200", "--listen 0.0.0.0:18200", "--listen :18200", "--listen [::]:1", "--server x",
		"--listen example.com:1", "--tls-cert a", "--tls-key a", "--client-ca a", "--cache-bytes x", "--cache-bytes -1", "--max-request 0",
		"--max-request 16777216", "--max-message 0", "--max-message 100000000", "--max-streams -1", "--identity san", "--tls-cert a --tls-key b --client-ca c --identity x",
		"--tls-cert a --tls-key b --identity cn", "--metrics 0.0.0.0:1", "--check 1",
	} {
		if _, err := readOptions(strings.Fields(words), io.Discard); err == nil {
			t.Errorf("%s is taken", words)
		}
	}
	for _, words := range []string{
		"", "--listen [::1]:1", "--listen localhost:0", "-listen 127.0.0.2:1", "--listen :18200 --tls-cert a --tls-key b --client-ca c",
		"--cache-bytes 0", "--max-request=1 --max-message=4096 --max-streams=1", "--tls-cert a --tls-key b --client-ca c --identity cn", "--skip-bad",
		"--metrics 127.0.0.1:0 --check localhost:1",
	} {
		if _, err := readOptions(strings.Fields(words), io.Discard); err != nil {
			t.Errorf("%s: %v", words, err)
		}
	}
}
