package main

import (
	"bytes"
	"encoding/json"
	"math/rand"
	"strings"
	"testing"

	"google.golang.org/protobuf/encoding/protojson"
	"google.golang.org/protobuf/proto"
)

func TestNoRequestEndsTheProgram(t *testing.T) {
	random := rand.New(rand.NewSource(3))
	of := testTypes.message(deltaRequestName, testTypes)
	made := of.New().Interface()
	if err := (protojson.UnmarshalOptions{Resolver: testTypes.known}).Unmarshal([]byte(`{"node":{"id":"n","metadata":{"a":[1,{"b":null}]},
		"locality":{"zone":"z"},"extensions":[{}]},"resourceNamesSubscribe":["a"],"initialResourceVersions":{"a":"1-1"},
		"errorDetail":{"code":3,"details":[{"@type":"`+clusterURL+`"}]}}`), made); err != nil {
		t.Fatal(err)
	}
	good, _ := proto.Marshal(made)
	taken := 0
	for i := 0; i < 10000; i++ {
		bad := append([]byte(nil), good...)
		for n := random.Intn(3); n >= 0; n-- {
			bad[random.Intn(len(bad))] = byte(random.Intn(256))
		}
		if r, err := readLong(of, bad); err == nil {
			if text, err := r.json(testTypes); err != nil || !json.Valid(text) {
				t.Fatalf("%q: %s, %v", bad, text, err)
			}
			taken++
		}
	}
	if taken < 200 {
		t.Fatal(taken)
	}
}

func TestNoResourceEndsTheProgram(t *testing.T) {
	random := rand.New(rand.NewSource(4))
	good := []byte(`{"@type":"` + clusterURL + `","name":"a","connectTimeout":"1.5s","lbPolicy":1,"metadata":{"filterMetadata":{"a":{"b":[1,null]}}},
		"typedExtensionProtocolOptions":{"x":{"@type":"` + routeURL + `","name":"r"},"y":{"@type":"type.googleapis.com/google.protobuf.Duration",
		"value":"1s"}},"commonLbConfig":{"healthyPanicThreshold":{"value":1}},"loadAssignment":{"namedEndpoints":{"b":{},"a":{}}}}`)
	taken := 0
	for i := 0; i < 10000; i++ {
		bad := append([]byte(nil), good...)
		for n := random.Intn(3); n > 0; n-- {
			bad[random.Intn(len(bad))] = "{}[]\",:\\ 1an-.@/\x00\xff"[random.Intn(18)]
		}
		one, err := testTypes.wireOf(bad)
		two, again := testTypes.wireOf(bad)
		if (err == nil) != (again == nil) || !bytes.Equal(one, two) {
			t.Fatalf("%s: %q, %v and %q, %v", bad, one, err, two, again)
		}
		if err == nil {
			taken++
		} else if len(plainError(err)) == 0 || strings.Contains(plainError(err), "\n") {
			t.Fatalf("%q", plainError(err))
		}
	}
	if taken < 1000 {
		t.Fatal(taken)
	}
}
