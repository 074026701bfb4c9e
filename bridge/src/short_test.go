package main

import (
	"encoding/json"
	"fmt"
	"math/rand"
	"reflect"
	"strings"
	"testing"

	"google.golang.org/protobuf/encoding/protojson"
	"google.golang.org/protobuf/encoding/protowire"
	"google.golang.org/protobuf/proto"
	"google.golang.org/protobuf/reflect/protoreflect"
)

// same compares the JSON of a short request with that of the protobuf package.
func same(t *testing.T, v *variant, wire []byte) (isShort bool) {
	t.Helper()
	it := readShort(wire, v.delta)
	if it == nil {
		return false
	}
	long, err := readLong(v.message, wire)
	if err != nil {
		t.Fatalf("%q: %v", wire, err)
	}
	short := &request{short: it, of: v.message}
	for _, name := range []protoreflect.Name{"type_url", "response_nonce"} {
		if short.text(name) != long.text(name) {
			t.Fatalf("%q: %s", wire, name)
		}
	}
	if !v.delta && !reflect.DeepEqual(append([]string{}, short.names()...), long.names()) {
		t.Fatalf("%q: %q, not %q", wire, short.names(), long.names())
	}
	one, _ := short.json(testTypes)
	two, err := long.json(testTypes)
	var got, want interface{}
	if err != nil || json.Unmarshal(one, &got) != nil || json.Unmarshal(two, &want) != nil || !reflect.DeepEqual(got, want) {
		t.Fatalf("%q: %s, not %s", wire, one, two)
	}
	return true
}

func TestShortRequestsAreSaidAsOthers(t *testing.T) {
	b := newBridge("", testTypes, testTypes, 0, newTeller(new(lines)))
	taken := 0
	for _, of := range []struct {
		text  string
		delta bool
		short bool
	}{
		{`{}`, true, true}, {`{}`, false, true},
		{`{"typeUrl":"` + clusterURL + `","responseNonce":"12"}`, true, true},
		{`{"typeUrl":"another","responseNonce":"1.2#1of3"}`, true, true},
		{`{"typeUrl":"` + clusterURL + `","responseNonce":"12","versionInfo":"1.2"}`, false, true},
		{`{"typeUrl":"` + routeURL + `","resourceNames":["a","","<b&c>"],"versionInfo":"1"}`, false, true},
		{`{"typeUrl":"` + routeURL + `","resourceNames":["\""]}`, false, false},
		{`{"typeUrl":"` + routeURL + `","responseNonce":"é"}`, true, false},
		{`{"typeUrl":"` + routeURL + `","resourceNamesSubscribe":["a"]}`, true, false},
		{`{"typeUrl":"` + routeURL + `","initialResourceVersions":{"a":"1"}}`, true, false},
		{`{"typeUrl":"` + routeURL + `","node":{"id":"a"}}`, true, false},
		{`{"typeUrl":"` + routeURL + `","node":{}}`, false, false},
		{`{"typeUrl":"` + routeURL + `","errorDetail":{"code":3}}`, true, false},
		{`{"typeUrl":"` + routeURL + `","errorDetail":{}}`, false, false},
	} {
		v := &b.sotw
		if of.delta {
			v = &b.delta
		}
		made := v.message.New().Interface()
		if err := protojson.Unmarshal([]byte(of.text), made); err != nil {
			t.Fatal(of.text, err)
		}
		wire, _ := proto.Marshal(made)
		if same(t, v, wire) != of.short {
			t.Fatal(of)
		}
		random := rand.New(rand.NewSource(5))
		for i := 0; i < 3000 && len(wire) > 0; i++ {
			bad := append([]byte(nil), wire...)
			for n := random.Intn(3); n >= 0; n-- {
				bad[random.Intn(len(bad))] = byte(random.Intn(128))
			}
			if same(t, v, bad[:len(bad)-random.Intn(2)]) {
				taken++
			}
		}
	}
	if taken < 500 {
		t.Fatal(taken)
	}
	// (of a field that comes twice the last counts)
	twice := appendText(appendText(appendText(nil, 2, "a"), 6, "1"), 2, "b")
	if !same(t, &b.delta, twice) || readShort(twice, true).typeURL != "b" {
		t.Fatal(twice)
	}
	if readShort(protowire.AppendVarint(protowire.AppendTag(nil, 2, protowire.VarintType), 1), true) != nil {
		t.Fatal("a number is no text")
	}
	// (a nonce that the bridge puts in)
	it := &request{short: &short{typeURL: "t", nonce: "1"}, of: b.delta.message}
	it.setText("response_nonce", "\"\n")
	if text, _ := it.json(testTypes); string(text) != `{"responseNonce":"\"\n","typeUrl":"t"}` {
		t.Fatalf("%s", text)
	}
}

// What is kept of short responses is told to those that are told alike, with their nonces, and to nobody else.
func TestShortResponsesThatAreAlike(t *testing.T) {
	w := newWorld(t)
	b := w.bridge
	misses := func(text string, delta bool) (string, bool) {
		made, nonce, err := b.assembledOf([]byte(text), delta)
		if err != nil {
			t.Fatal(text, err)
		}
		again, nonceAgain, err := b.assembledOf([]byte(text), delta)
		if err != nil || nonceAgain != nonce || again.typeURL != made.typeURL || again.why != made.why {
			t.Fatal(text, nonce, nonceAgain, err)
		}
		return nonce, again != made
	}
	for _, delta := range []bool{false, true} {
		text := clustersText("N", 3, delta)
		first, _, _ := b.assembledOf([]byte(text), delta)
		for _, nonce := range []string{"1", "", "22", strings.Repeat("n", alikeNonce)} {
			made, told, err := b.assembledOf([]byte(strings.Replace(text, `"N"`, `"`+nonce+`"`, 1)), delta)
			if err != nil || made != first || told != nonce {
				t.Fatal(made, told, err)
			}
		}
		for _, other := range []string{
			strings.Replace(text, `"N"`, `"`+strings.Repeat("n", alikeNonce+1)+`"`, 1),
			strings.Replace(text, `"N"`, `"\u0041"`, 1),
			strings.Replace(text, `{"nonce"`, `{ "nonce"`, 1),
			strings.Replace(text, `"c00001"`, `"d00001"`, -1),
		} {
			made, _, err := b.assembledOf([]byte(other), delta)
			if err != nil || made == first {
				t.Fatal(other, err)
			}
		}
		// (a nonce that is said twice, and a response that is refused, isn't kept)
		if nonce, missed := misses(strings.Replace(text, `"N"`, `"1","nonce":"2"`, 1), delta); nonce != "2" || !missed {
			t.Fatal(nonce, missed)
		}
		if nonce, missed := misses(strings.Replace(text, `"N"`, `"2","non\u0063e":"2"`, 1), delta); nonce != "2" || !missed {
			t.Fatal(nonce, missed)
		}
		if _, missed := misses(strings.Replace(text, `altStatName`, `noSuch`, -1), delta); !missed {
			t.Fatal("a refused response is kept")
		}
		if _, _, err := b.assembledOf([]byte(text+"x"), delta); err == nil {
			t.Fatal("more behind a response")
		}
	}
	// (the same text is another response in the other variant)
	text := `{"nonce":"1","typeUrl":"` + clusterURL + `"}`
	one, _, _ := b.assembledOf([]byte(text), false)
	two, _, _ := b.assembledOf([]byte(text), true)
	if one == two {
		t.Fatal("variants share")
	}
	for i := 0; i < 10*alikeMost; i++ {
		if _, _, err := b.assembledOf([]byte(fmt.Sprintf(`{"nonce":"%d","typeUrl":"t%d"}`, i, i)), true); err != nil {
			t.Fatal(err)
		}
	}
}

func TestStreamsThatAreToldAlikeShortResponses(t *testing.T) {
	w := newWorld(t)
	first, second := w.delta(), w.delta()
	for _, k := range []*talk{first, second} {
		k.asks(`{"typeUrl":"` + clusterURL + `"}`)
	}
	for i := 1; i < 20; i++ {
		for n, k := range []*talk{first, second} {
			nonce := fmt.Sprint(i * (n + 1))
			k.answers(fmt.Sprintf(`{"nonce":"%s","removedResources":["r%d"],"resources":[{"name":"a","resource":{"@type":"%s","name":"a"},"version":"%d-1"}],`+
				`"systemVersionInfo":"1.%d","typeUrl":"%s"}`, nonce, i, clusterURL, i, i, clusterURL))
			k.wants(k.takes(), fmt.Sprintf(`{"nonce":"%s","removedResources":["r%d"],"resources":[{"name":"a","resource":{"@type":"%s","name":"a"},`+
				`"version":"%d-1"}],"systemVersionInfo":"1.%d","typeUrl":"%s"}`, nonce, i, clusterURL, i, i, clusterURL))
			k.wants(k.asks(`{"typeUrl":"`+clusterURL+`","responseNonce":"`+nonce+`"}`), `{"typeUrl":"`+clusterURL+`","responseNonce":"`+nonce+`"}`)
		}
	}
}
