package main

import (
	"bytes"
	"encoding/json"
	"math/rand"
	"testing"
)

// membersOf is what members gives.
func membersOf(text string) (map[string]string, error) {
	found := map[string]string{}
	err := members([]byte(text), func(key string, value []byte) error {
		found[key] = string(value)
		return nil
	})
	return found, err
}

func TestMembersAreCutAsJSONHasThem(t *testing.T) {
	random := rand.New(rand.NewSource(1))
	for i := 0; i < 20000; i++ {
		value := map[string]interface{}{}
		for n := random.Intn(4); n > 0; n-- {
			value[anyText(random)] = anyValue(random, 4)
		}
		written, _ := json.Marshal(value)
		if random.Intn(2) == 0 {
			var spaced bytes.Buffer
			_ = json.Indent(&spaced, written, "\r\n", "\t ")
			written = spaced.Bytes()
		}
		var want map[string]json.RawMessage
		if err := json.Unmarshal(written, &want); err != nil {
			t.Fatal(err)
		}
		got, err := membersOf(string(written))
		if err != nil || len(got) != len(want) {
			t.Fatalf("%s: %v, %v", written, got, err)
		}
		for key, value := range want {
			if got[key] != string(value) {
				t.Fatalf("%s: %q is %q, not %q", written, key, got[key], value)
			}
		}
	}
}

// anyText is a random text with what JSON escapes in it.
func anyText(random *rand.Rand) string {
	made := ""
	for n := random.Intn(5); n > 0; n-- {
		made += []string{"a", "\"", "\\", "{", "}", "[", "]", ",", ":", "\n", "ü", "\u2028", "\x00"}[random.Intn(13)]
	}
	return made
}

// anyValue is a random value.
func anyValue(random *rand.Rand, depth int) interface{} {
	if depth == 0 {
		return []interface{}{1, -2.5e3, true, nil, "", anyText(random)}[random.Intn(6)]
	}
	if random.Intn(2) == 0 {
		list := []interface{}{}
		for n := random.Intn(3); n > 0; n-- {
			list = append(list, anyValue(random, depth-1-random.Intn(depth)))
		}
		return list
	}
	made := map[string]interface{}{}
	for n := random.Intn(3); n > 0; n-- {
		made[anyText(random)] = anyValue(random, depth-1-random.Intn(depth))
	}
	return made
}

func TestWhatIsNoObjectIsRefused(t *testing.T) {
	for _, bad := range []string{
		"", " ", "1", "[]", "\"\"", "{", "}", "{}{}", "{}x", "{,}", "{\"a\"}", "{\"a\":}", "{\"a\":1", "{\"a\":1,}",
		"{\"a\":1 \"b\":2}", "{1:2}", "{\"a\":\"", "{\"a\":\"\\", "{\"a\":[", "{\"a\":[1}", "{\"a\"1}", "{\"a\":1}]", "{\"\\x\":1}",
	} {
		if got, err := membersOf(bad); err == nil {
			t.Errorf("%q: %v", bad, got)
		}
	}
}

func TestNoTextEndsTheProgram(t *testing.T) {
	random := rand.New(rand.NewSource(2))
	good := []byte(`{"nonce":"1","removedResources":["a"],"resources":[{"name":"b","resource":{"@type":"x"},"version":"1-1"}],"typeUrl":"\u00e4"}`)
	for i := 0; i < 100000; i++ {
		bad := append([]byte(nil), good[:random.Intn(len(good)+1)]...)
		for n := random.Intn(3); n > 0 && len(bad) > 0; n-- {
			bad[random.Intn(len(bad))] = "{}[]\",:\\ 1n\x00\xff"[random.Intn(13)]
		}
		_, _ = readResponse(bad, true)
		_, _ = readResponse(bad, false)
	}
}

func TestTexts(t *testing.T) {
	for _, it := range []struct{ text, want string }{{`""`, ""}, {`"a b"`, "a b"}, {`"\u00e4\n"`, "ä\n"}, {`"ä"`, "ä"}} {
		if got, err := textOf([]byte(it.text)); err != nil || got != it.want {
			t.Errorf("%s: %q, %v", it.text, got, err)
		}
	}
	for _, bad := range []string{"", "1", "null", `"`, `"a`, `"\x"`, `{}`} {
		if got, err := textOf([]byte(bad)); err == nil {
			t.Errorf("%s: %q", bad, got)
		}
	}
}
