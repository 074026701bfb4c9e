package main

import (
	"errors"
	"io"
	"net/http"
	"net/http/httptest"
	"strings"
	"testing"
	"time"
)

// hasNumber wants parts in the numbers of the bridge.
func (w *world) hasNumber(parts ...string) {
	w.Helper()
	at := httptest.NewServer(w.bridge.numbersHandler())
	defer at.Close()
	reply, err := http.Get(at.URL + "/metrics")
	if err != nil {
		w.Fatal(err)
	}
	defer reply.Body.Close()
	text, _ := io.ReadAll(reply.Body)
	for _, it := range parts {
		if !strings.Contains(string(text), it) {
			w.Fatalf("%s isn't in\n%s", it, text)
		}
	}
}

func TestAResponseIsServedWithoutWhatIsBad(t *testing.T) {
	w := newWorld(t, "--skip-bad")
	bad := func(name string) string {
		return `{"@type":"` + clusterURL + `","name":"` + name + `","nothingKnown":1}`
	}
	good := `{"@type":"` + clusterURL + `","name":"g"}`
	for i := 0; i < 2; i++ {
		k := w.sotw()
		k.asks(`{"typeUrl":"` + clusterURL + `"}`)
		k.answers(`{"nonce":"1","resources":[` + bad("b") + `,` + good + `,` + bad("c") + `],"typeUrl":"` + clusterURL + `","versionInfo":"v"}`)
		k.wants(k.takes(), `{"nonce":"1","resources":[`+good+`],"typeUrl":"`+clusterURL+`","versionInfo":"v"}`)
		d := w.delta()
		d.asks(`{"typeUrl":"` + clusterURL + `"}`)
		d.answers(`{"nonce":"1","resources":[{"name":"b","resource":` + bad("b") + `,"version":"1-1"}],"typeUrl":"` + clusterURL + `"}`)
		d.wants(d.takes(), `{"nonce":"1","typeUrl":"`+clusterURL+`"}`)
	}
	w.tells(`resource "c"`)
	if told := w.told.String(); strings.Count(told, "\n") != 2 || !strings.Contains(told, `left out: `+clusterURL+`: resource "b", field "nothingKnown"`) {
		t.Fatal(told)
	}
	w.hasNumber(`bridge_skipped_resources_total{type="` + clusterURL + `"} 6`)
	if len(w.bridge.frozen.all()) != 0 {
		t.Fatal("a type is frozen")
	}
}

func TestWhatIsFrozenIsTold(t *testing.T) {
	told := new(lines)
	f := newFrozen(newTeller(told))
	now := time.Now()
	one, two := new(stream), new(stream)
	f.add("t", one, "why")
	f.add("t", two, "why")
	f.look(now)
	f.look(now.Add(time.Second)) // (nothing new)
	f.add("t", two, "another")
	f.look(now.Add(2 * time.Second))
	f.look(now.Add(2 * frozenAgain))
	f.leave(one)
	if all := f.all(); len(all) != 1 || all[0].clients != 1 || all[0].why != "another" {
		t.Fatal(all)
	}
	f.remove("t", two)
	f.look(now)
	f.look(now)
	f.add("t", one, "once more")
	f.remove("t", one)
	f.look(now) // (nobody was told of that)
	f.tell.close()
	want := []string{"2 clients wait: why", "2 clients wait: another", "2 clients wait: another", "isn't frozen any more"}
	got := strings.Split(strings.TrimSpace(told.String()), "\n")
	if len(got) != len(want) {
		t.Fatal(got)
	}
	for i, it := range want {
		if !strings.Contains(got[i], it) {
			t.Errorf("%s, not %s", got[i], it)
		}
	}
}

func TestFieldsOfFaults(t *testing.T) {
	router := `{"@type":"` + typePrefix + `extensions.filters.http.router.v3.Router","x":1}`
	for _, it := range []struct{ text, field, cause string }{
		{`{"@type":"` + clusterURL + `","x":1}`, "x", `unknown field "x"`},
		{"\n {\"@type\":\"" + clusterURL + "\",\n\"altStatName\":\"äö\", \"name\":\n 1}", "name", "invalid value for string type: 1"},
		{`{"@type":"` + clusterURL + `","healthChecks":[{},{"timeout":"1"}]}`, "healthChecks[1].timeout", "google.protobuf.Duration"},
		{`{"@type":"` + clusterURL + `","typedExtensionProtocolOptions":{"a.b":` + router + `}}`, `typedExtensionProtocolOptions["a.b"].x`, "unknown"},
		{`{"@type":"` + clusterURL + `","transportSocket":{"typedConfig":{"y":1}}}`, "transportSocket.typedConfig", "@type"},
		{`{"@type":"no.Such"}`, "@type", "unable to resolve"},
		{`{"@type":"` + clusterURL + `"`, "", "no JSON"},
		{`{}`, "", "@type"},
		{`[]`, "", "unexpected token ["},
	} {
		_, err := testTypes.wireOf([]byte(it.text))
		var bad *fault
		if !errors.As(err, &bad) || bad.field != it.field || !strings.Contains(bad.cause, it.cause) {
			t.Errorf("%s: %+v", it.text, bad)
		}
	}
}

func TestChecks(t *testing.T) {
	w := newWorld(t)
	at := httptest.NewServer(w.bridge.checkHandler())
	defer at.Close()
	for _, it := range []struct {
		body string
		code int
		want string
	}{
		{`{"@type":"` + clusterURL + `","name":"a"}`, 200, `{"resource":"a"}`},
		{`{"@type":"` + clusterURL + `","name":"a","x":{}}`, 422, `{"resource":"a","field":"x","cause":"unknown field \"x\""}`},
		{`{"name":"a"}`, 422, `{"resource":"a","cause":"missing \"@type\" field"}`},
		{`{"@type":"`, 422, `{"resource":"","cause":"it is no JSON"}`},
		{``, 422, `{"resource":"","cause":"it is no JSON"}`},
		{strings.Repeat(" ", mostChecked) + `{}`, 413, "the resource has more than 4194304 bytes"},
	} {
		reply, err := http.Post(at.URL, "application/json", strings.NewReader(it.body))
		if err != nil {
			t.Fatal(err)
		}
		text, _ := io.ReadAll(reply.Body)
		reply.Body.Close()
		if got := strings.TrimSpace(string(text)); reply.StatusCode != it.code || got != it.want {
			t.Errorf("%.100s: %d %s", it.body, reply.StatusCode, got)
		}
	}
	if reply, err := http.Get(at.URL); err != nil || reply.StatusCode != 405 || reply.Header.Get("Allow") != "POST" {
		t.Error(reply, err)
	}
}
