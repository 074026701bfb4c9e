package main

import (
	"bytes"
	"context"
	"fmt"
	"io"
	"net/http"
	"net/http/httptest"
	"os"
	"path/filepath"
	"strings"
	"testing"
	"time"
)

const aCluster = `{"body":{"@type":"type.googleapis.com/envoy.config.cluster.v3.Cluster","name":"a/b"},"counter":3,"name":"a/b","typeUrl":"type.googleapis.com/envoy.config.cluster.v3.Cluster","writer":2}`

func TestAWriteIsRead(t *testing.T) {
	it, err := readWrite([]byte(aCluster))
	if err != nil || it.key != "cluster/a/b" || it.stamp != (stamp{3, 2}) || string(it.line) != aCluster {
		t.Fatal(it, err)
	}
	for _, line := range []string{"", "{", "[]", "{}", strings.Replace(aCluster, `"writer":2`, `"writer":65536`, 1), strings.Replace(aCluster, `"writer":2`, `"writer":0`, 1),
		strings.Replace(aCluster, `"counter":3`, `"counter":9223372036854775808`, 1), strings.Replace(aCluster, `"counter":3`, `"counter":-1`, 1),
		strings.Replace(aCluster, `,"name":"a/b"`, "", 2), strings.Replace(aCluster, `"typeUrl":"type.`, `"typeUrl":"typo.`, 1)} {
		if it, err := readWrite([]byte(line)); err == nil {
			t.Fatal(line, it)
		}
	}
}

// rule: greatest-write
func TestStampsAreOrdered(t *testing.T) {
	in := []stamp{{}, {1, 1}, {1, 2}, {2, 1}, {2, 2}, {10, 1}}
	for i, one := range in {
		for j, other := range in {
			if one.less(other) != (i < j) {
				t.Fatal(one, other)
			}
		}
	}
}

func TestKeysOfWrites(t *testing.T) {
	for key, is := range map[string]bool{"cluster/a": true, "secret/": true, "next-number": false, "cluster": false, "clusters/a": false, "route/a/b": true} {
		if isKey(key) != is {
			t.Fatal(key)
		}
	}
}

func TestTheKeyOfAChange(t *testing.T) {
	for line, key := range map[string]string{
		`put 1 {"@type":"type.googleapis.com/envoy.config.route.v3.RouteConfiguration","name":"r s"}`:                            "route/r s",
		`putin 2 a,b {"@type":"type.googleapis.com/envoy.config.cluster.v3.Cluster","name":"c"}`:                                 "cluster/c",
		`put 1 {"clusterName":"e","@type":"type.googleapis.com/envoy.config.endpoint.v3.ClusterLoadAssignment","endpoints":[]}`:  "endpoint/e",
		`put 1 {"cluster_name":"e","@type":"type.googleapis.com/envoy.config.endpoint.v3.ClusterLoadAssignment","endpoints":[]}`: "endpoint/e",
		"delete 1 listener l":   "listener/l",
		"delete 1 listener l\r": "listener/l",
		"# nothing":             "",
		`put 1 {"name":"a"}`:    "",
		`put 1 {"@type":1}`:     "",
		"":                      "",
	} {
		if got := keyOfChange(line); got != key {
			t.Fatalf("%s: %q and not %q", line, got, key)
		}
	}
}

func aWrite(name string, counter uint64, bytes int) write {
	return write{key: "cluster/" + name, stamp: stamp{counter, 1}, line: make([]byte, bytes)}
}

// What waits is bounded, has the greatest write of each key, and forgets nothing that came while it was posted.
func TestWhatWaitsIsBounded(t *testing.T) {
	q := newWaiting(100)
	if q.add(aWrite("a", 1, 40)) || q.add(aWrite("b", 1, 40)) || q.add(aWrite("a", 3, 50)) || q.add(aWrite("a", 2, 90)) {
		t.Fatal("full too early")
	}
	if !q.add(aWrite("c", 1, 10)) || !q.add(aWrite("c", 1, 10)) {
		t.Fatal("never full")
	}
	ctx := context.Background()
	found := q.first(ctx, 2, 1000)
	if len(found) != 2 || found[0].stamp.counter != 3 || found[1].key != "cluster/b" {
		t.Fatal(found)
	}
	if found := q.first(ctx, 9, 60); len(found) != 1 {
		t.Fatal(found)
	}
	q.add(aWrite("b", 7, 20))
	q.done(found)
	q.waitRoom(ctx)
	found = q.first(ctx, 9, 1000)
	if len(found) != 2 || found[0].key != "cluster/c" || found[1].stamp.counter != 7 {
		t.Fatal(found)
	}
	q.done(found)
	if writes, bytes, _ := q.size(); writes != 0 || bytes != 0 {
		t.Fatal(writes, bytes)
	}
	ended, end := context.WithCancel(ctx)
	end()
	if found := q.first(ended, 1, 1); len(found) != 0 {
		t.Fatal(found)
	}
}

func TestPartsAreBounded(t *testing.T) {
	writes := []write{aWrite("a", 1, 50), aWrite("b", 1, 50), aWrite("c", 1, 500)}
	for _, it := range []struct{ most, bytes, wanted int }{{9, 9999, 3}, {2, 9999, 2}, {9, 102, 2}, {9, 101, 1}, {9, 1, 1}} {
		if got := len(partOf(writes, it.most, it.bytes)); got != it.wanted {
			t.Fatal(it, got)
		}
	}
}

func TestWhatIsKnown(t *testing.T) {
	k := newKnown()
	k.stood("a", stamp{2, 1}, 5)
	k.stood("a", stamp{1, 1}, 4)
	k.holds("a", stamp{3, 1})
	k.holds("a", stamp{1, 1})
	if it := k.of("a"); it.stands != (stamp{2, 1}) || it.revision != 5 || it.held != (stamp{3, 1}) {
		t.Fatal(it)
	}
	ctx, end := context.WithTimeout(context.Background(), 20*time.Millisecond)
	defer end()
	if !k.wait(ctx, "a", stamp{2, 1}) || k.wait(ctx, "a", stamp{3, 1}) {
		t.Fatal("wait")
	}
	go k.stood("a", stamp{4, 1}, 6)
	if !k.wait(context.Background(), "a", stamp{3, 1}) {
		t.Fatal("wait")
	}
	k.stood("a", stamp{}, 0)
	if it := k.of("a"); it.revision != 0 || it.stands != (stamp{}) {
		t.Fatal(it)
	}
}

func TestWords(t *testing.T) {
	good := [][]string{{}, {"--replicas", "16"}, {"--endpoints", "a:1,b:2", "--prefix", "/a/b"}, {"--print"}, {"--attach", "--admin-port", "1"},
		{"--listen", "127.0.0.1:0"}, {"--user", "u:p", "--", "--log"}}
	for _, words := range good {
		if o, err := readOptions(words, io.Discard); err != nil {
			t.Fatal(words, err)
		} else if strings.Contains(fmt.Sprint(words), "u:p") && (o.user != "u" || o.password != "p" || fmt.Sprint(o.words) != "[--log]") {
			t.Fatal(o)
		}
	}
	bad := [][]string{{"--replicas", "0"}, {"--replicas", "17"}, {"--prefix", ""}, {"--prefix", "/a/"}, {"--listen", "0.0.0.0:1"}, {"--listen", "x"},
		{"--cert", "a"}, {"--print", "--attach"}, {"--print", "x"}, {"--port", "0"}, {"--admin-port", "65536"}, {"--endpoints", ""}, {"--no"}, {"--pending-bytes", "0"}}
	for _, words := range bad {
		if _, err := readOptions(words, io.Discard); err == nil {
			t.Fatal(words)
		}
	}
	var help bytes.Buffer
	if _, err := readOptions([]string{"--help"}, &help); err == nil || !strings.Contains(help.String(), "-endpoints") {
		t.Fatal(help.String())
	}
}

// The door of the fleet's port is that of the server's.
func TestTheDoor(t *testing.T) {
	pages := door("a b", http.HandlerFunc(func(http.ResponseWriter, *http.Request) {}))
	for _, it := range []struct {
		host, origin, said string
		status             int
	}{
		{"127.0.0.1:1", "", "Bearer a b", 200}, {"localhost", "", "Bearer a b", 200}, {"localhost:1", "", "Bearer a b", 200},
		{"[::1]", "", "Bearer a b", 200}, {"[::1]:1", "", "Bearer a b", 200}, {"evil.example", "", "Bearer a b", 403},
		{"127.0.0.1.evil.example:1", "", "Bearer a b", 403}, {"10.0.0.1", "", "Bearer a b", 403}, {"", "", "Bearer a b", 403},
		{"127.0.0.1", "null", "Bearer a b", 403}, {"127.0.0.1", "http://127.0.0.1", "Bearer a b", 403}, {"127.0.0.1", "", "", 401},
		{"127.0.0.1", "", "Bearer a", 401}, {"127.0.0.1", "", "a b", 401},
	} {
		request := httptest.NewRequest(http.MethodGet, "/healthz", nil)
		request.Host = it.host
		if it.origin != "" {
			request.Header.Set("Origin", it.origin)
		}
		if it.said != "" {
			request.Header.Set("Authorization", it.said)
		}
		to := httptest.NewRecorder()
		pages.ServeHTTP(to, request)
		if to.Code != it.status {
			t.Fatal(it, to.Code)
		}
	}
}

func TestTheTokenIsTheFirstLine(t *testing.T) {
	file := filepath.Join(t.TempDir(), "token")
	for text, wanted := range map[string]string{" a b \r\nc\n": "a b", "a": "a", "": "", "\na\n": ""} {
		if err := os.WriteFile(file, []byte(text), 0o600); err != nil {
			t.Fatal(err)
		}
		if token, err := readToken(file); token != wanted || (err == nil) != (wanted != "") {
			t.Fatal(text, token, err)
		}
	}
	if token, err := readToken(""); token != "" || err != nil {
		t.Fatal(token, err)
	}
	if _, err := readToken(file + "x"); err == nil {
		t.Fatal("no such file")
	}
}

// What the server answers of changes is handed on with its status, also where some are refused; and what doesn't stand in etcd is told.
func TestChangesAreHandedOn(t *testing.T) {
	const puts = "put 1 {\"@type\":\"type.googleapis.com/envoy.config.cluster.v3.Cluster\",\"name\":\"a\"}\ndelete 1 cluster b\n"
	for _, it := range []struct {
		status        int
		answer, query string
		wanted        int
		text          string
		stands        bool
	}{
		{200, "line 1: 3-1\nline 2: 4-1\n", "", 200, "line 1: 3-1\nline 2: 4-1\n", true},
		{207, "line 1: 3-1\nline 2: 9 NotFound\n", "", 207, "line 1: 3-1\nline 2: 9 NotFound\n", true},
		{422, "line 2: 9 NotFound\n", "all-or-nothing", 422, "line 2: 9 NotFound\n", true},
		{507, "line 1: 3-1, not stored\n", "", 507, "line 1: 3-1, not stored\n", true},
		{200, "line 1: would be made\n", "dry-run", 200, "line 1: would be made\n", true},
		{400, "unknown word\n", "x", 400, "unknown word\n\n", true},
		{200, "line 1: 3-1\nline 2: 4-1\n", "", 507, "line 1: 3-1, not stored\nline 2: 4-1, not stored\n", false},
	} {
		server := httptest.NewServer(http.HandlerFunc(func(to http.ResponseWriter, r *http.Request) {
			body, _ := io.ReadAll(r.Body)
			if r.URL.Path != "/changes" || r.URL.RawQuery != it.query || string(body) != puts || r.Header.Get("Authorization") != "Bearer t" {
				t.Error(r.URL, string(body), r.Header)
			}
			to.WriteHeader(it.status)
			_, _ = io.WriteString(to, it.answer)
		}))
		f := &fleet{o: &options{timeout: time.Second}, known: newKnown(), server: newServer(&options{timeout: time.Second}, "t")}
		f.server.base = server.URL
		if it.stands {
			f.known.stood("cluster/a", stamp{3, 1}, 1)
			f.known.stood("cluster/b", stamp{4, 1}, 1)
		}
		ctx, end := context.WithTimeout(context.Background(), 300*time.Millisecond)
		to := httptest.NewRecorder()
		f.change(to, httptest.NewRequest(http.MethodPost, "/changes?"+it.query, strings.NewReader(puts)).WithContext(ctx))
		end()
		server.Close()
		if to.Code != it.wanted || to.Body.String() != it.text {
			t.Fatal(it, to.Code, to.Body.String())
		}
	}
}

func TestNumbersAreTold(t *testing.T) {
	c := newCounters()
	c.add("fleet_errors_total", 2, "side", "etcd", "what", "put")
	text := string(c.text())
	for _, line := range []string{"# TYPE fleet_errors_total counter\n", "fleet_errors_total{side=\"etcd\",what=\"put\"} 2\n", "fleet_put_writes_total 0\n"} {
		if !strings.Contains(text, line) {
			t.Fatal(text)
		}
	}
}

func TestHealth(t *testing.T) {
	h := newHealth()
	if h.why() == "" {
		t.Fatal("it began well")
	}
	h.etcd()
	h.began()
	if why := h.why(); why != "" {
		t.Fatal(why)
	}
	h.behind()
	h.behindSince = time.Now().Add(-2 * freshTime)
	if h.why() == "" {
		t.Fatal("it is well behind")
	}
	h.put()
	h.etcdAt = time.Now().Add(-2 * freshTime)
	if h.why() == "" {
		t.Fatal("it is well without etcd")
	}
}
