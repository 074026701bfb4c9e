package main

import (
	"bytes"
	"fmt"
	"net/http"
	"sort"
	"strings"
	"sync"
	"time"
)

// counters are numbers by name and labels.
type counters struct {
	mutex  sync.Mutex
	values map[string]map[string]int64 // by name, then by labels as they are written
}

func newCounters() *counters { return &counters{values: map[string]map[string]int64{}} }

// add adds to a number. Labels are name and value in turns.
func (c *counters) add(name string, more int64, labels ...string) {
	c.mutex.Lock()
	defer c.mutex.Unlock()
	c.of(name)[labelsOf(labels)] += more
}

// set sets a number.
func (c *counters) set(name string, value int64, labels ...string) {
	c.mutex.Lock()
	defer c.mutex.Unlock()
	c.of(name)[labelsOf(labels)] = value
}

func (c *counters) get(name string, labels ...string) int64 {
	c.mutex.Lock()
	defer c.mutex.Unlock()
	return c.of(name)[labelsOf(labels)]
}

func (c *counters) of(name string) map[string]int64 {
	it := c.values[name]
	if it == nil {
		it = map[string]int64{}
		c.values[name] = it
	}
	return it
}

var escapedLabel = strings.NewReplacer("\\", "\\\\", "\"", "\\\"", "\n", "\\n")

func labelsOf(labels []string) string {
	text := ""
	for i := 0; i+1 < len(labels); i += 2 {
		text += fmt.Sprintf(`,%s="%s"`, labels[i], escapedLabel.Replace(labels[i+1]))
	}
	if text == "" {
		return ""
	}
	return "{" + text[1:] + "}"
}

// The names of numbers.
const (
	numRefused = "bridge_refused_responses_total"
	numSkipped = "bridge_skipped_resources_total"
	numStreams = "bridge_streams"

	numTurned = "bridge_streams_turned_away_total"
	numBytes  = "bridge_response_bytes"
	numSlow   = "bridge_slow_clients_total"

	numHandshakes = "bridge_handshakes_refused_total"
	numIdentities = "bridge_clusters_refused_total"
)

// numbers are all numbers, in the order in which they are told.
var numbers = []struct{ name, kind, help string }{
	{"bridge_frozen_clients", "gauge", "clients that wait for a type, a response of which was refused in their place"},
	{"bridge_frozen_since_seconds", "gauge", "when the first of them began to wait, in seconds since 1970, and why"},
	{numRefused, "counter", "responses that were refused in a client's place"},
	{numSkipped, "counter", "resources that were left out of responses by --skip-bad"},
	{numStreams, "gauge", "open streams"},
	{numTurned, "counter", "streams for which --max-streams left no room"},
	{numBytes, "gauge", "bytes of the control plane's last whole response, of 16777215 that it may have"},
	{numSlow, "counter", "streams that ended because their client took a response too slowly while others waited for room"},
	{numHandshakes, "counter", "TLS handshakes that failed"},
	{numIdentities, "counter", "streams whose node named a cluster that isn't its certificate's"},
	{"bridge_lines_left_out_total", "counter", "lines that the error output had no room for"},
}

// numbersText are the numbers in the Prometheus text format.
func (b *bridge) numbersText() []byte {
	for _, it := range numbers {
		if strings.HasPrefix(it.name, "bridge_frozen_") {
			b.counters.clear(it.name)
		}
	}
	for _, it := range b.frozen.all() {
		b.counters.set("bridge_frozen_clients", int64(it.clients), "type", it.typeURL)
		b.counters.set("bridge_frozen_since_seconds", it.since.Unix(), "type", it.typeURL, "cause", shortened(it.why, mostReason))
	}
	for _, it := range []string{numTurned, numSlow, numHandshakes, numIdentities} {
		b.counters.add(it, 0) // (so that it is there before it counts)
	}
	b.counters.set("bridge_lines_left_out_total", int64(b.tell.leftOut()))
	return b.counters.text()
}

func (c *counters) clear(name string) {
	c.mutex.Lock()
	defer c.mutex.Unlock()
	delete(c.values, name)
}

func (c *counters) text() []byte {
	c.mutex.Lock()
	defer c.mutex.Unlock()
	var to bytes.Buffer
	for _, it := range numbers {
		fmt.Fprintf(&to, "# HELP %s %s\n# TYPE %s %s\n", it.name, it.help, it.name, it.kind)
		var lines []string
		for labels, value := range c.values[it.name] {
			lines = append(lines, fmt.Sprintf("%s%s %d\n", it.name, labels, value))
		}
		sort.Strings(lines)
		to.WriteString(strings.Join(lines, ""))
	}
	return to.Bytes()
}

// numbersHandler serves the numbers at /metrics.
func (b *bridge) numbersHandler() http.Handler {
	return http.HandlerFunc(func(to http.ResponseWriter, r *http.Request) {
		switch {
		case r.URL.Path != "/metrics":
			http.Error(to, "the path is /metrics", http.StatusNotFound)
		case r.Method != http.MethodGet && r.Method != http.MethodHead:
			to.Header().Set("Allow", "GET, HEAD")
			http.Error(to, "numbers are got by GET", http.StatusMethodNotAllowed)
		default:
			to.Header().Set("Content-Type", "text/plain; version=0.0.4; charset=utf-8")
			_, _ = to.Write(b.numbersText())
		}
	})
}

// httpServer is a server for operators and writers on this machine.
func httpServer(h http.Handler) *http.Server {
	return &http.Server{
		Handler:           h,
		ReadHeaderTimeout: 5 * time.Second,
		ReadTimeout:       30 * time.Second,
		WriteTimeout:      30 * time.Second,
		IdleTimeout:       time.Minute,
		MaxHeaderBytes:    16 << 10,
	}
}
