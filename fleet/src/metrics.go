package main

import (
	"bytes"
	"fmt"
	"sort"
	"strings"
	"sync"
)

// counters are numbers by name and labels.
type counters struct {
	mutex  sync.Mutex
	values map[string]map[string]int64 // by name, then by labels as they are written
}

func newCounters() *counters { return &counters{values: map[string]map[string]int64{}} }

// add adds to a number. Labels are name and value in turns.
func (c *counters) add(name string, more int64, labels ...string) {
	c.mutex.Lock()
	defer c.mutex.Unlock()
	c.of(name)[labelsOf(labels)] += more
}

// set sets a number.
func (c *counters) set(name string, value int64, labels ...string) {
	c.mutex.Lock()
	defer c.mutex.Unlock()
	c.of(name)[labelsOf(labels)] = value
}

func (c *counters) of(name string) map[string]int64 {
	it := c.values[name]
	if it == nil {
		it = map[string]int64{}
		c.values[name] = it
	}
	return it
}

func labelsOf(labels []string) string {
	text := ""
	for i := 0; i+1 < len(labels); i += 2 {
		text += fmt.Sprintf(`,%s="%s"`, labels[i], labels[i+1])
	}
	if text == "" {
		return ""
	}
	return "{" + text[1:] + "}"
}

// numbers are all numbers, in the order in which they are told.
var numbers = []struct{ name, kind, help string }{
	{"fleet_first_number", "gauge", "the number of the server's first replica"},
	{"fleet_etcd_up", "gauge", "whether etcd was heard of lately"},
	{"fleet_server_up", "gauge", "whether the server was heard of lately"},
	{"fleet_keys", "gauge", "names that are known"},
	{"fleet_revision", "gauge", "the last revision of etcd that was taken"},
	{"fleet_behind_milliseconds", "gauge", "for how long changes couldn't be put in etcd, and for how long the first waits to be posted"},
	{"fleet_waiting_writes", "gauge", "writes that wait to be posted"},
	{"fleet_waiting_bytes", "gauge", "their bytes"},
	{"fleet_put_writes_total", "counter", "writes that were put in etcd"},
	{"fleet_put_transactions_total", "counter", "transactions by which that was tried"},
	{"fleet_put_conflicts_total", "counter", "transactions that found something else than was known"},
	{"fleet_posted_writes_total", "counter", "writes that were posted to the server"},
	{"fleet_refused_writes_total", "counter", "what stood in etcd and is no write"},
	{"fleet_too_large_total", "counter", "writes that have more bytes than etcd takes"},
	{"fleet_lists_total", "counter", "how often all that stands in etcd was listed"},
	{"fleet_compactions_total", "counter", "how often etcd had forgotten what wasn't heard yet"},
	{"fleet_errors_total", "counter", "requests that failed"},
	{"fleet_retries_total", "counter", "how often something was tried again"},
}

// numbersText are the numbers in the Prometheus text format.
func (f *fleet) numbersText() []byte {
	etcd, server, behind := f.health.states()
	writes, bytes, oldest := f.waiting.size()
	for name, it := range map[string]int64{"fleet_etcd_up": oneIf(etcd), "fleet_server_up": oneIf(server), "fleet_keys": int64(f.known.size()),
		"fleet_waiting_writes": int64(writes), "fleet_waiting_bytes": int64(bytes)} {
		f.numbers.set(name, it)
	}
	f.numbers.set("fleet_behind_milliseconds", behind.Milliseconds(), "of", "etcd")
	f.numbers.set("fleet_behind_milliseconds", oldest.Milliseconds(), "of", "server")
	return f.numbers.text()
}

func oneIf(is bool) int64 {
	if is {
		return 1
	}
	return 0
}

func (c *counters) text() []byte {
	c.mutex.Lock()
	defer c.mutex.Unlock()
	var to bytes.Buffer
	for _, it := range numbers {
		fmt.Fprintf(&to, "# HELP %s %s\n# TYPE %s %s\n", it.name, it.help, it.name, it.kind)
		values := c.values[it.name]
		if len(values) == 0 {
			values = map[string]int64{"": 0} // (so that it is there before it counts)
		}
		var lines []string
		for labels, value := range values {
			lines = append(lines, fmt.Sprintf("%s%s %d\n", it.name, labels, value))
		}
		sort.Strings(lines)
		to.WriteString(strings.Join(lines, ""))
	}
	return to.Bytes()
}
