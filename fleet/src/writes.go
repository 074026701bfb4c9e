package main

import (
	"encoding/json"
	"errors"
	"fmt"
	"strings"
)

// A stamp orders the writes of a name: the greatest counts.
type stamp struct {
	counter uint64
	writer  uint16
}

func (s stamp) less(other stamp) bool {
	return s.counter < other.counter || s.counter == other.counter && s.writer < other.writer
}

func (s stamp) String() string { return fmt.Sprintf("%d-%d", s.counter, s.writer) }

// A write is the line of a stamped write, as the server tells it, and what has to be known of it to carry it.
type write struct {
	key   string // below the prefix: TYPE/NAME
	stamp stamp
	line  []byte // with no line feed
}

const urls = "type.googleapis.com/envoy."

// typeWords are the words of types in keys, by type URL.
var typeWords = map[string]string{
	urls + "config.cluster.v3.Cluster":                  "cluster",
	urls + "config.endpoint.v3.ClusterLoadAssignment":   "endpoint",
	urls + "config.listener.v3.Listener":                "listener",
	urls + "config.route.v3.RouteConfiguration":         "route",
	urls + "extensions.transport_sockets.tls.v3.Secret": "secret",
}

// mostCounter is the greatest counter of a stamp.
const mostCounter = 1<<63 - 1

var errNoWrite = errors.New("no stamped write")

// readWrite reads what has to be known of a line. That it is a write the server decides, which reads it whole.
func readWrite(line []byte) (write, error) {
	var it struct {
		TypeURL string `json:"typeUrl"`
		Name    string `json:"name"`
		Counter uint64 `json:"counter"`
		Writer  uint16 `json:"writer"`
	}
	if err := json.Unmarshal(line, &it); err != nil {
		return write{}, err
	}
	word := typeWords[it.TypeURL]
	if word == "" || it.Name == "" || it.Counter == 0 || it.Writer == 0 || it.Counter > mostCounter {
		return write{}, errNoWrite
	}
	return write{key: word + "/" + it.Name, stamp: stamp{it.Counter, it.Writer}, line: line}, nil
}

// isKey tells whether a key below the prefix is one of a write.
func isKey(key string) bool {
	word, _, found := strings.Cut(key, "/")
	if !found {
		return false
	}
	for _, it := range typeWords {
		if it == word {
			return true
		}
	}
	return false
}
