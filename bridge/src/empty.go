package main

import (
	"strings"
)

// mostEmpty is how many Anys of a resource may have no value, as those of google.protobuf.Empty.
const mostEmpty = 1000

// withValue is a text with `"value":{}` where a fault says that an Any of google.protobuf.Empty has no value, or nil where
// it says something else. The protobuf package reads no such Any, and others leave the value out, since an Empty has
// nothing to say.
func withValue(text []byte, err error) []byte {
	at, ok := placeIn(text, err)
	if !ok || at >= len(text) || text[at] != '}' || !strings.Contains(err.Error(), `missing "value" field`) {
		return nil
	}
	_, begin, end := fieldAt(text, at)
	of := ""
	_ = members(text[begin:end], func(key string, value []byte) error {
		if key == "@type" {
			of, _ = textOf(value)
		}
		return nil
	})
	if !strings.HasSuffix(of, "/google.protobuf.Empty") {
		return nil
	}
	made := append(make([]byte, 0, len(text)+16), text[:at]...)
	return append(append(made, `,"value":{}`...), text[at:]...)
}
