package main

import (
	"bytes"
	"fmt"
	"regexp"
	"strconv"
	"strings"
	"unicode/utf8"
)

// A fault is why a resource can't be converted.
type fault struct {
	resource string // its name
	field    string // the path of the field, where it is known, as filters[0].typedConfig.x
	cause    string
	version  string // of the resource, or a text that stands for its body
}

func (f *fault) Error() string {
	text := fmt.Sprintf("resource %q", shortened(f.resource, mostName))
	if f.field != "" {
		text += fmt.Sprintf(", field %q", f.field)
	}
	return text + ": " + f.cause
}

// mostName is how many bytes of a name, or of a field's path, a line has.
const mostName = 300

// placeOf finds where the protobuf package met a fault.
var placeOf = regexp.MustCompile(`^(?:syntax error )?\(line (\d+):(\d+)\): `)

// faultOf is a fault of the text of a resource.
func faultOf(text []byte, err error) *fault {
	made := &fault{cause: shortened(plainError(err), mostReason)}
	if at, ok := placeIn(text, err); ok {
		path, _, _ := fieldAt(text, at)
		made.field = shortened(path, mostName)
	}
	return made
}

// placeIn is where in a text the protobuf package met an error, where it says so.
func placeIn(text []byte, err error) (int, bool) {
	place := placeOf.FindStringSubmatch(strings.TrimPrefix(strings.ReplaceAll(err.Error(), "\u00a0", " "), "proto: "))
	if place == nil {
		return 0, false
	}
	line, _ := strconv.Atoi(place[1])
	column, _ := strconv.Atoi(place[2])
	return offset(text, line, column), true
}

// offset is where the letter stands that a line and a column say, which count from 1.
func offset(text []byte, line, column int) int {
	at := 0
	for ; line > 1; line-- {
		next := bytes.IndexByte(text[at:], '\n')
		if next < 0 {
			return len(text)
		}
		at += next + 1
	}
	for ; column > 1 && at < len(text); column-- {
		_, size := utf8.DecodeRune(text[at:])
		at += size
	}
	return at
}

// mostSteps is how many steps a path has.
const mostSteps = 200

// fieldAt is the path of the field that stands at a place of a JSON text, from the outside to the inside, and where the
// innermost value begins and ends that the place is in.
func fieldAt(text []byte, at int) (path string, begin, end int) {
	begin, end = skipSpace(text, 0), len(text)
	for i := 0; i < mostSteps; i++ {
		name, inner, behind := memberAt(text[begin:end], at-begin)
		path += name
		if inner < 0 {
			break
		}
		begin, end = begin+inner, begin+behind
	}
	return strings.TrimPrefix(path, "."), begin, end
}

// memberAt is what stands at a place of an object or an array: its name as a step of a path, and where its value begins
// and ends. The beginning is -1 where the place is in none of their values.
func memberAt(text []byte, at int) (name string, begin, end int) {
	begin = -1
	if len(text) == 0 {
		return
	}
	count := 0
	switch text[0] {
	case '{':
		_ = parts(text, '{', '}', func(from int) (int, error) {
			behind, err := valueEnd(text, from)
			if err != nil {
				return 0, err
			}
			value := skipSpace(text, skipSpace(text, behind)+1)
			stop, err := valueEnd(text, value)
			if err == nil && at >= from && at < stop {
				key, _ := textOf(text[from:behind])
				if name = "." + key; !plainKey.MatchString(key) {
					name = fmt.Sprintf("[%q]", key)
				}
				if at >= value {
					begin, end = value, stop
				}
			}
			return stop, err
		})
	case '[':
		_ = parts(text, '[', ']', func(from int) (int, error) {
			stop, err := valueEnd(text, from)
			if err == nil && at >= from && at < stop {
				name, begin, end = fmt.Sprintf("[%d]", count), from, stop
			}
			count++
			return stop, err
		})
	}
	return
}

var plainKey = regexp.MustCompile(`^[@A-Za-z0-9_]+$`)
