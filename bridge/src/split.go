package main

import (
	"bytes"
	"encoding/json"
	"errors"
)

// A response is cut into its parts without a value being made of it: its resources are most of it, and each is
// read as JSON once, when it is converted. What is cut here isn't checked to be JSON; whoever takes a part does that.

var errSplit = errors.New("its text isn't the JSON that it should be")

// members calls take for each member of the object that text is, with the member's key and the text of its value.
func members(text []byte, take func(key string, value []byte) error) error {
	return parts(text, '{', '}', func(at int) (int, error) {
		end, err := valueEnd(text, at)
		if err != nil || text[at] != '"' {
			return 0, errSplit
		}
		key, err := textOf(text[at:end])
		if err != nil {
			return 0, err
		}
		colon := skipSpace(text, end)
		if colon >= len(text) || text[colon] != ':' {
			return 0, errSplit
		}
		begin := skipSpace(text, colon+1)
		if end, err = valueEnd(text, begin); err != nil {
			return 0, err
		}
		return end, take(key, text[begin:end])
	})
}

// elements calls take for the text of each element of the array that text is.
func elements(text []byte, take func(value []byte) error) error {
	return parts(text, '[', ']', func(at int) (int, error) {
		end, err := valueEnd(text, at)
		if err != nil {
			return 0, err
		}
		return end, take(text[at:end])
	})
}

// parts calls part at the beginning of each of the parts that stand between open and shut, with commas between
// them; part answers where its part ends.
func parts(text []byte, open, shut byte, part func(at int) (int, error)) error {
	at := skipSpace(text, 0)
	if at >= len(text) || text[at] != open {
		return errSplit
	}
	at = skipSpace(text, at+1)
	if at < len(text) && text[at] == shut {
		return isEnd(text, at+1)
	}
	for {
		end, err := part(at)
		if err != nil {
			return err
		}
		at = skipSpace(text, end)
		switch {
		case at >= len(text):
			return errSplit
		case text[at] == shut:
			return isEnd(text, at+1)
		case text[at] != ',':
			return errSplit
		}
		at = skipSpace(text, at+1)
	}
}

func isEnd(text []byte, at int) error {
	if skipSpace(text, at) != len(text) {
		return errSplit
	}
	return nil
}

func skipSpace(text []byte, at int) int {
	for at < len(text) && (text[at] == ' ' || text[at] == '\n' || text[at] == '\t' || text[at] == '\r') {
		at++
	}
	return at
}

// valueEnd is where the value ends that begins at a place.
func valueEnd(text []byte, at int) (int, error) {
	depth := 0
	for at < len(text) {
		switch text[at] {
		case '"':
			end, err := stringEnd(text, at)
			if err != nil {
				return 0, err
			}
			at = end
		case '{', '[':
			depth++
			at++
		case '}', ']':
			depth--
			at++
		case ',', ':', ' ', '\n', '\t', '\r':
			if depth == 0 {
				return 0, errSplit
			}
			at++
			continue
		default:
			at = wordEnd(text, at)
		}
		if depth == 0 {
			return at, nil
		}
		if depth < 0 {
			return 0, errSplit
		}
	}
	return 0, errSplit
}

// stringEnd is where the string ends whose first quote stands at a place.
func stringEnd(text []byte, at int) (int, error) {
	at++
	for quote := -1; ; {
		if quote < at {
			next := bytes.IndexByte(text[at:], '"')
			if next < 0 {
				return 0, errSplit
			}
			quote = at + next
		}
		escape := bytes.IndexByte(text[at:quote], '\\')
		if escape < 0 {
			return quote + 1, nil
		}
		at += escape + 2
	}
}

// wordEnd is where a number, true, false or null ends.
func wordEnd(text []byte, at int) int {
	for at < len(text) && bytes.IndexByte([]byte(",:]}\" \n\t\r"), text[at]) < 0 {
		at++
	}
	return at
}

// textOf is the text that a JSON string spells.
func textOf(value []byte) (string, error) {
	if last := len(value) - 1; last > 0 && value[0] == '"' && value[last] == '"' && plain(value[1:last]) {
		return string(value[1:last]), nil
	}
	var text string
	if len(value) == 0 || value[0] != '"' || json.Unmarshal(value, &text) != nil {
		return "", errSplit
	}
	return text, nil
}

// plain tells whether a string's inside spells itself.
func plain(inside []byte) bool {
	for _, b := range inside {
		if !isPlain(b) {
			return false
		}
	}
	return true
}

func isPlain(b byte) bool { return b >= ' ' && b <= '~' && b != '"' && b != '\\' }
