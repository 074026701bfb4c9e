package main

import (
	"encoding/json"
	"errors"
	"io"
	"net/http"
)

const (
	// mostChecked is how many bytes a resource may have that is to be checked.
	mostChecked = 4 << 20
	// mostChecks is how many are converted at a time; others wait.
	mostChecks = 4
)

// checkHandler converts a resource, the JSON of a POST, as streams would, and says whether that goes.
func (b *bridge) checkHandler() http.Handler {
	places := make(chan struct{}, mostChecks)
	return http.HandlerFunc(func(to http.ResponseWriter, r *http.Request) {
		if r.Method != http.MethodPost {
			to.Header().Set("Allow", "POST")
			http.Error(to, "a resource is checked by POST", http.StatusMethodNotAllowed)
			return
		}
		text, err := io.ReadAll(http.MaxBytesReader(to, r.Body, mostChecked))
		switch {
		case err != nil && len(text) == mostChecked:
			http.Error(to, "the resource has more than 4194304 bytes", http.StatusRequestEntityTooLarge)
			return
		case err != nil:
			http.Error(to, "the resource didn't come whole", http.StatusBadRequest)
			return
		}
		places <- struct{}{}
		defer func() { <-places }()
		name := (&resource{text: text}).called()
		_, err = b.types.wireOf(text)
		if err == nil {
			answerJSON(to, http.StatusOK, checked{Resource: name})
			return
		}
		answer := checked{Resource: name, Cause: plainError(err)}
		var bad *fault
		if errors.As(err, &bad) {
			answer.Field, answer.Cause = bad.field, bad.cause
		}
		answerJSON(to, http.StatusUnprocessableEntity, answer)
	})
}

// checked is what is answered.
type checked struct {
	Resource string `json:"resource"`
	Field    string `json:"field,omitempty"`
	Cause    string `json:"cause,omitempty"`
}

func answerJSON(to http.ResponseWriter, code int, value interface{}) {
	text, _ := json.Marshal(value)
	to.Header().Set("Content-Type", "application/json")
	to.WriteHeader(code)
	_, _ = to.Write(append(text, '\n'))
}
