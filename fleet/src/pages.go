package main

import (
	"context"
	"encoding/json"
	"errors"
	"fmt"
	"io"
	"net"
	"net/http"
	"regexp"
	"strconv"
	"strings"
	"time"
)

const (
	// mostBody is how many bytes a body of changes may have, as the server's own port has it.
	mostBody = 4 << 20
	// storedTime is for how long a change is waited for until it stands in etcd.
	storedTime = 10 * time.Second
	headTime   = 10 * time.Second
)

// listen serves /healthz, /metrics and /changes. It answers what ends that.
func (f *fleet) listen() (func(), error) {
	listener, err := net.Listen("tcp", f.o.listen)
	if err != nil {
		return nil, fmt.Errorf("--listen: %v", err)
	}
	pages := &http.Server{Handler: f.pages(), ReadHeaderTimeout: headTime, ErrorLog: nil, MaxHeaderBytes: 64 << 10}
	go func() { _ = pages.Serve(listener) }()
	f.tell.say("/healthz, /metrics and /changes at http://%s", listener.Addr())
	return func() { _ = pages.Close() }, nil
}

func (f *fleet) pages() http.Handler {
	pages := http.NewServeMux()
	pages.HandleFunc("/healthz", only(http.MethodGet, func(to http.ResponseWriter, _ *http.Request) {
		if why := f.health.why(); why != "" {
			http.Error(to, why, http.StatusServiceUnavailable)
			return
		}
		_, _ = io.WriteString(to, "ok\n")
	}))
	pages.HandleFunc("/metrics", only(http.MethodGet, func(to http.ResponseWriter, _ *http.Request) {
		to.Header().Set("Content-Type", "text/plain; version=0.0.4; charset=utf-8")
		_, _ = to.Write(f.numbersText())
	}))
	pages.HandleFunc("/changes", only(http.MethodPost, f.change))
	return door(f.server.token, pages)
}

// door refuses a request for another host than this machine, or with an origin, as a browser has it for a page of a site; and one that
// doesn't say the token, where there is one.
func door(token string, pages http.Handler) http.Handler {
	return http.HandlerFunc(func(to http.ResponseWriter, r *http.Request) {
		_, hasOrigin := r.Header["Origin"]
		switch {
		case hasOrigin || !isThisMachine(r.Host):
			http.Error(to, "it answers requests for this machine that no page of a site makes", http.StatusForbidden)
		case token != "" && r.Header.Get("Authorization") != bearer(token):
			to.Header().Set("WWW-Authenticate", "Bearer")
			http.Error(to, "the token isn't said", http.StatusUnauthorized)
		default:
			pages.ServeHTTP(to, r)
		}
	})
}

// isThisMachine tells whether a host, with a port or without one, is localhost or a loopback address.
func isThisMachine(host string) bool {
	if name, _, err := net.SplitHostPort(host); err == nil {
		host = name
	}
	ip := net.ParseIP(strings.Trim(host, "[]"))
	return host == "localhost" || ip != nil && ip.IsLoopback()
}

func only(method string, page http.HandlerFunc) http.HandlerFunc {
	return func(to http.ResponseWriter, r *http.Request) {
		if r.Method != method {
			to.Header().Set("Allow", method)
			http.Error(to, "the method is "+method, http.StatusMethodNotAllowed)
			return
		}
		page(to, r)
	}
}

// change has the server make changes, and answers what it answers, once they stand in etcd. One that doesn't in time is told as "not
// stored", and the status is then 507.
func (f *fleet) change(to http.ResponseWriter, r *http.Request) {
	body, err := io.ReadAll(http.MaxBytesReader(to, r.Body, mostBody))
	if err != nil {
		http.Error(to, "a body has at most 4 MiB", http.StatusRequestEntityTooLarge)
		return
	}
	answer, status, err := f.server.change(r.Context(), r.URL.RawQuery, body, 10*f.o.timeout)
	var it *answered
	switch {
	case errors.As(err, &it):
		http.Error(to, it.text, it.status)
		return
	case err != nil:
		http.Error(to, cause(err), http.StatusBadGateway)
		return
	}
	ctx, end := context.WithTimeout(r.Context(), storedTime)
	defer end()
	text, allStand := f.once(ctx, answer, strings.Split(string(body), "\n"))
	if !allStand {
		status = http.StatusInsufficientStorage
	}
	to.Header().Set("Content-Type", "text/plain; charset=utf-8")
	to.WriteHeader(status)
	_, _ = io.WriteString(to, text)
}

var stampLine = regexp.MustCompile(`^line (\d+): (\d+)-(\d+)$`)

// once waits until each write that was answered stands in etcd, and answers the lines, and whether all stand there.
func (f *fleet) once(ctx context.Context, answer string, lines []string) (string, bool) {
	var told strings.Builder
	allStand := true
	for _, line := range strings.Split(strings.TrimSuffix(answer, "\n"), "\n") {
		told.WriteString(line)
		if found := stampLine.FindStringSubmatch(line); found != nil {
			n, _ := strconv.Atoi(found[1])
			counter, _ := strconv.ParseUint(found[2], 10, 64)
			writer, _ := strconv.ParseUint(found[3], 10, 16)
			key := ""
			if n >= 1 && n <= len(lines) {
				key = keyOfChange(lines[n-1])
			}
			if key == "" || !f.known.wait(ctx, key, stamp{counter, uint16(writer)}) {
				told.WriteString(", not stored")
				allStand = false
			}
		}
		told.WriteString("\n")
	}
	return told.String(), allStand
}

// keyOfChange is the key of the name that a line changes, which the server took.
func keyOfChange(line string) string {
	line = strings.TrimRight(line, "\r")
	words := strings.SplitN(line, " ", 4)
	if len(words) == 4 && words[0] == "delete" {
		return words[2] + "/" + nameOf(words[3])
	}
	from := strings.IndexByte(line, '{')
	if from < 0 {
		return ""
	}
	var it struct {
		Type         string `json:"@type"`
		Name         string `json:"name"`
		ClusterName  string `json:"clusterName"`
		ClusterName2 string `json:"cluster_name"`
	}
	if json.Unmarshal([]byte(line[from:]), &it) != nil || typeWords[it.Type] == "" {
		return ""
	}
	name := it.Name
	if typeWords[it.Type] == "endpoint" {
		name = it.ClusterName + it.ClusterName2
	}
	return typeWords[it.Type] + "/" + name
}

// nameOf is the name that a word of a script says.
func nameOf(word string) string { return word }
