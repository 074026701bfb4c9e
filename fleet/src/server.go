package main

import (
	"bufio"
	"bytes"
	"context"
	"errors"
	"fmt"
	"io"
	"net"
	"net/http"
	"os"
	"os/exec"
	"regexp"
	"strconv"
	"strings"
	"syscall"
	"time"
)

const (
	// followWait is how many seconds the server may wait with an answer while nothing changes.
	followWait = 20
	// longestLineRead is how many bytes the line of a write may have.
	longestLineRead = 16 << 20
	// stopTime is how long the server has to end.
	stopTime = 8 * time.Second
	// mostAnswer is how many bytes of a short answer are read.
	mostAnswer = 1 << 20
)

// A server is an xDS server, as its operator's port is reached.
type server struct {
	o      *options
	base   string
	client *http.Client
	// token is what each request says, if it isn't empty.
	token string
	// holds is whether it answers nobody until it is told to.
	holds bool
}

func newServer(o *options, token string) *server {
	dial := &net.Dialer{Timeout: o.timeout}
	carrier := &http.Transport{DialContext: dial.DialContext, MaxIdleConnsPerHost: 4, IdleConnTimeout: 20 * time.Second, DisableCompression: true}
	return &server{o: o, base: fmt.Sprintf("http://127.0.0.1:%d", o.admin), client: &http.Client{Transport: carrier}, token: token}
}

// An answered is an answer that isn't 200.
type answered struct {
	status int
	text   string
}

func (a *answered) Error() string {
	return fmt.Sprintf("the server answers %d %s", a.status, strings.TrimSpace(a.text))
}

// send sends a request and answers the response, whose status is 200 or one of these. Who calls it closes its body.
func (s *server) send(ctx context.Context, method, path string, body []byte, also ...int) (*http.Response, error) {
	request, err := http.NewRequestWithContext(ctx, method, s.base+path, bytes.NewReader(body))
	if err != nil {
		return nil, err
	}
	if s.token != "" {
		request.Header.Set("Authorization", bearer(s.token))
	}
	response, err := s.client.Do(request)
	if err != nil {
		return nil, err
	}
	for _, it := range append(also, http.StatusOK) {
		if response.StatusCode == it {
			return response, nil
		}
	}
	defer response.Body.Close()
	text, _ := io.ReadAll(io.LimitReader(response.Body, mostAnswer))
	return nil, &answered{response.StatusCode, string(text)}
}

// bearer is what a request says where there is a token.
func bearer(token string) string { return "Bearer " + token }

// change has the server make changes, as the query says. It answers what each line is answered, and the status of all: 200 where each is
// made, 207 where some are, 422 where none is, and 507 where the server's own store doesn't have them.
func (s *server) change(ctx context.Context, query string, body []byte, time time.Duration) (string, int, error) {
	ctx, end := context.WithTimeout(ctx, time)
	defer end()
	path := "/changes"
	if query != "" {
		path += "?" + query
	}
	response, err := s.send(ctx, http.MethodPost, path, body, http.StatusMultiStatus, http.StatusUnprocessableEntity, http.StatusInsufficientStorage)
	if err != nil {
		return "", 0, err
	}
	defer response.Body.Close()
	text, err := io.ReadAll(response.Body)
	return string(text), response.StatusCode, err
}

// text is the same, with the text of the answer.
func (s *server) text(ctx context.Context, method, path string, body []byte, time time.Duration) (string, error) {
	ctx, end := context.WithTimeout(ctx, time)
	defer end()
	response, err := s.send(ctx, method, path, body)
	if err != nil {
		return "", err
	}
	defer response.Body.Close()
	text, err := io.ReadAll(response.Body)
	return string(text), err
}

// waitUp waits until the server answers.
func (s *server) waitUp(ctx context.Context, time time.Duration) error {
	inTime, end := context.WithTimeout(ctx, time)
	defer end()
	for {
		_, err := s.text(inTime, http.MethodGet, "/healthz", nil, s.o.timeout)
		if err == nil {
			return nil
		}
		if !pause(inTime, 1) {
			return fmt.Errorf("the server at %s doesn't answer: %v", s.base, cause(err))
		}
	}
}

// ready lets a server be ready that holds its answers back.
func (s *server) ready(ctx context.Context) error {
	if !s.holds {
		return nil
	}
	ctx, end := context.WithTimeout(ctx, s.o.startTime)
	defer end()
	_, err := s.text(ctx, http.MethodPost, "/ready", nil, s.o.timeout)
	for err != nil && pause(ctx, 2) {
		// (it may take a moment until its replicas are)
		_, err = s.text(ctx, http.MethodGet, "/ready", nil, s.o.timeout)
	}
	return err
}

var badLine = regexp.MustCompile(`^line (\d+): `)

// post has lines merged at a replica. Where one of them is no write it answers its place, from 0, and none is merged; else -1.
func (s *server) post(ctx context.Context, replica int, lines [][]byte) (int, error) {
	body := bytes.Join(lines, []byte("\n"))
	_, err := s.text(ctx, http.MethodPost, fmt.Sprintf("/writes?replica=%d", replica), body, 10*s.o.timeout)
	var it *answered
	if errors.As(err, &it) && it.status == http.StatusBadRequest {
		if found := badLine.FindStringSubmatch(it.text); found != nil {
			if n, ok := strconv.Atoi(found[1]); ok == nil && n >= 1 && n <= len(lines) {
				return n - 1, err
			}
		}
	}
	return -1, err
}

// isTooMuch tells whether a body had too many bytes for the server.
func isTooMuch(err error) bool {
	var it *answered
	return errors.As(err, &it) && it.status == http.StatusRequestEntityTooLarge
}

// changed hands on, line by line, what changed at the first replica after these marks, once something did or the time has passed, and
// answers the marks then.
func (s *server) changed(ctx context.Context, marks string, wait int, take func(line []byte) error) (string, error) {
	ctx, end := context.WithTimeout(ctx, time.Duration(wait)*time.Second+20*s.o.timeout)
	defer end()
	path := fmt.Sprintf("/writes?wait=%d", wait)
	if marks != "" {
		path += "&since=" + marks
	}
	response, err := s.send(ctx, http.MethodGet, path, nil)
	if err != nil {
		return "", err
	}
	defer response.Body.Close()
	now := response.Header.Get("xds-marks")
	if now == "" {
		return "", errors.New("the server tells no marks")
	}
	return now, eachLine(response.Body, take)
}

// eachLine hands on each line, which is no longer than a line may be.
func eachLine(from io.Reader, take func(line []byte) error) error {
	lines := bufio.NewScanner(from)
	lines.Buffer(make([]byte, 64<<10), longestLineRead)
	for lines.Scan() {
		if err := take(append([]byte(nil), lines.Bytes()...)); err != nil {
			return err
		}
	}
	return lines.Err()
}

// A child is the process of a server.
type child struct {
	command *exec.Cmd
	over    chan struct{}
	err     error
}

// start starts a server whose first replica has this number.
func (s *server) start(first int) (*child, error) {
	help, err := exec.Command(s.o.program, "serve", "--help").CombinedOutput()
	s.holds = err == nil && strings.Contains(string(help), "--hold")
	words := []string{"serve", "--replicas", strconv.Itoa(s.o.replicas), "--first-number", strconv.Itoa(first), "--port", strconv.Itoa(s.o.port),
		"--rest-port", strconv.Itoa(s.o.rest), "--admin-port", strconv.Itoa(s.o.admin)}
	if s.holds {
		words = append(words, "--hold")
	}
	if s.o.token != "" {
		words = append(words, "--admin-token", s.o.token)
	}
	it := &child{command: exec.Command(s.o.program, append(words, s.o.words...)...), over: make(chan struct{})}
	it.command.Stdin, it.command.Stdout, it.command.Stderr = os.Stdin, os.Stdout, os.Stderr
	// (a signal to this program's group isn't the server's: its last changes are carried before it is stopped)
	it.command.SysProcAttr = &syscall.SysProcAttr{Setpgid: true}
	if err := it.command.Start(); err != nil {
		return nil, fmt.Errorf("the server isn't started: %v", err)
	}
	go func() {
		it.err = it.command.Wait()
		close(it.over)
	}()
	return it, nil
}

func (c *child) pid() int { return c.command.Process.Pid }

// ended is closed once the server has ended; it never is where there is no child.
func (c *child) ended() <-chan struct{} {
	if c == nil {
		return nil
	}
	return c.over
}

func (c *child) status() string {
	if c.err == nil {
		return "status 0"
	}
	return c.err.Error()
}

// waitUp waits until the server answers, or has ended.
func (c *child) waitUp(ctx context.Context, s *server, time time.Duration) error {
	ctx, end := context.WithCancel(ctx)
	defer end()
	up := make(chan error, 1)
	go func() { up <- s.waitUp(ctx, time) }()
	select {
	case err := <-up:
		return err
	case <-c.over:
		return fmt.Errorf("the server has ended: %v", c.status())
	}
}

// stop stops the server by its operator's port, and kills it where it doesn't end in time.
func (c *child) stop(s *server) {
	select {
	case <-c.over:
		return
	default:
	}
	_, _ = s.text(context.Background(), http.MethodPost, "/stop", nil, s.o.timeout)
	select {
	case <-c.over:
	case <-time.After(stopTime):
		_ = c.command.Process.Kill()
		<-c.over
	}
}
