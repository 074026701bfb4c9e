package main

import (
	"bufio"
	"context"
	"encoding/json"
	"fmt"
	"io"
	"net"
	"net/http"
	"os"
	"os/exec"
	"path/filepath"
	"sort"
	"strconv"
	"strings"
	"sync"
	"testing"
	"time"

	"google.golang.org/grpc"
	"google.golang.org/protobuf/encoding/protojson"
	"google.golang.org/protobuf/proto"
)

// What bridge/bench runs: how long a put takes until each of many streams was told it, framed, by gRPC through the bridge, and by
// the peer (bridge/peer), an xDS server in Go over gRPC; and the processor time of a put and stream that the bridge and the peer
// take. The control plane is the program that BRIDGE_BENCH names, or where it is "stand-in" one that costs next to nothing, so
// that the ratio is of the ways alone. With BRIDGE_BENCH_NAMED the streams ask for the one cluster that is put, and not for all;
// with BRIDGE_BENCH_HELD they say that they hold all.
// BRIDGE_BENCH_STREAMS are how many they are ("100 1000"), over BRIDGE_BENCH_CONNECTIONS (4), BRIDGE_BENCH_PUTS is how many puts
// there are in a round (200), and BRIDGE_BENCH_ROUNDS how many rounds of each (5), which alternate. BRIDGE_PROGRAMS are the
// bridges, separated by spaces.
const (
	benchClusters = 1000
	benchPut      = "c0500" // the cluster that is put
	benchBytes    = 600
	benchPatience = 60 * time.Second
)

// A bench has a control plane, a bridge before it, and a peer.
type bench struct {
	*testing.T
	input       io.Writer
	framed      string // the control plane's address
	connections int
	streams     int
	rounds      int
	each        int               // puts of a round
	versions    map[string]string // of all clusters
	puts        int
	told        chan string // a version, for each stream that it was told on
	lost        chan error
}

// A way is one of those that a put goes to streams.
type way struct {
	name   string
	at     string // its address
	put    func() string
	pid    int // or 0
	grpc   bool
	took   []time.Duration // each put
	opened []time.Duration // each round: until all streams had been told the first put
	costs  []float64       // each round: microseconds of processor time a put and stream
	most   int             // kilobytes of memory that it had at most
}

func numberOf(word string, left int) int {
	if n, err := strconv.Atoi(os.Getenv(word)); err == nil {
		return n
	}
	return left
}

func TestBench(t *testing.T) {
	program := os.Getenv("BRIDGE_BENCH")
	if program == "" {
		t.Skip("bridge/bench runs it")
	}
	b := &bench{T: t, versions: map[string]string{}, connections: numberOf("BRIDGE_BENCH_CONNECTIONS", 4),
		rounds: numberOf("BRIDGE_BENCH_ROUNDS", 5), each: numberOf("BRIDGE_BENCH_PUTS", 200)}
	port, rest := freePort(t), freePort(t)
	b.framed = "127.0.0.1:" + port
	if program == "stand-in" {
		b.input = newStandIn(t, b.framed)
	} else {
		serve := exec.Command(program, "serve", "--replicas", "1", "--port", port, "--rest-port", rest)
		b.input, _ = serve.StdinPipe()
		b.starts(serve, "streams on")
	}
	for i := 0; i < benchClusters; i++ {
		b.put(fmt.Sprintf("c%04d", i))
	}
	if program != "stand-in" {
		b.settle("http://127.0.0.1:" + rest + "/v3/discovery:clusters")
	}
	put := func() string { return b.put(benchPut) }
	framed := &way{name: "framed", at: b.framed, put: put}
	var bridges []*way
	for _, it := range strings.Fields(os.Getenv("BRIDGE_PROGRAMS")) {
		bridge := exec.Command(it, "--listen", "127.0.0.1:0", "--server", b.framed)
		at := strings.Fields(b.starts(bridge, "listening on"))[3]
		bridges = append(bridges, &way{name: it, at: at, put: put, pid: bridge.Process.Pid, grpc: true})
	}
	peer := exec.Command("../peer")
	input, _ := peer.StdinPipe()
	alone := strings.Fields(b.starts(peer, "listening on"))[2]
	told := 0
	tells := func() string {
		told++
		fmt.Fprintln(input, told)
		return strconv.Itoa(told)
	}
	counts := os.Getenv("BRIDGE_BENCH_STREAMS")
	if counts == "" {
		counts = "100 1000"
	}
	fmt.Printf("a put among %d clusters of %d bytes, told to delta streams, over %d connections where by gRPC; medians of %d rounds of %d puts\n",
		benchClusters, benchBytes, b.connections, b.rounds, b.each)
	for _, it := range strings.Fields(counts) {
		b.streams, _ = strconv.Atoi(it)
		b.told, b.lost = make(chan string, b.streams), make(chan error, b.streams)
		by := &way{name: "the peer", at: alone, put: tells, pid: peer.Process.Pid, grpc: true}
		ways := append([]*way{framed, by}, bridges...)
		for _, it := range ways {
			it.took, it.opened, it.costs = nil, nil, nil
		}
		for round := 0; round < b.rounds; round++ {
			for _, it := range ways {
				b.round(it)
			}
		}
		for _, it := range ways {
			it.tell(b.streams, framed, by)
		}
	}
}

// tell tells what a way takes, beside framed streams and the peer.
func (w *way) tell(streams int, framed, peer *way) {
	line := fmt.Sprintf("%d streams, %s: until the last was told %.1f ms", streams, w.name, ms(median(w.took)))
	if w != framed {
		line += fmt.Sprintf(", %.2f times framed", float64(median(w.took))/float64(median(framed.took)))
	}
	line += fmt.Sprintf("; all opened in %.1f ms", ms(median(w.opened)))
	if w.pid != 0 {
		line += fmt.Sprintf("; processor time of a put and stream %.1f us", middle(w.costs))
	}
	if w.pid != 0 && w != peer {
		var ratios []float64
		for i := range w.costs {
			ratios = append(ratios, w.costs[i]/peer.costs[i])
		}
		sort.Float64s(ratios)
		line += fmt.Sprintf(", %.2f times the peer's (of rounds: from %.2f to %.2f)", middle(ratios), ratios[0], ratios[len(ratios)-1])
	}
	if w.pid != 0 {
		line += fmt.Sprintf("; at most %d MB", w.most/1000)
	}
	fmt.Println(line)
}

// costOf is how much processor time a process has had, in microseconds.
func (b *bench) costOf(pid int) (cost float64) {
	tasks, err := filepath.Glob(fmt.Sprintf("/proc/%d/task/*/schedstat", pid))
	if err != nil || len(tasks) == 0 {
		b.Fatalf("no times of %d: %v", pid, err)
	}
	for _, it := range tasks {
		text, err := os.ReadFile(it)
		if err != nil {
			b.Fatal(err)
		}
		ns, _ := strconv.ParseFloat(strings.Fields(string(text))[0], 64)
		cost += ns / 1000
	}
	return cost
}

func freePort(t *testing.T) string {
	l, err := net.Listen("tcp", "127.0.0.1:0")
	if err != nil {
		t.Fatal(err)
	}
	defer l.Close()
	_, port, _ := net.SplitHostPort(l.Addr().String())
	return port
}

// starts starts a program, and answers the line of its error output that has a part.
func (b *bench) starts(command *exec.Cmd, part string) string {
	pipe, err := command.StderrPipe()
	if err == nil {
		err = command.Start()
	}
	if err != nil {
		b.Fatal(err)
	}
	b.Cleanup(func() {
		_ = command.Process.Kill()
		_ = command.Wait()
	})
	lines := bufio.NewScanner(pipe)
	for lines.Scan() {
		if strings.Contains(lines.Text(), part) {
			go func() { _, _ = io.Copy(os.Stderr, pipe) }()
			return lines.Text()
		}
	}
	b.Fatalf("%s ended", command.Path)
	return ""
}

// put puts a cluster, and answers its version.
func (b *bench) put(name string) string {
	b.puts++
	body := `{"@type":"` + clusterURL + `","altStatName":"","connectTimeout":"1s","name":"` + name + `"}`
	stat := fmt.Sprintf("%0*d", benchBytes-len(body), b.puts)
	_, err := fmt.Fprintf(b.input, "put 1 %s\n", strings.Replace(body, `Name":""`, `Name":"`+stat+`"`, 1))
	if err != nil {
		b.Fatal(err)
	}
	b.versions[name] = strconv.Itoa(b.puts) + "-1"
	return b.versions[name]
}

// settle waits until all puts are applied.
func (b *bench) settle(at string) {
	want := fmt.Sprintf(`"1.%d.named"`, b.puts)
	for end := time.Now().Add(benchPatience); time.Now().Before(end); time.Sleep(100 * time.Millisecond) {
		reply, err := http.Post(at, "application/json", strings.NewReader(`{"resourceNames":["x"]}`))
		if err != nil {
			b.Fatal(err)
		}
		text, _ := io.ReadAll(reply.Body)
		reply.Body.Close()
		if strings.Contains(string(text), want) {
			return
		}
	}
	b.Fatalf("%d puts weren't applied", b.puts)
}

// round opens streams, which are told all that there is, puts a cluster some times, and notes how long each put took to be told on
// all, and what it cost.
func (b *bench) round(by *way) {
	ctx, cancel := context.WithCancel(context.Background())
	var open sync.WaitGroup
	defer open.Wait()
	defer cancel()
	asks := map[string]interface{}{"resourceNamesSubscribe": []string{"*"}, "typeUrl": clusterURL}
	if os.Getenv("BRIDGE_BENCH_NAMED") != "" {
		asks["resourceNamesSubscribe"] = []string{benchPut}
	}
	if os.Getenv("BRIDGE_BENCH_HELD") != "" {
		asks["initialResourceVersions"] = b.versions
	}
	first, err := json.Marshal(asks)
	if err != nil {
		b.Fatal(err)
	}
	follow := b.follow
	if by.grpc {
		follow = b.followers(ctx, by.at, &first)
	}
	begun := time.Now()
	open.Add(b.streams)
	for i := 0; i < b.streams; i++ {
		go func(i int) {
			defer open.Done()
			follow(ctx, i, first)
		}(i)
	}
	b.wait(by.put())
	by.opened = append(by.opened, time.Since(begun))
	b.wait(by.put())
	before := 0.0
	if by.pid != 0 {
		before = b.costOf(by.pid)
	}
	for i := 0; i < b.each; i++ {
		begun := time.Now()
		b.wait(by.put())
		by.took = append(by.took, time.Since(begun))
	}
	if by.pid != 0 {
		time.Sleep(50 * time.Millisecond) // (the last answers)
		by.costs = append(by.costs, (b.costOf(by.pid)-before)/float64(b.each*b.streams))
		by.most = mostMemory(b.T, by.pid)
	}
}

// wait waits until each stream was told a version.
func (b *bench) wait(version string) {
	late := time.After(benchPatience)
	for n := 0; n < b.streams; {
		select {
		case told := <-b.told:
			if told == version {
				n++
			}
		case err := <-b.lost:
			b.Fatal(err)
		case <-late:
			b.Fatalf("%s was told on %d streams", version, n)
		}
	}
}

// follow follows all clusters on a framed stream.
func (b *bench) follow(ctx context.Context, _ int, request []byte) {
	conn, err := net.Dial("tcp", b.framed)
	if err != nil {
		b.lost <- err
		return
	}
	defer conn.Close()
	go func() {
		<-ctx.Done()
		conn.Close()
	}()
	frames := newFrameReader(conn)
	for {
		if err := writeFrame(conn, kindDeltaRequest, request); err != nil {
			return
		}
		_, text, err := frames.next()
		if err != nil {
			if ctx.Err() == nil {
				b.lost <- err
			}
			return
		}
		r, err := readResponse(text, true)
		if err != nil {
			b.lost <- err
			return
		}
		b.told <- versionOf(r)
		request, _ = json.Marshal(map[string]string{"responseNonce": r.nonce, "typeUrl": clusterURL})
	}
}

// followers follow all clusters on streams of gRPC, over a few connections. The first request becomes its bytes.
func (b *bench) followers(ctx context.Context, at string, first *[]byte) func(context.Context, int, []byte) {
	found, _ := testTypes.known.FindMessageByName(deltaRequestName)
	made := found.New().Interface()
	err := protojson.Unmarshal(*first, made)
	if err != nil {
		b.Fatal(err)
	}
	*first, _ = proto.Marshal(made)
	conns := make([]*grpc.ClientConn, b.connections)
	for i := range conns {
		if conns[i], err = grpc.Dial(at, grpc.WithInsecure(), grpc.WithCodec(codec{})); err != nil {
			b.Fatal(err)
		}
		conn := conns[i]
		go func() {
			<-ctx.Done()
			conn.Close()
		}()
	}
	return func(ctx context.Context, i int, request []byte) {
		err := b.followBridged(ctx, conns[i%len(conns)], request)
		if err != nil && ctx.Err() == nil {
			b.lost <- err
		}
	}
}

// followBridged follows all clusters on a stream of gRPC.
func (b *bench) followBridged(ctx context.Context, conn *grpc.ClientConn, request []byte) error {
	stream, err := conn.NewStream(ctx, &grpc.StreamDesc{ServerStreams: true, ClientStreams: true}, adsMethod+"DeltaAggregatedResources")
	if err != nil {
		return err
	}
	for {
		var in message
		if err := stream.SendMsg(&message{request}); err != nil {
			return err
		}
		if err := stream.RecvMsg(&in); err != nil {
			return err
		}
		r := readWire(in.wire)
		b.told <- versionOf(r)
		request = appendText(appendText(nil, 2, clusterURL), 6, r.nonce)
	}
}

// versionOf is the version of the cluster that is put, or empty where a response doesn't tell it.
func versionOf(r *response) string {
	for i := range r.resources {
		if r.resources[i].name == benchPut {
			return r.resources[i].version
		}
	}
	return ""
}

func middle(of []float64) float64 {
	of = append([]float64(nil), of...)
	sort.Float64s(of)
	return of[len(of)/2]
}

func median(of []time.Duration) time.Duration {
	of = append([]time.Duration(nil), of...)
	sort.Slice(of, func(i, j int) bool { return of[i] < of[j] })
	return of[len(of)/2]
}

func ms(d time.Duration) float64 { return float64(d) / float64(time.Millisecond) }
