package main

import (
	"bytes"
	"fmt"
	"math/rand"
	"strings"
	"sync"
	"testing"
	"time"

	"google.golang.org/grpc/codes"
)

// clustersText is a response of so many clusters, each of some 600 bytes.
func clustersText(nonce string, count int, delta bool) string {
	var all []string
	for i := 0; i < count; i++ {
		name := fmt.Sprintf("c%05d", i)
		it := `{"@type":"` + clusterURL + `","altStatName":"` + strings.Repeat("x", 500) + `","name":"` + name + `"}`
		if delta {
			it = `{"name":"` + name + `","resource":` + it + `,"version":"1-1"}`
		}
		all = append(all, it)
	}
	word := "versionInfo"
	if delta {
		word = "systemVersionInfo"
	}
	return `{"nonce":"` + nonce + `","resources":[` + strings.Join(all, ",") + `],"typeUrl":"` + clusterURL + `","` + word + `":"v"}`
}

func TestStreamsThatAreToldAlikeShare(t *testing.T) {
	w := newWorld(t)
	for _, delta := range []bool{true, false} {
		var first *assembled
		for i, nonce := range []string{"1", "1", "2", "1", "long" + strings.Repeat("x", 500)} {
			made, told, err := w.bridge.assembledOf([]byte(clustersText(nonce, 100, delta)), delta)
			if err != nil || told != nonce || made.why != "" {
				t.Fatal(err, told, made)
			}
			alone, _, _ := w.bridge.assemble([]byte(clustersText(nonce, 100, delta)), delta)
			if len(made.bodies) != 1 || len(alone.bodies) != 1 || !bytes.Equal(made.bodies[0].with(nil), alone.bodies[0].with(nil)) {
				t.Fatal("other bytes")
			}
			if i == 0 {
				first = made
			}
			if same := made == first; same != (len(nonce) == 1) {
				t.Fatal(nonce, same)
			}
		}
	}
	// (the long nonce leaves less room, and so isn't shared)
	if n := w.bridge.shared.made; n != 4 {
		t.Fatal(n)
	}
}

func TestWhatIsSharedIsBounded(t *testing.T) {
	a := newAssemblies(100_000)
	var all sync.WaitGroup
	for i := 0; i < 8; i++ {
		random := rand.New(rand.NewSource(int64(i)))
		all.Add(1)
		go func() {
			defer all.Done()
			for n := 0; n < 2000; n++ {
				of := byte(random.Intn(60))
				made, err := a.of(responseKey{room: int(of)}, func() (*assembled, error) {
					if of == 0 {
						return nil, errTooLong
					}
					return anAssembled(of, 1000), nil
				})
				if (err != nil) != (of == 0) || (err == nil && made.bodies[0].all[0][0] != of) {
					t.Error(of, err)
				}
				if err == nil {
					made.isSent(-1)
				}
			}
		}()
	}
	all.Wait()
	sum := 0
	for at := a.recent.Front(); at != nil; at = at.Next() {
		sum += at.Value.(*assembly).bytes
	}
	if a.bytes > a.most || sum != a.bytes || len(a.held) != a.recent.Len() {
		t.Error(a.bytes, sum, len(a.held), a.recent.Len())
	}
}

func TestLongDeltasGoInParts(t *testing.T) {
	w := newWorld(t, "--max-message", "20000", "--identifier", "me")
	k := w.delta()
	k.asks(`{"typeUrl":"` + clusterURL + `"}`)
	answer := func(nonce, more string) string {
		return `{"typeUrl":"` + clusterURL + `","responseNonce":"` + nonce + `"` + more + `}`
	}
	// takesParts takes the parts of a response, and answers their nonces.
	takesParts := func() (nonces []string) {
		names := 0
		for names < 100 {
			var in message
			if err := k.client.RecvMsg(&in); err != nil || len(in.wire) > 20000 {
				t.Fatal(err, len(in.wire))
			}
			r := readWire(in.wire)
			for _, it := range r.resources {
				if want := fmt.Sprintf("c%05d", names); it.name != want {
					t.Fatal(it.name, want)
				}
				names++
			}
			nonces = append(nonces, r.nonce)
		}
		return nonces
	}
	k.answers(clustersText("1", 100, true))
	nonces := takesParts()
	if got := strings.Join(nonces, " "); got != "1#1of4 1#2of4 1#3of4 1" {
		t.Fatal(got)
	}
	// Accepted once all are, in whatever order; what else an answer says goes on at once.
	k.sends(answer(nonces[3], ""))
	k.sends(answer(nonces[0], ""))
	k.wants(k.asks(answer(nonces[1], `,"resourceNamesSubscribe":["x"]`)), `{"typeUrl":"`+clusterURL+`","resourceNamesSubscribe":["x"]}`)
	k.sends(answer(nonces[1], ""))
	k.wants(k.asks(answer(nonces[2], "")), answer("1", ""))
	// Rejected if one is, as the first rejection says.
	k.answers(clustersText("2", 100, true))
	nonces = takesParts()
	k.sends(answer(nonces[0], ""))
	k.sends(answer(nonces[1], `,"errorDetail":{"code":3,"message":"no"}`))
	k.sends(answer(nonces[2], `,"errorDetail":{"code":3,"message":"not so"}`))
	k.wants(k.asks(answer(nonces[3], "")), answer("2", `,"errorDetail":{"code":3,"message":"no"}`))
	// A late answer is none; the next response has one message.
	k.answers(clustersText("3", 2, true))
	k.takes()
	k.sends(answer("2#1of4", ""))
	k.wants(k.asks(answer("3", "")), answer("3", ""))
	// Names that are removed are parted, too.
	var gone []string
	for i := 0; i < 100; i++ {
		gone = append(gone, fmt.Sprintf(`"%0500d"`, i))
	}
	k.answers(`{"nonce":"4","removedResources":[` + strings.Join(gone, ",") + `],"typeUrl":"` + clusterURL + `"}`)
	for _, nonce := range []string{"4#1of3", "4#2of3", "4"} {
		got := k.takes().(map[string]interface{})
		if got["nonce"] != nonce || len(got["removedResources"].([]interface{})) < 20 {
			t.Fatal(got)
		}
	}
	// A resource that is too long by itself is refused in the client's place.
	k.answers(`{"nonce":"5","resources":[{"name":"b","resource":{"@type":"` + clusterURL + `","name":"` + strings.Repeat("x", 20000) +
		`"},"version":"1-1"}],"typeUrl":"` + clusterURL + `"}`)
	refused := fmt.Sprint(k.gets()["errorDetail"])
	for _, it := range []string{`resource "b"`, "20000", "--max-message", "16777215"} {
		if !strings.Contains(refused, it) {
			t.Fatal(refused)
		}
	}
}

func TestALongStateOfTheWorldIsTold(t *testing.T) {
	w := newWorld(t, "--max-message", "20000")
	k := w.sotw()
	k.asks(`{"typeUrl":"` + clusterURL + `"}`)
	for i, count := range []int{30, 30, 1, 30} {
		k.answers(clustersText(fmt.Sprint(i), count, false))
		k.takes()
	}
	half := "a response to a client has"
	if told := w.tells(half); !strings.Contains(told, "more than half of the 20000 of --max-message") {
		t.Fatal(told)
	}
	k.answers(clustersText("9", 50, false))
	refused := fmt.Sprint(k.gets()["errorDetail"])
	for _, it := range []string{"can't be split", "--max-message allows 20000", "16777215"} {
		if !strings.Contains(refused, it) {
			t.Fatal(refused)
		}
	}
	w.bridge.frozen.look(time.Now())
	told := w.tells("is frozen since")
	if strings.Count(told, half) != 2 || !strings.Contains(told, "can't be split") {
		t.Fatal(told)
	}
	text := clustersText("9", 50, false)
	w.hasNumber(fmt.Sprintf(`bridge_response_bytes{type="%s",variant="sotw"} %d`, clusterURL, len(text)))
	if len(text) < 20000 || !w.bridge.limits.crosses("x", 6, 10) || w.bridge.limits.crosses("x", 7, 10) {
		t.Fatal("crossings")
	}
	k.cancel()
	k.ends(codes.Canceled, "")
}
