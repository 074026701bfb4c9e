package main

import (
	"bytes"
	"errors"
	"fmt"
	"math/rand"
	"strings"
	"sync"
	"testing"
	"time"
)

func TestATextIsConvertedOnceForAllThatWantIt(t *testing.T) {
	release := make(chan struct{})
	b := newBodies(1<<20, func(text []byte) ([]byte, error) {
		<-release
		return append([]byte("of "), text...), nil
	})
	var all sync.WaitGroup
	for i := 0; i < 50; i++ {
		all.Add(1)
		go func() {
			defer all.Done()
			if wire, err := b.of([]byte("x")); err != nil || string(wire) != "of x" {
				t.Errorf("%q, %v", wire, err)
			}
		}()
	}
	time.Sleep(50 * time.Millisecond)
	close(release)
	all.Wait()
	if b.made != 1 {
		t.Errorf("it was converted %d times", b.made)
	}
}

func TestAFaultIsKeptToo(t *testing.T) {
	b := newBodies(1<<20, func([]byte) ([]byte, error) { return nil, errors.New("no") })
	for i := 0; i < 3; i++ {
		if _, err := b.of([]byte("x")); err == nil || b.made != 1 {
			t.Fatal(err, b.made)
		}
	}
}

func TestWhatWasUsedLongestAgoGoesFirst(t *testing.T) {
	b := newBodies(3*(entryCost+2), func(text []byte) ([]byte, error) { return text, nil })
	for _, it := range []string{"a", "b", "c", "a", "d", "a", "c", "d"} {
		_, _ = b.of([]byte(it))
	}
	if b.made != 4 || b.dropped != 1 || b.held["b"] != nil {
		t.Error(b.made, b.dropped, b.held)
	}
}

func TestTheBoundHolds(t *testing.T) {
	for _, most := range []int{0, 1000, 20000} {
		b := newBodies(most, func(text []byte) ([]byte, error) { return make([]byte, 3*len(text)), nil })
		var all sync.WaitGroup
		for i := 0; i < 8; i++ {
			random := rand.New(rand.NewSource(int64(i)))
			all.Add(1)
			go func() {
				defer all.Done()
				for n := 0; n < 3000; n++ {
					text := make([]byte, 1+random.Intn(60))
					wire, _ := b.of(text)
					if len(wire) != 3*len(text) {
						t.Error("another text's bytes")
					}
				}
			}()
		}
		all.Wait()
		sum := 0
		for at := b.recent.Front(); at != nil; at = at.Next() {
			sum += at.Value.(*body).bytes
		}
		if b.bytes > most || sum != b.bytes || len(b.held) != b.recent.Len() {
			t.Error(most, fmt.Sprint(b.bytes, sum, len(b.held), b.recent.Len()))
		}
	}
}

func TestWhatIsConverted(t *testing.T) {
	begin := make(chan struct{})
	b := newBodies(1000, func(text []byte) ([]byte, error) {
		<-begin
		return text, nil
	})
	done := make(chan struct{})
	go func() {
		_, _ = b.of([]byte("a"))
		close(done)
	}()
	for b.len() == 0 {
		time.Sleep(time.Millisecond)
	}
	if b.has([]byte("a")) {
		t.Fatal("it is being converted")
	}
	close(begin)
	<-done
	if !b.has([]byte("a")) || b.has([]byte("b")) {
		t.Fatal("a is converted, and b isn't")
	}
}

func (b *bodies) len() int {
	b.mutex.Lock()
	defer b.mutex.Unlock()
	return len(b.held)
}

// What the loop puts together of a response is what a thread does, once its resources are converted and not before.
func TestResponsesThatNeedNoConversion(t *testing.T) {
	w := newWorld(t)
	for _, delta := range []bool{true, false} {
		for _, nonce := range []string{"1", strings.Repeat("n", 100)} {
			text := []byte(clustersText(nonce+"x", 3, delta))
			if delta && nonce == "1" {
				if made, _ := w.bridge.assembledNow(text, delta); made != nil {
					t.Fatal("nothing is converted yet")
				}
			}
			want, told, err := w.bridge.assemble(text, delta)
			if err != nil {
				t.Fatal(err)
			}
			made, nonce := w.bridge.assembledNow(text, delta)
			if made == nil || nonce != told || !bytes.Equal(made.bodies[0].with(nil), want.bodies[0].with(nil)) {
				t.Fatal(delta, nonce, made)
			}
		}
	}
	for _, text := range []string{`{"nonce":1}`, `[]`, `{"nonce":"1","resources":[{"name":"a"}]}`} {
		if made, _ := w.bridge.assembledNow([]byte(text), true); made != nil {
			t.Fatal(text)
		}
	}
}
