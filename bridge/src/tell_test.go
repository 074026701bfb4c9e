package main

import (
	"fmt"
	"strings"
	"testing"
	"time"
)

// stuck is an output that takes nothing until it is released.
type stuck struct {
	lines
	release chan struct{}
}

func (s *stuck) Write(p []byte) (int, error) {
	<-s.release
	return s.lines.Write(p)
}

func TestABlockedOutputHoldsNobodyUp(t *testing.T) {
	to := &stuck{release: make(chan struct{})}
	tell := newTeller(to)
	begun := time.Now()
	for i := 0; i < 10*mostLines; i++ {
		tell.say("line %d", i)
	}
	if took := time.Since(begun); took > 5*time.Second {
		t.Fatal(took)
	}
	if n := tell.leftOut(); n < 9*mostLines-1 || n > 9*mostLines {
		t.Fatal(n)
	}
	close(to.release)
	tell.close()
	left := fmt.Sprintf("bridge: %d lines are left out\n", tell.leftOut())
	if told := to.String(); !strings.Contains(told, left) || !strings.Contains(told, "bridge: line 0\n") {
		t.Fatalf("%.200s", told)
	}
	// (one that stays blocked doesn't hold up the end)
	tell = newTeller(&stuck{release: make(chan struct{})})
	tell.say("x")
	begun = time.Now()
	tell.close()
	if took := time.Since(begun); took > 3*lastLines {
		t.Fatal(took)
	}
	tell.say("after the end")
}

func TestAFewLinesOfAKind(t *testing.T) {
	to := new(lines)
	tell := newTeller(to)
	for i := 0; i < 3*fewLines; i++ {
		tell.few("kind", "%d", i)
	}
	tell.few("other", "x\ny\x1b%s", strings.Repeat("ä", longestLine))
	tell.look()
	tell.few("kind", "again")
	tell.look()
	tell.close()
	got := strings.Split(to.String(), "\n")
	if len(got) != fewLines+4 || !strings.Contains(got[fewLines+1], "kind: 40 more") || !strings.Contains(got[fewLines+2], "kind: again") {
		t.Fatal(got)
	}
	if other := got[fewLines]; !strings.HasPrefix(other, "bridge: other: x?y?ä") || len(other) > longestLine+10 {
		t.Fatal(other)
	}
}

func TestWhatIsToldOnceIsForgottenInTime(t *testing.T) {
	tell := newTeller(new(lines))
	for i := 0; i < 3*mostKeys; i++ {
		key := fmt.Sprint(i)
		if !tell.first(key) || tell.first(key) {
			t.Fatal(i)
		}
	}
	if len(tell.once) != mostKeys || len(tell.order) != mostKeys || !tell.first("0") {
		t.Fatal(len(tell.once), len(tell.order))
	}
}
