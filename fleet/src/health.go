package main

import (
	"sync"
	"time"
)

// freshTime is for how long what was last heard of etcd, or of the server, counts.
const freshTime = 15 * time.Second

// health is what is known of whether changes are carried.
type health struct {
	mutex       sync.Mutex
	has         bool
	etcdAt      time.Time
	serverAt    time.Time
	behindSince time.Time // zero where all that was told by the server is put
}

func newHealth() *health { return &health{} }

func (h *health) began() {
	h.mutex.Lock()
	defer h.mutex.Unlock()
	h.has, h.serverAt = true, time.Now()
}

// etcd notes that it was heard of.
func (h *health) etcd() {
	h.mutex.Lock()
	defer h.mutex.Unlock()
	h.etcdAt = time.Now()
}

// server notes that it answered.
func (h *health) server() {
	h.mutex.Lock()
	defer h.mutex.Unlock()
	h.serverAt = time.Now()
}

// behind notes that something couldn't be put in etcd.
func (h *health) behind() {
	h.mutex.Lock()
	defer h.mutex.Unlock()
	if h.behindSince.IsZero() {
		h.behindSince = time.Now()
	}
}

// put notes that all that the server told is put.
func (h *health) put() {
	h.mutex.Lock()
	defer h.mutex.Unlock()
	h.behindSince = time.Time{}
}

// states are whether etcd and the server were heard of lately, and for how long changes couldn't be put.
func (h *health) states() (etcd, server bool, behind time.Duration) {
	h.mutex.Lock()
	defer h.mutex.Unlock()
	if !h.behindSince.IsZero() {
		behind = time.Since(h.behindSince)
	}
	return time.Since(h.etcdAt) < freshTime, time.Since(h.serverAt) < freshTime+followWait*time.Second, behind
}

// why is empty where all is well, and else says what isn't.
func (h *health) why() string {
	etcd, server, behind := h.states()
	h.mutex.Lock()
	has := h.has
	h.mutex.Unlock()
	switch {
	case !has:
		return "what stands in etcd isn't posted yet"
	case !etcd:
		return "etcd isn't heard of"
	case !server:
		return "the server isn't heard of"
	case behind > freshTime:
		return "changes aren't put in etcd"
	}
	return ""
}
