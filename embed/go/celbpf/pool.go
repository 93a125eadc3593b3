package celbpf

import (
	"runtime"
	"sync"
)

// Pool decides on many goroutines at once, by gates of one policy. A call takes a gate, and waits while none is free.
type Pool struct {
	gates chan *Gate
	once  sync.Once
}

// NewPool compiles a policy into this many gates, or one for each processor that Go uses if size is 0 or less. The
// error is a [*Refusal].
func NewPool(policy []byte, size int) (*Pool, error) { return NewPoolIn(Wide, policy, size) }

// NewPoolIn compiles a policy that is read in this language. See [NewPool].
func NewPoolIn(language Language, policy []byte, size int) (*Pool, error) {
	if size <= 0 {
		size = runtime.GOMAXPROCS(0)
	}
	pool := &Pool{gates: make(chan *Gate, size)}
	for n := 0; n < size; n++ {
		gate, err := NewIn(language, policy)
		if err != nil {
			pool.free(len(pool.gates))
			return nil, err
		}
		pool.gates <- gate
	}
	return pool, nil
}

// Decide decides a request, as [Gate.Decide] does.
func (pool *Pool) Decide(request Request) (Response, error) {
	gate, ok := <-pool.gates
	if !ok {
		return Response{}, &Refusal{Status: Closed}
	}
	defer func() { pool.gates <- gate }()
	return gate.Decide(request)
}

// Close waits for the calls that have a gate and frees all gates. Calls after it return [Closed]. A second call does
// nothing.
func (pool *Pool) Close() {
	pool.once.Do(func() {
		pool.free(cap(pool.gates))
		close(pool.gates)
	})
}

func (pool *Pool) free(count int) {
	for ; count > 0; count-- {
		(<-pool.gates).Close()
	}
}
