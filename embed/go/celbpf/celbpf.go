// Package celbpf decides Kubernetes admission in process, under ValidatingAdmissionPolicies.
//
// A [Gate] is a policy that is compiled once. It decides any number of reviews, one at a time; a [Pool] of gates decides
// many at once. The decisions are those of the program gatekeeper, byte for byte: both are the same proved code. This
// package is a thin layer over it, and is not proved. A policy is read as clusters store it, unless a [Language] is given.
//
//	gate, err := celbpf.New(policy)
//	if err != nil {
//		return err // "celbpf: K6 validation 0 W5 url"
//	}
//	defer gate.Close()
//	response, err := gate.Decide(celbpf.Request{Review: review})
//	if err != nil {
//		return err // no decision: errors.Is(err, celbpf.ReviewRefused), say
//	}
//	if !response.Allowed {
//		w.Write(response.JSON)
//	}
//
// An error is no decision: deny the request under the failure policy Fail, and allow it under Ignore.
//
// No context ends a call. [Request.Steps] and [Request.Reads] bound what a policy does; the reading of a review takes time
// and memory in proportion to its size, so bound that where it comes in.
package celbpf

/*
#cgo pkg-config: celbpf
#include <celbpf.h>
*/
import "C"

import (
	"runtime"
	"strings"
	"sync"
	"unsafe"
)

// DefaultSteps is how many steps a policy's program may take if [Request.Steps] is 0.
const DefaultSteps = 10_000_000

// DefaultReads is how many bytes the helper calls of a policy's program may read together if [Request.Reads] is 0.
const DefaultReads = 16_777_216

// firstRoom is the room for a response at the first try. Most are shorter.
const firstRoom = 4096

// Request is what a policy decides.
type Request struct {
	// Review is the AdmissionReview (admission.k8s.io/v1), as JSON.
	Review []byte
	// Namespace is the namespace of the request, which expressions see as namespaceObject. Empty: null.
	Namespace []byte
	// Params is the object that expressions see as params. Empty: null.
	Params []byte
	// Steps is how many steps the policy's program may take. 0: DefaultSteps.
	Steps uint64
	// Reads is how many bytes its helper calls may read together. 0: DefaultReads. math.MaxUint64 is no limit.
	Reads uint64
}

// Response is a decision.
type Response struct {
	// Allowed says whether the request is allowed.
	Allowed bool
	// JSON is the response, an AdmissionReview (admission.k8s.io/v1).
	JSON []byte
}

// Language is how a policy is read.
type Language int

const (
	// Wide: as clusters store it, and as the program gatekeeper reads it.
	Wide Language = iota
	// Profile: the language that is compiled, as the program celbpf reads it.
	Profile
)

// Gate is a policy that is compiled once. Calls on a gate wait for one another.
type Gate struct {
	mutex sync.Mutex
	place C.celbpf_gate
	room  []byte
}

// New compiles a policy, a ValidatingAdmissionPolicy (admissionregistration.k8s.io/v1) as JSON. The error is a
// [*Refusal]. Close frees the gate; a gate that is not closed is freed once nothing refers to it.
func New(policy []byte) (*Gate, error) { return NewIn(Wide, policy) }

// NewIn compiles a policy that is read in this language. See [New].
func NewIn(language Language, policy []byte) (*Gate, error) {
	gate := &Gate{room: make([]byte, firstRoom)}
	for {
		var size C.size_t
		status := gate.make(language, policy, &size)
		switch {
		case status == C.CELBPF_DONE:
			runtime.SetFinalizer(gate, (*Gate).Close)
			return gate, nil
		case int(size) <= len(gate.room):
			return nil, refused(status, gate.room, size)
		}
		// the line of the refusal is longer
		gate.room = make([]byte, size)
	}
}

func (gate *Gate) make(language Language, policy []byte, size *C.size_t) C.uint32_t {
	text, count, room, length := pointer(policy), C.size_t(len(policy)), pointer(gate.room), C.size_t(len(gate.room))
	if language == Profile {
		return C.celbpf_gate_new_checked(&gate.place, text, count, room, length, size)
	}
	return C.celbpf_gate_new_wide_checked(&gate.place, text, count, room, length, size)
}

// Decide decides a request. An error is a [*Refusal], and no decision.
func (gate *Gate) Decide(request Request) (Response, error) {
	gate.mutex.Lock()
	defer gate.mutex.Unlock()
	for {
		var size C.size_t
		status := C.celbpf_gate_decide_within_checked(&gate.place,
			pointer(request.Review), C.size_t(len(request.Review)), pointer(request.Namespace), C.size_t(len(request.Namespace)),
			pointer(request.Params), C.size_t(len(request.Params)), steps(request), reads(request),
			pointer(gate.room), C.size_t(len(gate.room)), &size)
		if status != C.CELBPF_ROOM {
			return answer(status, gate.room, size)
		}
		gate.room = make([]byte, size)
	}
}

// Close frees the gate. A second call does nothing.
func (gate *Gate) Close() {
	gate.mutex.Lock()
	defer gate.mutex.Unlock()
	runtime.SetFinalizer(gate, nil)
	C.celbpf_gate_free_checked(&gate.place)
}

// Review decides a request under a policy that is compiled for this call alone. Any goroutine may call it at any time.
func Review(policy []byte, request Request) (Response, error) { return ReviewIn(Wide, policy, request) }

// ReviewIn decides a request under such a policy, which is read in this language.
func ReviewIn(language Language, policy []byte, request Request) (Response, error) {
	room := make([]byte, firstRoom)
	for {
		var size C.size_t
		status := reviewed(language, policy, request, room, &size)
		if int(size) <= len(room) {
			return answer(status, room, size)
		}
		room = make([]byte, size)
	}
}

func reviewed(language Language, policy []byte, request Request, room []byte, size *C.size_t) C.uint32_t {
	if language == Profile {
		return C.celbpf_review_within_checked(pointer(policy), C.size_t(len(policy)),
			pointer(request.Review), C.size_t(len(request.Review)), pointer(request.Namespace), C.size_t(len(request.Namespace)),
			pointer(request.Params), C.size_t(len(request.Params)), steps(request), reads(request),
			pointer(room), C.size_t(len(room)), size)
	}
	return C.celbpf_review_wide_checked(pointer(policy), C.size_t(len(policy)),
		pointer(request.Review), C.size_t(len(request.Review)), pointer(request.Namespace), C.size_t(len(request.Namespace)),
		pointer(request.Params), C.size_t(len(request.Params)), steps(request), reads(request),
		pointer(room), C.size_t(len(room)), size)
}

// Compile compiles a policy of the language [Profile] to the file of its image, as `celbpf compile` does.
func Compile(policy []byte) ([]byte, error) {
	room := make([]byte, firstRoom)
	for {
		var size C.size_t
		status := C.celbpf_compile_checked(pointer(policy), C.size_t(len(policy)), pointer(room), C.size_t(len(room)), &size)
		switch status {
		case C.CELBPF_DONE:
			return room[:size], nil
		case C.CELBPF_ROOM:
			room = make([]byte, size)
		default:
			return nil, refused(status, room, size)
		}
	}
}

func steps(request Request) C.uint64_t {
	if request.Steps == 0 {
		return DefaultSteps
	}
	return C.uint64_t(request.Steps)
}

func reads(request Request) C.uint64_t {
	if request.Reads == 0 {
		return DefaultReads
	}
	return C.uint64_t(request.Reads)
}

func answer(status C.uint32_t, room []byte, size C.size_t) (Response, error) {
	if status > C.CELBPF_DENIED {
		return Response{}, refused(status, room, size)
	}
	return Response{Allowed: status == C.CELBPF_ALLOWED, JSON: append([]byte(nil), room[:size]...)}, nil
}

func refused(status C.uint32_t, room []byte, size C.size_t) error {
	line := ""
	if int(size) <= len(room) {
		line = strings.TrimSuffix(string(room[:size]), "\n")
	}
	return &Refusal{Status: Status(status), Line: line}
}

// pointer is null for no bytes.
func pointer(bytes []byte) unsafe.Pointer {
	if len(bytes) == 0 {
		return nil
	}
	return unsafe.Pointer(&bytes[0])
}
