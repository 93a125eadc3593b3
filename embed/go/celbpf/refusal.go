package celbpf

import "fmt"

// Status is why there is no decision. It is an error, so that errors.Is(err, celbpf.OutOfSteps) tells whether a
// [*Refusal] has it.
type Status uint32

const (
	// PolicyUnread: the document is not a policy.
	PolicyUnread Status = 2
	// PolicyUncompiled: an expression or the size of the policy is refused. The line says which and where.
	PolicyUncompiled Status = 3
	// ReviewRefused: the review is not an AdmissionReview, or its objects are refused.
	ReviewRefused Status = 4
	// DocumentRefused: the namespace or the params are refused.
	DocumentRefused Status = 5
	// OutOfSteps: the policy's program still ran after the steps that it was given.
	OutOfSteps Status = 6
	// OverLimit: the policy's program was stopped, since a value is too deep, or all are too large together.
	OverLimit Status = 7
	// NoMemory: an allocation failed, which says nothing of the documents.
	NoMemory Status = 9
	// Closed: the gate was closed.
	Closed Status = 10
	// SmallStack: there is no stack to compile a policy, and no thread that has it could be started.
	SmallStack Status = 11
	// OutOfReads: a helper call of the policy's program would have read past the limit of reads.
	OutOfReads Status = 12
)

var texts = map[Status]string{
	PolicyUnread:     "the document is not a policy",
	PolicyUncompiled: "the policy is not compiled",
	ReviewRefused:    "the review is refused",
	DocumentRefused:  "the namespace or the params are refused",
	OutOfSteps:       "the policy's program has not ended",
	OverLimit:        "the policy's program was stopped",
	NoMemory:         "out of memory",
	Closed:           "the gate is closed",
	SmallStack:       "no stack to compile a policy",
	OutOfReads:       "the policy's program has read too much",
}

func (status Status) Error() string {
	if text, ok := texts[status]; ok {
		return text
	}
	return fmt.Sprintf("status %d", uint32(status))
}

// Refusal is why there is no gate, or no decision.
type Refusal struct {
	Status Status
	// Line is what the program gatekeeper prints, or celbpf for a policy of the language Profile, as
	// "celbpf: K6 validation 0 P4 at 13", or empty if they print nothing.
	Line string
}

func (refusal *Refusal) Error() string {
	if refusal.Line == "" {
		return "celbpf: " + refusal.Status.Error()
	}
	return fmt.Sprintf("%s (%s)", refusal.Line, refusal.Status.Error())
}

// Unwrap is the status, for errors.Is.
func (refusal *Refusal) Unwrap() error { return refusal.Status }
