/*
 * celbpf.h: decides Kubernetes admission in process, under ValidatingAdmissionPolicies. For C99 and C++11.
 *
 * The functions of the library are proved to do what their comments say (crates/celbpf_c). This header, checked.c and
 * heap.c are not: they are trusted.
 *
 * Each call has two forms. Use the one whose name ends in `_checked`: it takes null pointers for what is left out, and
 * sees to the stack. The plain form is the proved function itself, and asks of you:
 *
 * - Pointers: none is null, even if its count is 0. The bytes are there, and what a call writes (the gate, the room, the
 *   length) overlaps nothing else that is passed.
 * - Stack: CELBPF_WIDE_STACK bytes in the two `_wide` calls, CELBPF_NEW_STACK bytes in the others that are passed a policy,
 *   CELBPF_DECIDE_STACK bytes in celbpf_gate_decide and celbpf_gate_decide_within. With less a hostile policy or document
 *   can overflow the stack, which ends the process.
 *
 * Both forms ask of you:
 *
 * - Threads: a gate has one call at a time, and may move between threads. Different gates need no lock. So give each
 *   thread a gate, or lock. The calls without a gate may run on any thread at any time.
 * - Ownership: a gate is a struct of yours. Start it with {0}, do not copy it while it is full, and free it once. What
 *   is passed in is read during the call alone. The library keeps no pointer to it.
 * - Not from a signal handler, nor from a forked child of a process with threads. malloc, realloc and free are the
 *   process's, and belong together.
 *
 * Policies are read in one of two languages. celbpf_gate_new_wide and celbpf_review_wide read them as clusters store them,
 * and decide as the program gatekeeper does. The other calls read the language that is compiled, as the program celbpf does.
 *
 * Counts and lengths are bytes. Documents are JSON, and need no 0 at their end; texts that are written have none.
 */
#ifndef CELBPF_H
#define CELBPF_H

#include <stddef.h>
#include <stdint.h>

#ifdef __cplusplus
extern "C" {
#endif

/* The version of this interface. It is the same as celbpf_version() of the library that it belongs to. */
#define CELBPF_VERSION 1u

/* Bytes of room that suffice for the line of any refusal, but of a policy in the wide language, whose line may name what the
 * policy names. */
#define CELBPF_LINE 80u

/* The steps that the program celbpf gives a policy's program, unless it is told otherwise. */
#define CELBPF_STEPS UINT64_C(10000000)

/* The bytes that the program gatekeeper lets helper calls read, unless it is told otherwise. */
#define CELBPF_READS UINT64_C(16777216)

/* Bytes of stack that suffice, as measured: the most that was seen are 4.8 MB, 7.4 MB with little optimisation, and 140 KB. */
#define CELBPF_NEW_STACK ((size_t)6 << 20)
#define CELBPF_WIDE_STACK ((size_t)12 << 20)
#define CELBPF_DECIDE_STACK ((size_t)256 << 10)

/* A place for a gate: a policy that is compiled once. A place of zeros is empty. */
typedef struct celbpf_gate {
    void *held;
} celbpf_gate;

/* What came of a call. All from 2 on are no decision. */
enum {
    CELBPF_DONE = 0,    /* celbpf_gate_new, celbpf_compile: it is done */
    CELBPF_ALLOWED = 0, /* celbpf_gate_decide, celbpf_review: the response allows the request */
    CELBPF_DENIED = 1,  /* the response denies it */

    CELBPF_POLICY_UNREAD = 2,     /* the document is not a policy */
    CELBPF_POLICY_UNCOMPILED = 3, /* an expression or the size of the policy is refused */
    CELBPF_REVIEW_REFUSED = 4,    /* the review is not an AdmissionReview, or its objects are refused */
    CELBPF_DOCUMENT_REFUSED = 5,  /* the namespace or the params are refused */
    CELBPF_OUT_OF_STEPS = 6,      /* the program still ran after the steps given */
    CELBPF_OVER_LIMIT = 7,        /* the program was stopped: a value is too deep, or all are too large together */

    CELBPF_ROOM = 8,   /* the room is too small: call again with as many bytes as the length says */
    CELBPF_MEMORY = 9, /* malloc or realloc failed. It says nothing of the documents */
    CELBPF_EMPTY = 10, /* the place holds no gate */
    CELBPF_STACK = 11, /* `_checked` calls alone: there is no stack to compile a policy, and nothing was done */

    CELBPF_OUT_OF_READS = 12 /* calls with a limit of reads alone: a helper call would have read past it */
};

/*
 * The room and the length. A call that has a text writes it to the front of the room and leaves the rest as it was. The
 * length is that of the text, also if the room is too small; then the room is unchanged. If the text is a response or
 * an image, a room that is too small gives CELBPF_ROOM. If it is the line of a refusal, the status stays that of the
 * refusal. The line is what the program celbpf prints, as "celbpf: K6 validation 0 P4 at 13\n".
 */

/*
 * Compiles a policy and puts its gate into the place.
 * DONE: no text, and a gate that was in the place is freed. 2, 3, MEMORY: the line, and the place is as it was.
 */
uint32_t celbpf_gate_new(celbpf_gate *place, const uint8_t *policy, size_t policy_len, uint8_t *room, size_t room_len,
                         size_t *len);

/*
 * Compiles a policy as clusters store it and puts its gate into the place, as celbpf_gate_new does. Its calls decide as the
 * program gatekeeper does, and messages have the texts of the policy's author.
 * As celbpf_gate_new; the line is that of the program gatekeeper without a file, as "celbpf: K6 validation 1 W5 url\n".
 */
uint32_t celbpf_gate_new_wide(celbpf_gate *place, const uint8_t *policy, size_t policy_len, uint8_t *room, size_t room_len,
                              size_t *len);

/*
 * Decides a review. No bytes for `ns` (the namespace) or `params` mean that there is none. The program may take `steps`
 * steps, CELBPF_STEPS say, and each may read much: a hostile document can take long. celbpf_gate_decide_within bounds
 * that too. The place keeps its gate, whatever comes of the call.
 * ALLOWED, DENIED: the response, an AdmissionReview. 4 to 7, MEMORY: the line. ROOM. EMPTY: no text.
 */
uint32_t celbpf_gate_decide(celbpf_gate *place, const uint8_t *review, size_t review_len, const uint8_t *ns, size_t ns_len,
                            const uint8_t *params, size_t params_len, uint64_t steps, uint8_t *room, size_t room_len,
                            size_t *len);

/*
 * Decides a review as celbpf_gate_decide does, but the helper calls of the program may read at most `reads` bytes
 * together, CELBPF_READS say. UINT64_MAX is no limit.
 * As celbpf_gate_decide; and OUT_OF_READS: the line, "celbpf: N7\n".
 */
uint32_t celbpf_gate_decide_within(celbpf_gate *place, const uint8_t *review, size_t review_len, const uint8_t *ns,
                                   size_t ns_len, const uint8_t *params, size_t params_len, uint64_t steps, uint64_t reads,
                                   uint8_t *room, size_t room_len, size_t *len);

/* Frees the gate in the place, which is empty then. An empty place stays empty, so a second call does nothing. */
void celbpf_gate_free(celbpf_gate *place);

/*
 * Decides a review under a policy, which is compiled for this call alone. See celbpf_gate_decide.
 * ALLOWED, DENIED: the response. 2 to 7, MEMORY: the line. ROOM.
 */
uint32_t celbpf_review(const uint8_t *policy, size_t policy_len, const uint8_t *review, size_t review_len, const uint8_t *ns,
                       size_t ns_len, const uint8_t *params, size_t params_len, uint64_t steps, uint8_t *room,
                       size_t room_len, size_t *len);

/*
 * Decides a review as celbpf_review does, but the helper calls of the program may read at most `reads` bytes together.
 * As celbpf_review; and OUT_OF_READS, as there.
 */
uint32_t celbpf_review_within(const uint8_t *policy, size_t policy_len, const uint8_t *review, size_t review_len,
                              const uint8_t *ns, size_t ns_len, const uint8_t *params, size_t params_len, uint64_t steps,
                              uint64_t reads, uint8_t *room, size_t room_len, size_t *len);

/*
 * Decides a review as celbpf_review_within does, under a policy as clusters store it.
 * As there; the line of a policy's refusal is that of celbpf_gate_new_wide.
 */
uint32_t celbpf_review_wide(const uint8_t *policy, size_t policy_len, const uint8_t *review, size_t review_len,
                            const uint8_t *ns, size_t ns_len, const uint8_t *params, size_t params_len, uint64_t steps,
                            uint64_t reads, uint8_t *room, size_t room_len, size_t *len);

/*
 * Compiles a policy to the file of its image, which `celbpf debug`, `list` and `run-image` take.
 * DONE: the file. 2, 3, MEMORY: the line. ROOM.
 */
uint32_t celbpf_compile(const uint8_t *policy, size_t policy_len, uint8_t *room, size_t room_len, size_t *len);

/* The version of the library's interface. */
uint32_t celbpf_version(void);

/* ---- the checked forms (checked.c, not proved) */

/* The bytes of stack that this thread has left, or 0 if that is not known, as on the stack of a coroutine. */
size_t celbpf_stack_left(void);

/*
 * The calls above, which may be passed null for documents, the room and the length. A null place is an empty one. If the
 * thread has less stack left than they need, those that compile run on a thread of their own, with a stack of 16 MB,
 * which has ended when they return; CELBPF_STACK if there can be no such thread. The two that decide with a gate do not
 * ask for the stack, since that takes longer than many a decision: see CELBPF_DECIDE_STACK.
 */
uint32_t celbpf_gate_new_checked(celbpf_gate *place, const void *policy, size_t policy_len, void *room, size_t room_len,
                                 size_t *len);
uint32_t celbpf_gate_new_wide_checked(celbpf_gate *place, const void *policy, size_t policy_len, void *room, size_t room_len,
                                      size_t *len);
uint32_t celbpf_gate_decide_checked(celbpf_gate *place, const void *review, size_t review_len, const void *ns, size_t ns_len,
                                    const void *params, size_t params_len, uint64_t steps, void *room, size_t room_len,
                                    size_t *len);
uint32_t celbpf_gate_decide_within_checked(celbpf_gate *place, const void *review, size_t review_len, const void *ns,
                                           size_t ns_len, const void *params, size_t params_len, uint64_t steps,
                                           uint64_t reads, void *room, size_t room_len, size_t *len);
void celbpf_gate_free_checked(celbpf_gate *place);
uint32_t celbpf_review_checked(const void *policy, size_t policy_len, const void *review, size_t review_len, const void *ns,
                               size_t ns_len, const void *params, size_t params_len, uint64_t steps, void *room,
                               size_t room_len, size_t *len);
uint32_t celbpf_review_within_checked(const void *policy, size_t policy_len, const void *review, size_t review_len,
                                      const void *ns, size_t ns_len, const void *params, size_t params_len, uint64_t steps,
                                      uint64_t reads, void *room, size_t room_len, size_t *len);
uint32_t celbpf_review_wide_checked(const void *policy, size_t policy_len, const void *review, size_t review_len,
                                    const void *ns, size_t ns_len, const void *params, size_t params_len, uint64_t steps,
                                    uint64_t reads, void *room, size_t room_len, size_t *len);
uint32_t celbpf_compile_checked(const void *policy, size_t policy_len, void *room, size_t room_len, size_t *len);

#ifdef __cplusplus
}
#endif
#endif
