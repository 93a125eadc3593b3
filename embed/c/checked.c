/*
 * checked.c: the calls of the interface for callers that pass null pointers or have small stacks. Trusted, not proved.
 */
#define _GNU_SOURCE
#include "celbpf.h"
#include <pthread.h>
#include <signal.h>

#define LARGE_STACK ((size_t)16 << 20)

/* What a call is given, with no pointer null, and its status. */
struct call {
    void (*run)(struct call *call);
    int is_wide;
    celbpf_gate *place;
    const uint8_t *policy, *review, *ns, *params;
    size_t policy_len, review_len, ns_len, params_len;
    uint64_t steps, reads;
    uint8_t *room;
    size_t room_len, *len;
    uint32_t status;
};

/* Where pointers with a count of 0 lead: nothing is read or written there. */
static uint8_t nothing;

static const uint8_t *bytes(const void *at) { return at ? at : &nothing; }

static uint8_t *writable(void *at) { return at ? at : &nothing; }

static void run_new(struct call *call) {
    call->status = celbpf_gate_new(call->place, call->policy, call->policy_len, call->room, call->room_len, call->len);
}

static void run_new_wide(struct call *call) {
    call->status = celbpf_gate_new_wide(call->place, call->policy, call->policy_len, call->room, call->room_len, call->len);
}

static void run_review(struct call *call) {
    call->status = celbpf_review(call->policy, call->policy_len, call->review, call->review_len, call->ns, call->ns_len,
                                 call->params, call->params_len, call->steps, call->room, call->room_len, call->len);
}

static void run_review_within(struct call *call) {
    call->status = celbpf_review_within(call->policy, call->policy_len, call->review, call->review_len, call->ns,
                                        call->ns_len, call->params, call->params_len, call->steps, call->reads, call->room,
                                        call->room_len, call->len);
}

static void run_review_wide(struct call *call) {
    call->status = celbpf_review_wide(call->policy, call->policy_len, call->review, call->review_len, call->ns, call->ns_len,
                                      call->params, call->params_len, call->steps, call->reads, call->room, call->room_len,
                                      call->len);
}

static void run_compile(struct call *call) {
    call->status = celbpf_compile(call->policy, call->policy_len, call->room, call->room_len, call->len);
}

static void *on_thread(void *given) {
    struct call *call = given;
    call->run(call);
    return NULL;
}

/* Starts a thread that takes no signals; 0 if it has started. */
static int start(pthread_t *thread, struct call *call) {
    pthread_attr_t attributes;
    sigset_t all, before;
    int failed = pthread_attr_init(&attributes);
    if (failed)
        return failed;
    sigfillset(&all);
    pthread_sigmask(SIG_SETMASK, &all, &before);
    failed = pthread_attr_setstacksize(&attributes, LARGE_STACK) ||
             pthread_create(thread, &attributes, on_thread, call);
    pthread_sigmask(SIG_SETMASK, &before, NULL);
    pthread_attr_destroy(&attributes);
    return failed;
}

/* Runs a call that compiles: here if there is stack enough, and else on a thread that ends before this returns. */
static uint32_t with_stack(struct call *call) {
    pthread_t thread;
    *call->len = 0;
    if (celbpf_stack_left() >= (call->is_wide ? CELBPF_WIDE_STACK : CELBPF_NEW_STACK)) {
        call->run(call);
        return call->status;
    }
    if (start(&thread, call))
        return CELBPF_STACK;
    pthread_join(thread, NULL);
    return call->status;
}

size_t celbpf_stack_left(void) {
    pthread_attr_t attributes;
    void *low = NULL;
    size_t size = 0;
    if (pthread_getattr_np(pthread_self(), &attributes))
        return 0;
    int failed = pthread_attr_getstack(&attributes, &low, &size);
    pthread_attr_destroy(&attributes);
    uintptr_t here = (uintptr_t)__builtin_frame_address(0), end = (uintptr_t)low;
    /* a coroutine's stack is not the thread's */
    if (failed || here < end || here - end > size)
        return 0;
    return here - end;
}

/* Makes a gate by this function. */
static uint32_t make(void (*run)(struct call *), celbpf_gate *place, const void *policy, size_t policy_len, void *room,
                     size_t room_len, size_t *len) {
    size_t unused;
    struct call call = {
        .run = run, .is_wide = run == run_new_wide, .place = place, .policy = bytes(policy), .policy_len = policy ? policy_len : 0,
        .room = writable(room), .room_len = room ? room_len : 0, .len = len ? len : &unused,
    };
    *call.len = 0;
    return place ? with_stack(&call) : CELBPF_EMPTY;
}

uint32_t celbpf_gate_new_checked(celbpf_gate *place, const void *policy, size_t policy_len, void *room, size_t room_len,
                                 size_t *len) {
    return make(run_new, place, policy, policy_len, room, room_len, len);
}

uint32_t celbpf_gate_new_wide_checked(celbpf_gate *place, const void *policy, size_t policy_len, void *room, size_t room_len,
                                      size_t *len) {
    return make(run_new_wide, place, policy, policy_len, room, room_len, len);
}

uint32_t celbpf_gate_decide_checked(celbpf_gate *place, const void *review, size_t review_len, const void *ns, size_t ns_len,
                                    const void *params, size_t params_len, uint64_t steps, void *room, size_t room_len,
                                    size_t *len) {
    size_t unused;
    len = len ? len : &unused;
    *len = 0;
    if (!place)
        return CELBPF_EMPTY;
    return celbpf_gate_decide(place, bytes(review), review ? review_len : 0, bytes(ns), ns ? ns_len : 0, bytes(params),
                              params ? params_len : 0, steps, writable(room), room ? room_len : 0, len);
}

uint32_t celbpf_gate_decide_within_checked(celbpf_gate *place, const void *review, size_t review_len, const void *ns,
                                           size_t ns_len, const void *params, size_t params_len, uint64_t steps,
                                           uint64_t reads, void *room, size_t room_len, size_t *len) {
    size_t unused;
    len = len ? len : &unused;
    *len = 0;
    if (!place)
        return CELBPF_EMPTY;
    return celbpf_gate_decide_within(place, bytes(review), review ? review_len : 0, bytes(ns), ns ? ns_len : 0,
                                     bytes(params), params ? params_len : 0, steps, reads, writable(room),
                                     room ? room_len : 0, len);
}

void celbpf_gate_free_checked(celbpf_gate *place) {
    if (place)
        celbpf_gate_free(place);
}

/* Decides a review under a policy by this function. */
static uint32_t review_by(void (*run)(struct call *), const void *policy, size_t policy_len, const void *review,
                          size_t review_len, const void *ns, size_t ns_len, const void *params, size_t params_len,
                          uint64_t steps, uint64_t reads, void *room, size_t room_len, size_t *len) {
    size_t unused;
    struct call call = {
        .run = run, .is_wide = run == run_review_wide, .policy = bytes(policy), .policy_len = policy ? policy_len : 0, .review = bytes(review),
        .review_len = review ? review_len : 0, .ns = bytes(ns), .ns_len = ns ? ns_len : 0, .params = bytes(params),
        .params_len = params ? params_len : 0, .steps = steps, .reads = reads, .room = writable(room),
        .room_len = room ? room_len : 0, .len = len ? len : &unused,
    };
    return with_stack(&call);
}

uint32_t celbpf_review_checked(const void *policy, size_t policy_len, const void *review, size_t review_len, const void *ns,
                               size_t ns_len, const void *params, size_t params_len, uint64_t steps, void *room,
                               size_t room_len, size_t *len) {
    return review_by(run_review, policy, policy_len, review, review_len, ns, ns_len, params, params_len, steps, 0, room,
                     room_len, len);
}

uint32_t celbpf_review_within_checked(const void *policy, size_t policy_len, const void *review, size_t review_len,
                                      const void *ns, size_t ns_len, const void *params, size_t params_len, uint64_t steps,
                                      uint64_t reads, void *room, size_t room_len, size_t *len) {
    return review_by(run_review_within, policy, policy_len, review, review_len, ns, ns_len, params, params_len, steps, reads,
                     room, room_len, len);
}

uint32_t celbpf_review_wide_checked(const void *policy, size_t policy_len, const void *review, size_t review_len,
                                    const void *ns, size_t ns_len, const void *params, size_t params_len, uint64_t steps,
                                    uint64_t reads, void *room, size_t room_len, size_t *len) {
    return review_by(run_review_wide, policy, policy_len, review, review_len, ns, ns_len, params, params_len, steps, reads,
                     room, room_len, len);
}

uint32_t celbpf_compile_checked(const void *policy, size_t policy_len, void *room, size_t room_len, size_t *len) {
    size_t unused;
    struct call call = {
        .run = run_compile, .policy = bytes(policy), .policy_len = policy ? policy_len : 0, .room = writable(room),
        .room_len = room ? room_len : 0, .len = len ? len : &unused,
    };
    return with_stack(&call);
}
