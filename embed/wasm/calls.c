/*
 * calls.c: the exports of a WebAssembly module of celbpf, which call the proved functions. After a call that trapped
 * the module's memory may be in any state, so each later call traps too: take a new instance. Trusted, not proved.
 *
 * A document is an address and a count of bytes; one of no bytes is absent. A call writes its text to `room`, at most
 * `size` bytes, and the text's length to `len`. It returns a status: 8 means that the room is too small.
 */
typedef unsigned long u64;
typedef unsigned int u32;
typedef unsigned char u8;

#define IN(name) const u8 *name, u64 name##_len
#define OUT u8 *room, u64 size, u64 *len
#define EXPORT(name) __attribute__((export_name(name)))

u32 celbpf_page_review(IN(policy), IN(review), IN(namespace), IN(params), u64 steps, u64 reads, OUT);
u32 celbpf_page_translate(IN(policy), OUT);
u32 celbpf_page_compile(IN(policy), OUT);
u32 celbpf_page_list(IN(image), OUT);
u32 celbpf_page_debug(IN(image), IN(review), IN(namespace), IN(params), IN(commands), OUT);
u32 celbpf_page_version(void);

static _Bool in_call;

/* A call that trapped has not ended. */
static void begin(void) {
    if (in_call) __builtin_trap();
    in_call = 1;
}

static u32 ended(u32 status) {
    in_call = 0;
    return status;
}

EXPORT("celbpf_page_review")
u32 review(IN(policy), IN(review), IN(namespace), IN(params), u64 steps, u64 reads, OUT) {
    begin();
    return ended(celbpf_page_review(policy, policy_len, review, review_len, namespace, namespace_len, params, params_len, steps,
                                    reads, room, size, len));
}

EXPORT("celbpf_page_translate")
u32 translate(IN(policy), OUT) {
    begin();
    return ended(celbpf_page_translate(policy, policy_len, room, size, len));
}

EXPORT("celbpf_page_compile")
u32 compile(IN(policy), OUT) {
    begin();
    return ended(celbpf_page_compile(policy, policy_len, room, size, len));
}

EXPORT("celbpf_page_list")
u32 list(IN(image), OUT) {
    begin();
    return ended(celbpf_page_list(image, image_len, room, size, len));
}

EXPORT("celbpf_page_debug")
u32 debug(IN(image), IN(review), IN(namespace), IN(params), IN(commands), OUT) {
    begin();
    return ended(celbpf_page_debug(image, image_len, review, review_len, namespace, namespace_len, params, params_len, commands,
                                   commands_len, room, size, len));
}

EXPORT("celbpf_page_version")
u32 version(void) { return celbpf_page_version(); }
