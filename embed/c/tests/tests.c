/*
 * tests FOLDER: the policies below FOLDER, each with its reviews, through every call, in both languages; then small rooms,
 * null pointers, refusals, the wide language, threads and small stacks. Prints what is not as it is to be, and a last line; the status is 1 if anything is.
 */
#define _GNU_SOURCE
#include "files.h"
#include <celbpf.h>
#include <glob.h>
#include <pthread.h>

static int checks, wrong;
static const char *examples;

static void check(int is_right, const char *what, const char *where) {
    checks++;
    if (!is_right) {
        wrong++;
        printf("%s: %s\n", where, what);
    }
}

static int is_text(const char *room, size_t len, const char *wanted) {
    return len == strlen(wanted) && !memcmp(room, wanted, len);
}

/* ---- examples */

struct example {
    struct text policy, namespace, params, review;
    char response[1 << 16];
    size_t len;
    int is_allowed;
};

static char room[1 << 20];

/* Whether policies are read as clusters store them. The examples are decided alike. */
static int is_wide;

static uint32_t make_gate(celbpf_gate *gate, const char *at, size_t at_len, size_t *len) {
    return (is_wide ? celbpf_gate_new_wide_checked : celbpf_gate_new_checked)(gate, at, at_len, room, sizeof room, len);
}

static uint32_t decide_alone(const struct text *by, const struct text *asked, const struct text *ns,
                             const struct text *params, size_t *len) {
    if (is_wide)
        return celbpf_review_wide_checked(by->at, by->len, asked->at, asked->len, ns->at, ns->len, params->at, params->len,
                                          CELBPF_STEPS, CELBPF_READS, room, sizeof room, len);
    return celbpf_review_checked(by->at, by->len, asked->at, asked->len, ns->at, ns->len, params->at, params->len,
                                 CELBPF_STEPS, room, sizeof room, len);
}

/* What is to be in a room whose other bytes were 'x'. */
static int is_response(const struct example *of, size_t len) {
    return len == of->len && !memcmp(room, of->response, len) && room[len] == 'x';
}

static void check_decision(celbpf_gate *gate, const struct example *of, const char *name) {
    size_t len;
    uint32_t wanted = of->is_allowed ? CELBPF_ALLOWED : CELBPF_DENIED;
    memset(room, 'x', sizeof of->response);
    check(celbpf_gate_decide_checked(gate, of->review.at, of->review.len, of->namespace.at, of->namespace.len, of->params.at,
                                     of->params.len, CELBPF_STEPS, room, sizeof room, &len) == wanted,
          "status of decide", name);
    check(is_response(of, len), "response of decide", name);
    memset(room, 'x', sizeof of->response);
    check(decide_alone(&of->policy, &of->review, &of->namespace, &of->params, &len) == wanted, "status of review", name);
    check(is_response(of, len), "response of review", name);
}

static void read_response(struct example *of, const char *folder, const char *stem) {
    char name[512];
    snprintf(name, sizeof name, "%.255s.response.json", stem);
    struct text text = text_in(folder, name);
    /* without the line feed of the file */
    of->len = text.len - 1;
    memcpy(of->response, text.at, of->len);
    of->is_allowed = strstr(text.at, "\"allowed\":true") != NULL;
    free(text.at);
}

/* The document of this kind for a review, or else for all reviews of the folder. */
static struct text document(const char *folder, const char *stem, const char *kind) {
    char name[512];
    snprintf(name, sizeof name, "%.255s.%.99s.json", stem, kind);
    struct text own = text_in(folder, name);
    snprintf(name, sizeof name, "%.99s.json", kind);
    return own.at ? own : text_in(folder, name);
}

static void check_review(celbpf_gate *gate, struct example *of, const char *folder, const char *name) {
    char stem[256];
    snprintf(stem, sizeof stem, "%.255s", strrchr(name, '/') + 1);
    *strstr(stem, ".review.json") = 0;
    of->review = text_of(name);
    of->namespace = document(folder, stem, "namespace");
    of->params = document(folder, stem, "params");
    read_response(of, folder, stem);
    check_decision(gate, of, name);
    free(of->review.at);
    free(of->namespace.at);
    free(of->params.at);
}

static size_t check_folder(celbpf_gate *gate, const char *folder) {
    static struct example of;
    char pattern[4096];
    size_t len;
    glob_t found;
    of.policy = text_in(folder, "policy.json");
    check(make_gate(gate, of.policy.at, of.policy.len, &len) == CELBPF_DONE && len == 0, "new", folder);
    check(celbpf_compile_checked(of.policy.at, of.policy.len, room, sizeof room, &len) == CELBPF_DONE &&
              !memcmp(room, "CELBPF02", 8),
          "compile", folder);
    snprintf(pattern, sizeof pattern, "%s/*.review.json", folder);
    if (glob(pattern, 0, NULL, &found))
        return 0;
    for (size_t n = 0; n < found.gl_pathc; n++)
        check_review(gate, &of, folder, found.gl_pathv[n]);
    size_t count = found.gl_pathc;
    globfree(&found);
    free(of.policy.at);
    return count;
}

/* All folders through one place, so that each new gate takes the stead of the one before. */
static size_t check_examples(void) {
    celbpf_gate gate = {0};
    char pattern[4096];
    size_t count = 0;
    glob_t found;
    snprintf(pattern, sizeof pattern, "%s/*/policy.json", examples);
    if (glob(pattern, 0, NULL, &found))
        return 0;
    for (size_t n = 0; n < found.gl_pathc; n++) {
        *strrchr(found.gl_pathv[n], '/') = 0;
        count += check_folder(&gate, found.gl_pathv[n]);
    }
    globfree(&found);
    celbpf_gate_free(&gate);
    return count;
}

/* ---- the edges */

static struct text policy, review;

static uint32_t decide(celbpf_gate *gate, size_t room_len, size_t *len) {
    return celbpf_gate_decide_checked(gate, review.at, review.len, NULL, 0, NULL, 0, CELBPF_STEPS, room, room_len, len);
}

/*
 * The policy reads 28 bytes of the review: the key `spec` in a map of 4 entries, whose number has 3 binary digits, and
 * `replicas` in one of 2 entries, whose number has 2: 4 * 3 + 8 * 2.
 */
static uint32_t within(celbpf_gate *gate, uint64_t reads, size_t *len) {
    return celbpf_gate_decide_within_checked(gate, review.at, review.len, NULL, 0, NULL, 0, CELBPF_STEPS, reads, room,
                                             sizeof room, len);
}

static void check_rooms(void) {
    celbpf_gate gate = {0};
    size_t needed, len;
    check(decide(&gate, sizeof room, &len) == CELBPF_EMPTY && len == 0, "an empty place", "decide");
    check(celbpf_gate_new_checked(&gate, policy.at, policy.len, NULL, 0, NULL) == CELBPF_DONE, "no room and no length", "new");
    memset(room, 'x', sizeof room);
    check(decide(&gate, 0, &needed) == CELBPF_ROOM && needed > 0, "no room", "decide");
    check(decide(&gate, needed - 1, &len) == CELBPF_ROOM && len == needed && room[0] == 'x', "a byte too few", "decide");
    check(decide(&gate, needed, &len) == CELBPF_DENIED && len == needed && room[needed] == 'x', "just enough", "decide");
    check(celbpf_compile_checked(policy.at, policy.len, NULL, 0, &len) == CELBPF_ROOM && len > 24, "no room", "compile");
    check(celbpf_compile_checked(policy.at, policy.len, room, len, &len) == CELBPF_DONE, "just enough", "compile");
    celbpf_gate_free_checked(&gate);
    check(gate.held == NULL, "the place is empty", "free");
    celbpf_gate_free_checked(&gate);
    celbpf_gate_free_checked(NULL);
    check(decide(&gate, sizeof room, &len) == CELBPF_EMPTY && len == 0, "after free", "decide");
    check(celbpf_gate_new_checked(NULL, policy.at, policy.len, NULL, 0, NULL) == CELBPF_EMPTY, "no place", "new");
    check(celbpf_version() == CELBPF_VERSION, "the header's", "version");
}

static void check_refusals(void) {
    celbpf_gate gate = {0};
    size_t len;
    check(celbpf_gate_new_checked(&gate, NULL, 0, room, sizeof room, &len) == CELBPF_POLICY_UNREAD &&
              is_text(room, len, "celbpf: K1\n"),
          "no policy", "new");
    celbpf_gate_new_checked(&gate, policy.at, policy.len, NULL, 0, NULL);
    void *held = gate.held;
    check(celbpf_gate_new_checked(&gate, "{}", 2, room, 3, &len) == CELBPF_POLICY_UNREAD && len == 11, "a short room", "new");
    check(held && gate.held == held, "a refused policy keeps the gate", "new");
    check(celbpf_gate_decide_checked(&gate, "{", 1, NULL, 0, NULL, 0, CELBPF_STEPS, room, sizeof room, &len) ==
                  CELBPF_REVIEW_REFUSED &&
              is_text(room, len, "celbpf: N2\n"),
          "no review", "decide");
    check(celbpf_gate_decide_checked(&gate, review.at, review.len, "{", 1, NULL, 0, CELBPF_STEPS, room, sizeof room, &len) ==
                  CELBPF_DOCUMENT_REFUSED &&
              is_text(room, len, "celbpf: N3\n"),
          "no namespace", "decide");
    check(celbpf_gate_decide_checked(&gate, review.at, review.len, NULL, 0, NULL, 0, 1, room, sizeof room, &len) ==
                  CELBPF_OUT_OF_STEPS &&
              is_text(room, len, "celbpf: N4\n"),
          "one step", "decide");
    check(within(&gate, 27, &len) == CELBPF_OUT_OF_READS && is_text(room, len, "celbpf: N7\n"), "a byte too few", "decide");
    check(within(&gate, 28, &len) == CELBPF_DENIED, "just enough reads", "decide");
    check(within(NULL, 28, &len) == CELBPF_EMPTY && len == 0, "no place", "decide within");
    check(celbpf_review_within_checked(policy.at, policy.len, review.at, review.len, NULL, 0, NULL, 0, CELBPF_STEPS, 27, room,
                                       sizeof room, &len) == CELBPF_OUT_OF_READS &&
              is_text(room, len, "celbpf: N7\n"),
          "a byte too few", "review");
    check(celbpf_review_within_checked(policy.at, policy.len, review.at, review.len, NULL, 0, NULL, 0, CELBPF_STEPS, 28, room,
                                       sizeof room, &len) == CELBPF_DENIED,
          "just enough reads", "review");
    check(celbpf_review_checked("[]", 2, review.at, review.len, NULL, 0, NULL, 0, CELBPF_STEPS, room, sizeof room, &len) ==
                  CELBPF_POLICY_UNREAD &&
              is_text(room, len, "celbpf: N1 K2\n"),
          "no policy", "review");
    check(decide(&gate, sizeof room, &len) == CELBPF_DENIED, "after refusals", "decide");
    celbpf_gate_free(&gate);
}

/* ---- the wide language */

#define HEAD "{\"apiVersion\":\"admissionregistration.k8s.io/v1\",\"kind\":\"ValidatingAdmissionPolicy\",\"spec\":"

/* The status, and the line, of a policy of this specification. */
static void check_wide_refusal(const char *spec, uint32_t status, const char *line) {
    celbpf_gate gate = {0};
    char text[4096];
    size_t len;
    snprintf(text, sizeof text, HEAD "%s}", spec);
    is_wide = 1;
    check(make_gate(&gate, text, strlen(text), &len) == status && is_text(room, len, line) && !gate.held, line, "new wide");
    struct text by = {text, strlen(text)}, none = {NULL, 0};
    check(decide_alone(&by, &review, &none, &none, &len) == status && is_text(room, len, line), line, "review wide");
}

static void check_wide(void) {
    static const char optional[] = HEAD "{\"validations\":[{\"expression\":\"object.?spec.?replicas.orValue(1) <= 3\"}]}}";
    static const char message[] = "\"message\":\"failed expression: object.?spec.?replicas.orValue(1) <= 3\"";
    celbpf_gate gate = {0};
    char line[CELBPF_LINE], named[512], name[101];
    size_t len;
    check(celbpf_gate_new_checked(&gate, optional, sizeof optional - 1, room, sizeof room, &len) == CELBPF_POLICY_UNCOMPILED &&
              is_text(room, len, "celbpf: K6 validation 0 P4 at 7\n"),
          "an optional", "new");
    check(celbpf_gate_new_wide_checked(&gate, optional, sizeof optional - 1, NULL, 0, NULL) == CELBPF_DONE, "an optional",
          "new wide");
    check(decide(&gate, sizeof room, &len) == CELBPF_DENIED, "an optional", "decide");
    room[len] = 0;
    check(strstr(room, message) != NULL, "the text of the author", "decide");
    celbpf_gate_free(&gate);
    check(celbpf_gate_new_wide_checked(NULL, optional, sizeof optional - 1, NULL, 0, NULL) == CELBPF_EMPTY, "no place",
          "new wide");
    check_wide_refusal("{}", CELBPF_POLICY_UNREAD, "celbpf: K3\n");
    check_wide_refusal("{\"auditAnnotations\":[{}],\"validations\":[]}", CELBPF_POLICY_UNREAD, "celbpf: K3 auditAnnotations\n");
    check_wide_refusal("{\"validations\":[{\"expression\":\"true\"},{\"expression\":\"url('a')\"}]}", CELBPF_POLICY_UNCOMPILED,
                       "celbpf: K6 validation 1 W5 url\n");
    check_wide_refusal("{\"validations\":[{\"expression\":\"1\"}]}", CELBPF_POLICY_UNCOMPILED, "celbpf: K7\n");
    /* a line that is longer than CELBPF_LINE */
    memset(name, 'a', 100);
    name[100] = 0;
    snprintf(named, sizeof named, HEAD "{\"validations\":[{\"expression\":\"%s\"}]}}", name);
    memset(line, 'x', sizeof line);
    check(celbpf_gate_new_wide_checked(&gate, named, strlen(named), line, sizeof line, &len) == CELBPF_POLICY_UNCOMPILED &&
              len == strlen("celbpf: K6 validation 0 W5 \n") + 100 && line[0] == 'x',
          "a long name", "new wide");
}

/* ---- threads */

/* A gate that moves through threads, one at a time. */
static void *decide_once(void *gate) {
    static char own[1 << 12];
    size_t len;
    return (void *)(uintptr_t)(celbpf_gate_decide_checked(gate, review.at, review.len, NULL, 0, NULL, 0, CELBPF_STEPS, own,
                                                          sizeof own, &len) == CELBPF_DENIED);
}

static void *work(void *unused) {
    celbpf_gate gate = {0};
    char own[1 << 12];
    size_t len, done = 0;
    (void)unused;
    for (int n = 0; n < 20; n++) {
        celbpf_gate_new_checked(&gate, policy.at, policy.len, NULL, 0, NULL);
        for (int k = 0; k < 20; k++)
            done += celbpf_gate_decide_checked(&gate, review.at, review.len, NULL, 0, NULL, 0, CELBPF_STEPS, own, sizeof own,
                                               &len) == CELBPF_DENIED;
    }
    celbpf_gate_free(&gate);
    return (void *)done;
}

/* What `run` returns on a thread with this much stack. */
static void *on_thread(size_t stack, void *(*run)(void *), void *given) {
    pthread_attr_t attributes;
    pthread_t thread;
    void *result = NULL;
    pthread_attr_init(&attributes);
    pthread_attr_setstacksize(&attributes, stack);
    check(!pthread_create(&thread, &attributes, run, given), "a thread starts", "pthread_create");
    pthread_join(thread, &result);
    pthread_attr_destroy(&attributes);
    return result;
}

static void check_threads(void) {
    celbpf_gate gate = {0};
    pthread_t threads[8];
    celbpf_gate_new_checked(&gate, policy.at, policy.len, NULL, 0, NULL);
    for (int n = 0; n < 8; n++)
        check(on_thread(CELBPF_DECIDE_STACK, decide_once, &gate) != NULL, "one gate, a thread after another", "decide");
    celbpf_gate_free(&gate);
    for (int n = 0; n < 8; n++)
        pthread_create(&threads[n], NULL, work, NULL);
    for (int n = 0; n < 8; n++) {
        void *done;
        pthread_join(threads[n], &done);
        check((size_t)done == 400, "a gate each on 8 threads", "decide");
    }
}

/* ---- stacks */

/* A policy that takes much stack to read: its expression is a text, another one so often, and a last one. */
static struct text hostile_policy(const char *first, const char *part, size_t count, const char *last) {
    static const char head[] = "{\"apiVersion\":\"admissionregistration.k8s.io/v1\",\"kind\":\"ValidatingAdmissionPolicy\","
                               "\"metadata\":{\"name\":\"hostile\"},\"spec\":{\"validations\":[{\"expression\":\"";
    static const char tail[] = "\"}]}}";
    struct text made = {malloc(sizeof head + sizeof tail + 65536), 0};
    char *at = stpcpy(stpcpy(made.at, head), first);
    while (count--)
        at = stpcpy(at, part);
    made.len = stpcpy(stpcpy(at, last), tail) - made.at;
    return made;
}

typedef uint32_t new_gate(celbpf_gate *gate, const uint8_t *at, size_t n, uint8_t *line, size_t line_len, size_t *len);

/* A policy, the call that makes its gate, and the line of its refusal. */
struct hostile {
    struct text policy;
    new_gate *run;
    const char *line;
};

static uint32_t checked(celbpf_gate *gate, const uint8_t *at, size_t n, uint8_t *line, size_t line_len, size_t *len) {
    return celbpf_gate_new_checked(gate, at, n, line, line_len, len);
}

static uint32_t wide_checked(celbpf_gate *gate, const uint8_t *at, size_t n, uint8_t *line, size_t line_len, size_t *len) {
    return celbpf_gate_new_wide_checked(gate, at, n, line, line_len, len);
}

static void *is_refused(void *given) {
    struct hostile *of = given;
    celbpf_gate gate = {0};
    uint8_t line[CELBPF_LINE];
    size_t len;
    uint32_t status = of->run(&gate, (const uint8_t *)of->policy.at, of->policy.len, line, sizeof line, &len);
    celbpf_gate_free(&gate);
    return (void *)(uintptr_t)(status == CELBPF_POLICY_UNCOMPILED && is_text((char *)line, len, of->line));
}

/* The policies of either language that take most stack to read: they have too many nodes, or are too deep. */
static void check_stacks(void) {
    size_t small = (size_t)1 << 20;
    struct text negations = hostile_policy("", "!", 4095, "true"), fields = hostile_policy("object", ".a", 511, "");
    struct text deep = hostile_policy("object", ".a", 2044, ""), sums = hostile_policy("", "1+", 2045, "1 == 1");
    struct hostile all[] = {
        {negations, checked, "celbpf: G3\n"}, {fields, wide_checked, "celbpf: G3\n"},
        {deep, wide_checked, "celbpf: K6 validation 0 W10\n"}, {sums, wide_checked, "celbpf: K6 validation 0 W10\n"},
    };
    new_gate *plain[] = {celbpf_gate_new, celbpf_gate_new_wide, celbpf_gate_new_wide, celbpf_gate_new_wide};
    for (size_t n = 0; n < 4; n++) {
        check(on_thread(small, is_refused, &all[n]) != NULL, "1 MB of stack", all[n].line);
        all[n].run = plain[n];
        check(on_thread((n ? CELBPF_WIDE_STACK : CELBPF_NEW_STACK) + small, is_refused, &all[n]) != NULL, "a MB more", all[n].line);
        free(all[n].policy.at);
    }
    check(celbpf_stack_left() >= CELBPF_DECIDE_STACK, "this thread's", "celbpf_stack_left");
}

int main(int argc, char **argv) {
    char folder[4096];
    if (argc != 2)
        return 2;
    examples = argv[1];
    snprintf(folder, sizeof folder, "%s/replicas", examples);
    policy = text_in(folder, "policy.json");
    review = text_in(folder, "five.review.json");
    size_t count = 0;
    for (is_wide = 0; is_wide < 2; is_wide++)
        count += check_examples();
    check(count > 0, "there are reviews", examples);
    check_rooms();
    check_refusals();
    check_wide();
    check_threads();
    check_stacks();
    free(policy.at);
    free(review.at);
    printf("%zu reviews; %d of %d checks are not as they are to be\n", count, wrong, checks);
    return wrong > 0;
}
