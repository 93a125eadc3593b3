/*
 * example POLICY REVIEW: prints the response to a review under a policy, which is read as clusters store it. Its status is
 * that of `celbpf review`.
 */
#include <celbpf.h>
#include <stdio.h>

static char policy[1 << 20], review[1 << 24], response[1 << 20];

static size_t read_file(const char *name, char *at, size_t size) {
    FILE *file = fopen(name, "rb");
    size_t n = file ? fread(at, 1, size, file) : 0;
    if (file)
        fclose(file);
    return n;
}

int main(int argc, char **argv) {
    if (argc != 3)
        return 2;
    celbpf_gate gate = {0};
    size_t len;
    size_t policy_len = read_file(argv[1], policy, sizeof policy), review_len = read_file(argv[2], review, sizeof review);
    uint32_t status = celbpf_gate_new_wide_checked(&gate, policy, policy_len, response, sizeof response, &len);
    if (status == CELBPF_DONE)
        status = celbpf_gate_decide_within_checked(&gate, review, review_len, NULL, 0, NULL, 0, CELBPF_STEPS, CELBPF_READS,
                                                   response, sizeof response, &len);
    celbpf_gate_free_checked(&gate);
    if (status == CELBPF_ROOM)
        fprintf(stderr, "the response has %zu bytes\n", len);
    else if (status > CELBPF_DENIED)
        fprintf(stderr, "%.*s", (int)len, response);
    if (status > CELBPF_DENIED)
        return 3;
    printf("%.*s\n", (int)len, response);
    return (int)status;
}
