/*
 * benchmark POLICY REVIEW SECONDS THREADS: decisions a second in this process, with a gate a thread, and how long a gate
 * takes to make. The processor's time tells more than the clock's if other processes are busy.
 */
#define _GNU_SOURCE
#include "files.h"
#include <celbpf.h>
#include <pthread.h>
#include <sys/resource.h>
#include <time.h>

static struct text policy, review;
static double seconds;

static double now(void) {
    struct timespec at;
    clock_gettime(CLOCK_MONOTONIC, &at);
    return (double)at.tv_sec + (double)at.tv_nsec / 1e9;
}

/* The processor's time of this process. */
static double spent(void) {
    struct rusage used;
    getrusage(RUSAGE_SELF, &used);
    return (double)(used.ru_utime.tv_sec + used.ru_stime.tv_sec) + (double)(used.ru_utime.tv_usec + used.ru_stime.tv_usec) / 1e6;
}

static void *work(void *unused) {
    celbpf_gate gate = {0};
    static _Thread_local char room[1 << 16];
    size_t len, done = 0;
    (void)unused;
    if (celbpf_gate_new_checked(&gate, policy.at, policy.len, NULL, 0, NULL) != CELBPF_DONE)
        exit(1);
    for (double end = now() + seconds; now() < end; done++)
        if (celbpf_gate_decide_checked(&gate, review.at, review.len, NULL, 0, NULL, 0, CELBPF_STEPS, room, sizeof room, &len) >
            CELBPF_DENIED)
            exit(1);
    celbpf_gate_free(&gate);
    return (void *)done;
}

static void measure_new(void) {
    celbpf_gate gate = {0};
    size_t made = 0;
    double began = now(), before = spent();
    for (; now() < began + 0.5; made++)
        if (celbpf_gate_new(&gate, (const uint8_t *)policy.at, policy.len, (uint8_t *)"", 0, &(size_t){0}) != CELBPF_DONE)
            exit(1);
    printf("a gate is made in %.4f ms of a processor\n", (spent() - before) * 1e3 / (double)made);
    celbpf_gate_free(&gate);
}

int main(int argc, char **argv) {
    pthread_t threads[64];
    size_t all = 0;
    if (argc != 5 || atoi(argv[4]) < 1 || atoi(argv[4]) > 64)
        return 2;
    policy = text_of(argv[1]);
    review = text_of(argv[2]);
    seconds = atof(argv[3]);
    int count = atoi(argv[4]);
    measure_new();
    double began = now(), before = spent();
    for (int n = 0; n < count; n++)
        pthread_create(&threads[n], NULL, work, NULL);
    for (int n = 0; n < count; n++) {
        void *done;
        pthread_join(threads[n], &done);
        all += (size_t)done;
    }
    double took = now() - began;
    printf("%.0f decisions a second on %d threads, %.4f ms of a processor each\n", (double)all / took, count,
           (spent() - before) * 1e3 / (double)all);
    free(policy.at);
    free(review.at);
}
