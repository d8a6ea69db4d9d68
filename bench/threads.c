// threads BOXES ROUNDS SUPERSTEPS WORKERS: the net of threads.py as one would write it by hand. Each box takes the value on its wire, makes
// ROUNDS steps of arithmetic with it, and gives it to the next box of its ring. Each superstep has two halves with a barrier behind each:
// all boxes take and compute, then all put out. Prints the seconds that the supersteps took, and the sum of the values on the wires.
#define _GNU_SOURCE
#include <pthread.h>
#include <stdint.h>
#include <stdio.h>
#include <stdlib.h>
#include <time.h>

enum { RING = 8, MOST_BOXES = 1024, LINE = 64 };

struct box {
    int64_t wire;
    int64_t result;
    char apart[LINE - 16];
};

static struct box boxes[MOST_BOXES] __attribute__((aligned(LINE)));
static long count, rounds, supersteps, workers;
static pthread_barrier_t barrier;

static int64_t computed(int64_t x) {
    for (long i = 0; i < rounds; i++) {
        x = x * 3 + 1;
        __asm__ volatile("" : "+r"(x));
    }
    return x;
}

static long next_in_ring(long box) {
    long first = box - box % RING, last = first + RING < count ? first + RING : count;
    return box + 1 < last ? box + 1 : first;
}

static void wait_for_all(void) {
    if (workers > 1) pthread_barrier_wait(&barrier);
}

static void *work(void *share) {
    long worker = (long)share, from = count * worker / workers, to = count * (worker + 1) / workers;
    for (long step = 0; step < supersteps; step++) {
        for (long i = from; i < to; i++) boxes[i].result = computed(boxes[i].wire);
        wait_for_all();
        for (long i = from; i < to; i++) boxes[next_in_ring(i)].wire = boxes[i].result;
        wait_for_all();
    }
    return NULL;
}

static double now(void) {
    struct timespec time;
    clock_gettime(CLOCK_MONOTONIC, &time);
    return time.tv_sec + time.tv_nsec * 1e-9;
}

int main(int words, char **word) {
    if (words != 5) return 1;
    count = atol(word[1]), rounds = atol(word[2]), supersteps = atol(word[3]), workers = atol(word[4]);
    if (count < 1 || count > MOST_BOXES || workers < 1 || workers > 64) return 1;
    pthread_barrier_init(&barrier, NULL, workers);
    for (long i = 0; i < count; i++) boxes[i].wire = i;
    pthread_t threads[64];
    double begun = now();
    for (long i = 1; i < workers; i++)
        if (pthread_create(&threads[i], NULL, work, (void *)i)) return 2;
    work((void *)0);
    for (long i = 1; i < workers; i++) pthread_join(threads[i], NULL);
    double took = now() - begun;
    uint64_t sum = 0;
    for (long i = 0; i < count; i++) sum += (uint64_t)boxes[i].wire;
    printf("%.9f %lu\n", took, sum);
    return 0;
}
