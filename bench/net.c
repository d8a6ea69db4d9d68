/* The generated net of bench/net.sh as a C programmer would write it: one struct a wire, two loops a superstep. Ten chains, each
   of a box that counts and nineteen boxes with a number of their own. It prints how many values each chain brought out, and their
   sum: net NUMBER STEPS. */
#include <stdint.h>
#include <stdio.h>
#include <stdlib.h>

enum { CHAINS = 10, LENGTH = 20, BOXES = CHAINS * LENGTH };

struct wire {
    int full;
    int64_t value;
};

/* along[i] leads from box i to the next one or out of its chain, back[i] from box i to itself. */
static struct wire along[BOXES], back[BOXES];
static int pending[BOXES];
static int64_t along_next[BOXES], back_next[BOXES];
static int64_t count[CHAINS], sum[CHAINS];

static void execute(int i) {
    int j = i % LENGTH;
    if (pending[i] || !back[i].full)
        return;
    int64_t s = back[i].value;
    if (j == 0) {
        along_next[i] = s;
        back_next[i] = s + 1;
    } else {
        if (!along[i - 1].full)
            return;
        int64_t x = along[i - 1].value;
        along[i - 1].full = 0;
        along_next[i] = j % 4 == 0 || j % 4 == 2 ? x + s : x - s;
        back_next[i] = s + (j % 4 == 0 || j % 4 == 2 ? 1 : 2);
    }
    back[i].full = 0;
    pending[i] = 1;
}

static void take(int chain) {
    struct wire *w = &along[chain * LENGTH + LENGTH - 1];
    if (!w->full)
        return;
    w->full = 0;
    count[chain]++;
    sum[chain] += w->value;
}

static void assert_outputs(int i) {
    if (!pending[i] || along[i].full || back[i].full)
        return;
    along[i].full = back[i].full = 1;
    along[i].value = along_next[i];
    back[i].value = back_next[i];
    pending[i] = 0;
}

int main(int argc, char **argv) {
    if (argc != 3)
        return 1;
    int64_t number = atoll(argv[1]), steps = atoll(argv[2]);
    for (int i = 0; i < BOXES; i++) {
        back[i].full = 1;
        back[i].value = i % LENGTH == 0 ? 0 : number + 31 * (i / LENGTH) + 17 * (i % LENGTH);
    }
    for (int64_t k = 0; k < steps; k++) {
        for (int i = 0; i < BOXES; i++)
            execute(i);
        for (int c = 0; c < CHAINS; c++)
            take(c);
        for (int i = 0; i < BOXES; i++)
            assert_outputs(i);
    }
    for (int c = 0; c < CHAINS; c++)
        printf("chain %d count %lld sum %lld\n", c, (long long)count[c], (long long)sum[c]);
    return 0;
}
