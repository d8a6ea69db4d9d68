/* The world of the net of bench/net.sh: it counts and sums what each of the ten chains brings out, and prints that as net.c does. */
#include <inttypes.h>
#include <stdio.h>
#include <stdlib.h>
#include CONTROLLER

static int64_t count[10], sum[10];

#define CHAIN(k)                            \
    void net_write_c##k(int64_t value)      \
    {                                       \
        count[k]++;                         \
        sum[k] += value;                    \
    }
CHAIN(0)
CHAIN(1)
CHAIN(2)
CHAIN(3)
CHAIN(4)
CHAIN(5)
CHAIN(6)
CHAIN(7)
CHAIN(8)
CHAIN(9)

int main(int argc, char **argv)
{
    const int64_t steps = argc > 1 ? atoll(argv[1]) : 0;
    net_init();
    for (int64_t k = 0; k < steps; k++) {
        net_step();
    }
    for (int k = 0; k < 10; k++) {
        printf("chain %d count %" PRId64 " sum %" PRId64 "\n", k, count[k], sum[k]);
    }
    return 0;
}
