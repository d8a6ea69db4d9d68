/* The world of a controller. Each input stream takes its values from an array, again and again, and the numbers that come out are
   summed; the program prints nanoseconds a superstep. Compiled with PRINTS each array is taken once, and each number that comes out is
   printed with its stream and superstep. The file CONTROLLER is the C file, and VALUES_stream the values of an input. */
#include <stdbool.h>
#include <stdint.h>
#include <stdio.h>
#include <stdlib.h>
#include <time.h>
#include "values.h"
#include CONTROLLER

static long superstep;
static uint64_t sum_of_outputs;

#ifdef PRINTS
#define AT_END return false
#define TAKE(stream, number) printf(#stream " %ld %lu\n", superstep, (unsigned long)(number))
#else
#define AT_END next = 0
#define TAKE(stream, number) sum_of_outputs += (number)
#endif

#define INPUT(name, stream, type)                                 \
    bool name##_read_##stream(type *value)                        \
    {                                                             \
        static const type values[] = {VALUES_##stream};           \
        static unsigned next;                                     \
        if (next == sizeof values / sizeof values[0]) {           \
            AT_END;                                               \
        }                                                         \
        *value = values[next++];                                  \
        return true;                                              \
    }

#define OUTPUT(name, stream, type, number)                        \
    void name##_write_##stream(type value)                        \
    {                                                             \
        TAKE(stream, number);                                     \
    }

/* The superstep is called through a pointer, as a timer calls it: no compiler puts it into the loop. */
#define WORLD(name)                                               \
    static void (*volatile step)(void) = name##_step;             \
    int main(int argc, char **argv)                               \
    {                                                             \
        const long steps = argc > 1 ? atol(argv[1]) : 0;          \
        clock_t begun;                                            \
        name##_init();                                            \
        begun = clock();                                          \
        for (superstep = 0; superstep < steps; superstep++) {     \
            step();                                               \
        }                                                         \
        if (sum_of_outputs != 0) {                                           \
            printf("%.1f\n", (double)(clock() - begun) * 1e9 / CLOCKS_PER_SEC / (double)steps); \
        }                                                         \
        return 0;                                                 \
    }
