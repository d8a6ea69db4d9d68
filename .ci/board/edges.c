/* Asks the functions of edges.h about objects at the edges of their types, and prints each answer that is wrong. Constructors are numbered
   in the order of edges.hume. */
#include <stdbool.h>
#include <stdint.h>
#include <stdio.h>
#include "edges.h"

static int wrong;

static void judge(bool found, bool wanted, const char *asked)
{
    if (found != wanted) {
        printf("%s: %s\n", asked, found ? "true" : "false");
        wrong++;
    }
}

#define YES(stream, type, ...) judge(edges_valid_##stream(&(type){__VA_ARGS__}), true, #stream " " #__VA_ARGS__)
#define NO(stream, type, ...) judge(edges_valid_##stream(&(type){__VA_ARGS__}), false, #stream " " #__VA_ARGS__)

/* The hooks, which nobody calls here. */
#define READS(stream, type) bool edges_read_##stream(type *value) { (void)value; return false; }
#define WRITES(stream) void edges_write_##stream(bool value) { (void)value; }

READS(small, uint8_t)
READS(full, uint8_t)
READS(more, uint64_t)
READS(low, int8_t)
READS(far, int64_t)
READS(signs, int64_t)
READS(truth, bool)
READS(letter, uint8_t)
READS(colour, T_Colour)
READS(alone, T_Alone)
READS(request, T_Request)
READS(point, T_Point)
READS(maybe, T_Maybe)
READS(deep, T_Deep)
READS(whole, T_Whole)
READS(both, Tuple3)
READS(row, Vector4)
READS(pairs, Vector6)
READS(grid, Vector8)
WRITES(sink_numbers)
WRITES(sink_scalars)
WRITES(sink_structs)

static void ask_numbers(void)
{
    YES(small, uint8_t, 0);
    YES(small, uint8_t, 7);
    NO(small, uint8_t, 8);
    NO(small, uint8_t, 255);
    YES(more, uint64_t, UINT64_C(9223372036854775807));
    NO(more, uint64_t, UINT64_C(9223372036854775808));
    NO(more, uint64_t, UINT64_MAX);
    YES(low, int8_t, 0);
    YES(low, int8_t, -16);
    YES(low, int8_t, 15);
    NO(low, int8_t, -17);
    NO(low, int8_t, 16);
    NO(low, int8_t, INT8_MIN);
    NO(low, int8_t, INT8_MAX);
    YES(far, int64_t, -INT64_C(4294967296));
    YES(far, int64_t, INT64_C(4294967295));
    NO(far, int64_t, -INT64_C(4294967297));
    NO(far, int64_t, INT64_C(4294967296));
    NO(far, int64_t, INT64_MIN);
    NO(far, int64_t, INT64_MAX);
}

static void ask_scalars(void)
{
    NO(letter, uint8_t, 0);
    NO(letter, uint8_t, 8);
    YES(letter, uint8_t, 9);
    YES(letter, uint8_t, 10);
    NO(letter, uint8_t, 11);
    NO(letter, uint8_t, 13);
    NO(letter, uint8_t, 31);
    YES(letter, uint8_t, 32);
    YES(letter, uint8_t, 126);
    NO(letter, uint8_t, 127);
    NO(letter, uint8_t, 255);
    YES(colour, T_Colour, 0);
    YES(colour, T_Colour, 2);
    NO(colour, T_Colour, 3);
    NO(colour, T_Colour, 255);
    YES(alone, T_Alone, 0);
    NO(alone, T_Alone, 1);
}

static void ask_data(void)
{
    YES(request, T_Request, .tag = 0);
    YES(request, T_Request, .tag = 0, .u.c_Want.f0 = 255);
    YES(request, T_Request, .tag = 1, .u.c_Want.f0 = 7);
    NO(request, T_Request, .tag = 1, .u.c_Want.f0 = 8);
    YES(request, T_Request, .tag = 2, .u.c_Pair = {255, -16});
    NO(request, T_Request, .tag = 2, .u.c_Pair = {0, -17});
    NO(request, T_Request, .tag = 2, .u.c_Pair = {0, 16});
    YES(request, T_Request, .tag = 3, .u.c_Letters = {10, true});
    NO(request, T_Request, .tag = 3, .u.c_Letters = {127, true});
    YES(request, T_Request, .tag = 4, .u.c_Full.f0 = 65535);
    NO(request, T_Request, .tag = 5);
    NO(request, T_Request, .tag = 255);
    YES(point, T_Point, 15, -128);
    NO(point, T_Point, 16, 127);
    YES(maybe, T_Maybe, .tag = 0);
    YES(maybe, T_Maybe, .tag = 1, .u.c_Just.f0 = 255);
    NO(maybe, T_Maybe, .tag = 2);
}

static void ask_made(void)
{
    YES(both, Tuple3, 255, 1023);
    NO(both, Tuple3, 0, 1024);
    YES(row, Vector4, {127, 127, 127, 127});
    NO(row, Vector4, {128, 0, 0, 0});
    NO(row, Vector4, {0, 0, 0, 128});
    YES(grid, Vector8, {{{2, 0}}, {{0, 2}}});
    NO(grid, Vector8, {{{0, 3}}, {{0, 0}}});
    NO(grid, Vector8, {{{0, 0}}, {{3, 0}}});
    YES(deep, T_Deep, {.tag = 1, .u.c_Want.f0 = 7}, {1, {{-2048, 0, 2047}}});
    NO(deep, T_Deep, {.tag = 1, .u.c_Want.f0 = 8}, {1, {{-2048, 0, 2047}}});
    NO(deep, T_Deep, {.tag = 5}, {1, {{-2048, 0, 2047}}});
    NO(deep, T_Deep, {.tag = 0}, {2, {{-2048, 0, 2047}}});
    NO(deep, T_Deep, {.tag = 0}, {1, {{-2049, 0, 2047}}});
    NO(deep, T_Deep, {.tag = 0}, {1, {{-2048, 0, 2048}}});
}

int main(void)
{
    ask_numbers();
    ask_scalars();
    ask_data();
    ask_made();
    return wrong == 0 ? 0 : 1;
}
