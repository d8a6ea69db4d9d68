/*
 * The machine of docs/CODE.md as a C programmer would write it for speed: a switch in a loop, registers in locals, and no check of any
 * kind. What the meaning asks for is there: wrapping, exceptions, places of vectors.
 *
 * `machine CODEFILE COUNT WORD..` reads what `trials code` printed and runs rule 0 so many times, each time with the words of the inputs
 * on the stack and an empty heap. It prints the instructions of all runs together, the most words that were on the stack, and the outputs
 * of the last run, each of which has to be one scalar word: objects aren't made flat here.
 *
 * The most words on the stack are an answer of the machine, so the loop keeps them. With -DWITHOUT_PEAK it doesn't, and prints none.
 */
#include <stdint.h>
#include <stdio.h>
#include <stdlib.h>
#include <string.h>

enum {
    PUSH, LOAD, MAKE, ADD, SUB, MUL, DIV, MOD, NEG, NOT, CONVERT, COMPARE, INDEX, UPDATE, JUMP, JUMP_FALSE, MATCH_WORD, MATCH_TAG,
    FIELD, SLIDE, CALL, RETURN, RAISE, FINISH
};
enum { EQ, NE, LT, LE, GT, GE };
enum { INT = 2 };
enum { DIV_ZERO, RANGE };
enum { MOST_CODE = 1 << 22, MOST_HEAP = 1 << 16, MOST_STACK = 1 << 14, MOST_PLACES = 64, MOST_INPUTS = 16 };

static uint64_t code[MOST_CODE], rules[MOST_PLACES], handlers[MOST_PLACES], inputs[MOST_INPUTS];
static uint64_t heap[MOST_HEAP], stack[1 + MOST_STACK]; /* the first word of the stack's room isn't on the stack */
static uint64_t input_count, work;
static uint64_t *peak = stack; /* the highest top word there was */

/* Keeps the top word as the highest one, if it is. */
#ifdef WITHOUT_PEAK
#define RAISE_PEAK(highest, top) ((void)0)
#else
#define RAISE_PEAK(highest, top) ((void)((highest) = (top) > (highest) ? (top) : (highest)))
#endif

/* The parts of an instruction's first word. */
static inline uint64_t kind_of(uint64_t head) { return head & 0xff; }
static inline uint64_t low_of(uint64_t head) { return head >> 8 & 0xffffff; }
static inline uint64_t high_of(uint64_t head) { return head >> 32; }
static inline int is_int(uint64_t head) { return (head >> 8 & 3) == INT; }

/* The low bits of the word as a number of the instruction's type. */
static inline uint64_t wrapped(uint64_t head, uint64_t word) {
    unsigned rest = 64 - high_of(head);
    return is_int(head) ? (uint64_t)((int64_t)(word << rest) >> rest) : word << rest >> rest;
}

/* The processor traps where the least number is divided by -1. */
static inline uint64_t quotient(uint64_t head, uint64_t left, uint64_t right) {
    if (!is_int(head)) return left / right;
    return right == (uint64_t)-1 ? -left : (uint64_t)((int64_t)left / (int64_t)right);
}

static inline uint64_t remainder_of(uint64_t head, uint64_t left, uint64_t right) {
    if (!is_int(head)) return left % right;
    return right == (uint64_t)-1 ? 0 : (uint64_t)((int64_t)left % (int64_t)right);
}

static inline int is_less(uint64_t head, uint64_t left, uint64_t right) {
    return is_int(head) ? (int64_t)left < (int64_t)right : left < right;
}

static inline int compared(uint64_t head, uint64_t left, uint64_t right) {
    switch (low_of(head) >> 2) {
    case EQ: return left == right;
    case NE: return left != right;
    case LT: return is_less(head, left, right);
    case LE: return !is_less(head, right, left);
    case GT: return is_less(head, right, left);
    case GE: return !is_less(head, left, right);
    default: __builtin_unreachable();
    }
}

/* The word to which so many field numbers lead. */
static inline uint64_t follow(const uint64_t *path, uint64_t length, uint64_t word) {
    for (; length; length--) word = heap[word + 1 + *path++];
    return word;
}

/* Runs the code from the place on, with so many words on the stack, and gives the outputs behind their count. */
static const uint64_t *run(uint64_t place, uint64_t height) {
    const uint64_t *at = code + place;
    uint64_t *top = stack + height; /* the top word */
    uint64_t *highest = peak;
    uint64_t *end = heap; /* behind the objects */
    uint64_t ran = 0;
    RAISE_PEAK(highest, top);
    for (;;) {
        uint64_t head = *at++, high = high_of(head), low = low_of(head), word;
        ran++;
        switch (kind_of(head)) {
        case PUSH:
            *++top = *at++;
            RAISE_PEAK(highest, top);
            break;
        case LOAD:
            word = *(top - high);
            *++top = word;
            RAISE_PEAK(highest, top);
            break;
        case MAKE:
            top -= low;
            end[0] = high | low << 32;
            memcpy(end + 1, top + 1, low * sizeof *end);
            *++top = end - heap;
            RAISE_PEAK(highest, top);
            end += 1 + low;
            break;
        case ADD:
            top--;
            top[0] = wrapped(head, top[0] + top[1]);
            break;
        case SUB:
            top--;
            top[0] = wrapped(head, top[0] - top[1]);
            break;
        case MUL:
            top--;
            top[0] = wrapped(head, top[0] * top[1]);
            break;
        case DIV:
            top--;
            if (!top[1]) goto raise_div_zero;
            top[0] = wrapped(head, quotient(head, top[0], top[1]));
            break;
        case MOD:
            top--;
            if (!top[1]) goto raise_div_zero;
            top[0] = wrapped(head, remainder_of(head, top[0], top[1]));
            break;
        case NEG:
            top[0] = wrapped(head, -top[0]);
            break;
        case NOT:
            top[0] = !top[0];
            break;
        case CONVERT:
            top[0] = wrapped(head, top[0]);
            break;
        case COMPARE:
            top--;
            top[0] = compared(head, top[0], top[1]);
            break;
        case INDEX:
            top--;
            if (top[1] - 1 >= high) goto raise_range;
            top[0] = heap[top[0] + top[1]];
            break;
        case UPDATE:
            top -= 2;
            if (top[1] - 1 >= high) goto raise_range;
            memcpy(end, heap + top[0], (1 + high) * sizeof *end);
            end[top[1]] = top[2];
            top[0] = end - heap;
            end += 1 + high;
            break;
        case JUMP:
            at = code + high;
            break;
        case JUMP_FALSE:
            if (!*top--) at = code + high;
            break;
        case MATCH_WORD:
            word = follow(at + 2, at[0], *(top - low));
            at = word == at[1] ? at + 2 + at[0] : code + high;
            break;
        case MATCH_TAG:
            word = heap[follow(at + 2, at[0], *(top - low))];
            at = (uint32_t)word == at[1] ? at + 2 + at[0] : code + high;
            break;
        case FIELD:
            word = follow(at, high, *(top - low));
            *++top = word;
            RAISE_PEAK(highest, top);
            at += high;
            break;
        case SLIDE:
            word = *top;
            top -= high;
            *top = word;
            break;
        case CALL:
            top[1] = at - code;
            top[2] = top - low - stack;
            top += 2;
            RAISE_PEAK(highest, top);
            at = code + high;
            break;
        case RETURN:
            word = *top;
            at = code + *(top - high - 2);
            top -= high + 2 + low;
            *top = word;
            break;
        case RAISE:
            stack[1] = low ? *top : 0;
            top = stack + 1;
            at = code + handlers[high];
            break;
        case FINISH:
            work += ran;
            peak = highest;
            top -= __builtin_popcountl(high);
            *top = __builtin_popcountl(high);
            return top;
        default:
            __builtin_unreachable();
        }
        continue;
    raise_div_zero:
        stack[1] = 0;
        top = stack + 1;
        at = code + handlers[DIV_ZERO];
        continue;
    raise_range:
        stack[1] = 0;
        top = stack + 1;
        at = code + handlers[RANGE];
    }
}

static void leave(const char *what) {
    fprintf(stderr, "machine: %s\n", what);
    exit(2);
}

/* The number behind a name. */
static uint64_t number(FILE *file, const char *name) {
    char found[16];
    unsigned long value;
    if (fscanf(file, "%15s %lu", found, &value) != 2 || strcmp(found, name)) leave(name);
    return value;
}

/* A count and so many words. */
static uint64_t words(FILE *file, const char *name, uint64_t *into, uint64_t most) {
    uint64_t count = number(file, name);
    if (count > most) leave(name);
    for (uint64_t i = 0; i < count; i++)
        if (fscanf(file, "%lu", &into[i]) != 1) leave(name);
    return count;
}

static void read_code(const char *name) {
    FILE *file = fopen(name, "r");
    if (!file) leave(name);
    words(file, "code", code, MOST_CODE);
    words(file, "rules", rules, MOST_PLACES);
    words(file, "handlers", handlers, MOST_PLACES);
    if (number(file, "heap") > MOST_HEAP) leave("heap");
    if (number(file, "stack") > MOST_STACK) leave("stack");
    number(file, "outputs");
    fclose(file);
}

/* Words that may be written as numbers below 0. */
static void read_inputs(int count, char **texts) {
    if (count > MOST_INPUTS) leave("too many inputs");
    for (input_count = 0; input_count < (uint64_t)count; input_count++) inputs[input_count] = strtoull(texts[input_count], NULL, 10);
}

int main(int count, char **names) {
    if (count < 3) leave("wants CODEFILE, COUNT and the words of the inputs");
    read_code(names[1]);
    read_inputs(count - 3, names + 3);
    const uint64_t *outputs = stack;
    for (uint64_t left = strtoul(names[2], NULL, 10); left; left--) {
        memcpy(stack + 1, inputs, input_count * sizeof *inputs);
        outputs = run(rules[0], input_count);
    }
    printf("work %lu\n", work);
#ifndef WITHOUT_PEAK
    printf("peak %td\n", peak - stack);
#endif
    for (uint64_t i = 1; i <= outputs[0]; i++) printf("%lu\n", outputs[i]);
    return 0;
}
