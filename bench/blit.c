// Bytes a second of block transfers, beside plain C, from one run.
//
// (a) evaluates the raster code in eight terms for each byte, one at a time, as document 01 states it:
//     an operand on which the code does not depend is not read.
// (b) evaluates the same eight terms on 64-bit words, for areas that do not overlap.
// (c) is memmove, line by line, for code CCh.
// All work on the same 2,097,152 bytes of memory. Before a transfer is timed, what each way makes of the memory is
// compared with what (a) makes of it, so that nothing is timed that does something else.

#include <stdbool.h>
#include <stdint.h>
#include <stdio.h>
#include <stdlib.h>
#include <string.h>
#include <time.h>

#include "chips69000.h"

enum { MEMORY = 2097152 };

static uint8_t mem[MEMORY], kept[MEMORY], start[MEMORY];

struct transfer {
    uint32_t dst, dstspan, src, srcspan, width, height;
    uint8_t code;
    bool leftward, upward;
    uint32_t pattern, row;
};

static bool uses(uint8_t code, int bit) {
    for (int k = 0; k < 8; k++)
        if (((code >> k) & 1) != ((code >> (k ^ bit)) & 1)) return true;
    return false;
}

// For each k, all ones where bit k of the code is set.
static void masks_of(uint8_t code, uint64_t m[8]) {
    for (int k = 0; k < 8; k++) m[k] = (code >> k) & 1 ? ~(uint64_t)0 : 0;
}

#define EIGHT_TERMS(P, S, D, m)                                                                                        \
    ((~(P) & ~(S) & ~(D) & (m)[0]) | (~(P) & ~(S) & (D) & (m)[1]) | (~(P) & (S) & ~(D) & (m)[2]) |                     \
     (~(P) & (S) & (D) & (m)[3]) | ((P) & ~(S) & ~(D) & (m)[4]) | ((P) & ~(S) & (D) & (m)[5]) |                        \
     ((P) & (S) & ~(D) & (m)[6]) | ((P) & (S) & (D) & (m)[7]))

// (a)
__attribute__((noinline)) static void bytes(const struct transfer *t) {
    uint64_t wide[8];
    uint8_t m[8];
    masks_of(t->code, wide);
    for (int k = 0; k < 8; k++) m[k] = (uint8_t)wide[k];
    bool source = uses(t->code, 2), pattern = uses(t->code, 4);
    int64_t x = t->leftward ? -1 : 1, y = t->upward ? -1 : 1;
    for (int64_t r = 0; r < t->height; r++) {
        int64_t d = t->dst + y * r * t->dstspan, s = t->src + y * r * t->srcspan;
        int64_t p = t->pattern + 8 * ((t->row + y * r) & 7);
        for (int64_t c = 0; c < t->width; c++) {
            int64_t i = d + x * c;
            uint8_t P = pattern ? mem[p + (i & 7)] : 0;
            uint8_t S = source ? mem[s + x * c] : 0;
            uint8_t D = mem[i];
            mem[i] = (uint8_t)EIGHT_TERMS(P, S, D, m);
        }
    }
}

static uint64_t load(const uint8_t *at) {
    uint64_t v;
    memcpy(&v, at, 8);
    return v;
}

static void store(uint8_t *at, uint64_t v) { memcpy(at, &v, 8); }

// (b): width a multiple of 8, no overlap, so that the directions do not matter within a line.
__attribute__((noinline)) static void words(const struct transfer *t) {
    uint64_t m[8];
    masks_of(t->code, m);
    bool source = uses(t->code, 2), pattern = uses(t->code, 4);
    int64_t y = t->upward ? -1 : 1, low = t->leftward ? (int64_t)t->width - 1 : 0;
    for (int64_t r = 0; r < t->height; r++) {
        int64_t d = t->dst + y * r * t->dstspan - low, s = t->src + y * r * t->srcspan - low;
        int64_t p = t->pattern + 8 * ((t->row + y * r) & 7);
        uint64_t P = 0;
        if (pattern) {
            uint8_t turned[8];
            for (int k = 0; k < 8; k++) turned[k] = mem[p + ((d + k) & 7)];
            P = load(turned);
        }
        uint8_t *restrict to = mem + d;
        const uint8_t *restrict from = source ? mem + s : mem + d;
        uint64_t on = source ? ~(uint64_t)0 : 0;
        for (int64_t c = 0; c < t->width; c += 8) {
            uint64_t S = load(from + c) & on, D = load(to + c);
            store(to + c, EIGHT_TERMS(P, S, D, m));
        }
    }
}

// (c)
__attribute__((noinline)) static void moves(const struct transfer *t) {
    int64_t y = t->upward ? -1 : 1, low = t->leftward ? (int64_t)t->width - 1 : 0;
    for (int64_t r = 0; r < t->height; r++)
        memmove(mem + t->dst + y * r * t->dstspan - low, mem + t->src + y * r * t->srcspan - low, t->width);
}

__attribute__((noinline)) static void proved(const struct transfer *t) {
    if (chips69000_transfer(mem, MEMORY, t->dst, t->dstspan, t->src, t->srcspan, t->width, t->height, t->code, t->leftward,
                      t->upward, t->pattern, t->row) != 0) {
        fprintf(stderr, "a transfer of the benchmark was refused\n");
        exit(1);
    }
}

static double seconds(void) {
    struct timespec t;
    clock_gettime(CLOCK_MONOTONIC, &t);
    return (double)t.tv_sec + (double)t.tv_nsec * 1e-9;
}

// What is timed in turn: the proved transfer, (a), (b) and (c), each forward and backward.
enum { PROVED, BYTES, WORDS, MOVES, WAYS };

static void (*const ways[WAYS])(const struct transfer *) = {proved, bytes, words, moves};

static double timed(void (*f)(const struct transfer *), const struct transfer *t, long turns) {
    double from = seconds();
    for (long n = 0; n < turns; n++) {
        f(t);
        __asm__ volatile("" ::: "memory");
    }
    return seconds() - from;
}

// Millions of bytes a second of each way in each direction, the best of 40 rounds. In a round each runs once, for some 2 ms, so
// that whatever else the machine does falls on all of them alike.
static void measure(const struct transfer t[2], const bool on[WAYS], double best[WAYS][2]) {
    long turns[WAYS][2];
    for (int w = 0; w < WAYS; w++)
        for (int d = 0; d < 2; d++) {
            best[w][d] = 0;
            turns[w][d] = 1;
            while (on[w] && timed(ways[w], &t[d], turns[w][d]) < 2e-3) turns[w][d] *= 2;
        }
    for (int k = 0; k < 40; k++)
        for (int w = 0; w < WAYS; w++)
            for (int d = 0; d < 2 && on[w]; d++) {
                double area = (double)t[d].width * t[d].height;
                double now = area * (double)turns[w][d] / timed(ways[w], &t[d], turns[w][d]) / 1e6;
                if (now > best[w][d]) best[w][d] = now;
            }
}

// What f makes of the memory at the start is what (a) makes of it.
static void same(void (*f)(const struct transfer *), const struct transfer *t) {
    memcpy(mem, start, MEMORY);
    bytes(t);
    memcpy(kept, mem, MEMORY);
    memcpy(mem, start, MEMORY);
    f(t);
    if (memcmp(mem, kept, MEMORY) != 0) {
        fprintf(stderr, "code %02Xh: another memory than (a)'s\n", t->code);
        exit(1);
    }
}

// The same rectangle, begun at its last byte.
static struct transfer turned(struct transfer t) {
    t.dst += t.width - 1 + (t.height - 1) * t.dstspan;
    t.src += t.width - 1 + (t.height - 1) * t.srcspan;
    t.row = (t.row + t.height - 1) % 8;
    t.leftward = true;
    t.upward = true;
    return t;
}

static void row(const struct transfer t[2], bool apart, bool move) {
    bool on[WAYS] = {true, true, apart, move && t[0].code == 0xCC};
    double best[WAYS][2];
    for (int d = 0; d < 2; d++)
        for (int w = 0; w < WAYS; w++)
            if (on[w]) same(ways[w], &t[d]);
    measure(t, on, best);
    for (int d = 0; d < 2; d++) {
        printf("  %02Xh %-9s %8.0f", t[d].code, d ? "backward" : "forward", best[PROVED][d]);
        for (int w = BYTES; w < WAYS; w++)
            if (on[w])
                printf(" %8.0f %6.2f", best[w][d], best[PROVED][d] / best[w][d]);
            else
                printf(" %8s %6s", "-", "-");
        if (d) printf(" %6.2f", best[PROVED][1] / best[PROVED][0]);
        printf("\n");
    }
    fflush(stdout);
}

int main(int argc, char **argv) {
    uint8_t codes[256] = {0xCC, 0x66, 0xF0, 0x5A, 0xB8};
    size_t many = 5;
    for (int i = 1; i < argc; i++) {
        char *end;
        unsigned long code = strtoul(argv[i], &end, 16);
        if (argc > 257 || *argv[i] == 0 || *end != 0 || code > 0xFF) {
            fprintf(stderr, "%s: raster codes, 00 to FF, 256 of them at most\n", argv[i]);
            return 2;
        }
        codes[i - 1] = (uint8_t)code;
        many = (size_t)i;
    }
    // The last three overlap. Scrolled: the source is a line, or a byte, after the destination, and backward before it, so that a
    // copy is a move. Smeared: it is 64 bytes before the destination, and backward after it, so that each line reads what it
    // has written.
    static const struct {
        const char *name;
        uint32_t width, height, dst, dstspan, src, srcspan;
        bool apart, move;
    } kinds[] = {
        {"640 by 480", 640, 480, 1000003, 640, 100000, 800, true, true},
        {"8 by 16", 8, 16, 1000003, 640, 100000, 800, true, true},
        {"640 by 480, scrolled by a line", 640, 480, 1000003, 640, 1000003 + 640, 640, false, true},
        {"640 by 480, scrolled by a byte", 640, 480, 1000003, 640, 1000003 + 1, 640, false, true},
        {"640 by 480, smeared by 64 bytes", 640, 480, 1000003 + 64, 640, 1000003, 640, false, false},
    };
    uint32_t seed = 1;
    for (size_t i = 0; i < MEMORY; i++) {
        seed = seed * 1664525 + 1013904223;
        start[i] = (uint8_t)(seed >> 24);
    }
    printf("millions of bytes a second of the proved transfer and of plain C, with the ratio to each\n");
    printf("%-14s %8s %8s %6s %8s %6s %8s %6s %6s\n", "", "proved", "(a)", "/(a)", "(b)", "/(b)", "memmove", "/(c)",
           "/forw.");
    for (size_t k = 0; k < sizeof kinds / sizeof kinds[0]; k++) {
        printf("%s\n", kinds[k].name);
        for (size_t i = 0; i < many; i++) {
            struct transfer t = {kinds[k].dst, kinds[k].dstspan, kinds[k].src, kinds[k].srcspan, kinds[k].width,
                                 kinds[k].height, codes[i], false, false, 0, 3};
            struct transfer both[2] = {t, t};
            if (!kinds[k].apart) {
                both[1].dst = t.src;
                both[1].src = t.dst;
            }
            both[1] = turned(both[1]);
            row(both, kinds[k].apart, kinds[k].move);
        }
    }
    return 0;
}
