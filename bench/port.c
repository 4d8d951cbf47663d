// Nanoseconds a port access, through the library and on a plain C model, from one run; and commands and scripts a second.
//
// The C model is a struct with a field to each part of the state and one switch on the port, with the writable bits in a table,
// as emulators write it; it is compiled with -O3 and called as a function of its own, as the library is, and a write returns the
// register's byte before and after as the library's does. Both work through the same list of accesses: registers of the groups
// with an index port and a data port written and read, the palette loaded and read back, and now and then any port from 3B0h to
// 3DFh, those of the attribute registers and unlisted ones among them. Before anything is timed, the two are compared access by
// access, over that list and over one in which the attribute registers are frequent. A time is the best of several turns, the two
// taking turns, so that the ratio is of one moment of one machine. Of the commands run, as many have to change a register or a
// colour as on the model. A script's plain list and its short one (document 02, P8) have to leave the same state.

#include <stdbool.h>
#include <stddef.h>
#include <stdint.h>
#include <stdio.h>
#include <stdlib.h>
#include <string.h>
#include <time.h>

#include "chips69000.h"

enum { CR, SR, GR, XR, FR, MR, AR, GROUPS };

static const struct {
    int group, index, writable, reset;
} rows[] = {
#include "rows.h"
};

// from those rows; AR00 to AR14 are chapter 12's, which gives no reset, so that is 00h
static uint8_t writable[GROUPS][256] = {
    [AR] = {[0x00 ... 0x0F] = 0x3F, [0x10] = 0xEF, [0x11] = 0xFF, [0x12] = 0x3F, [0x13] = 0x0F, [0x14] = 0x0F},
};

// ---- the plain model

struct chip {
    uint8_t cr[256], sr[256], gr[256], xr[256], fr[256], mr[256], ar[32];
    uint8_t cr_index, sr_index, gr_index, xr_index, fr_index, mr_index, ar_index;
    uint8_t msr, palmask;
    struct {
        uint8_t part[3];
    } palette[256];
    uint8_t index, position, held[2];
    bool reading;
    bool turn, picture; // 3C0h takes data next; bit 5 of the attribute index, of which ar_index is the low five
};

static void reset(struct chip *c, uint8_t first, uint8_t second) {
    memset(c, 0, sizeof *c);
    uint8_t *tables[GROUPS] = {c->cr, c->sr, c->gr, c->xr, c->fr, c->mr, c->ar};
    for (size_t k = 0; k < sizeof rows / sizeof *rows; k++) {
        writable[rows[k].group][rows[k].index] = (uint8_t)rows[k].writable;
        tables[rows[k].group][rows[k].index] = (uint8_t)rows[k].reset;
    }
    c->xr[0x08] = first & 0x02;
    c->xr[0x70] = first | 0x01;
    c->xr[0x71] = second;
}

// 256 times the register's byte before, plus its byte after; where no register receives the byte, NONE
enum { NONE = 0xFFFF };

static inline uint32_t store(uint8_t *byte, uint8_t value, uint8_t mask) {
    uint8_t before = *byte, after = (uint8_t)((before & ~mask) | (value & mask));
    *byte = after;
    return (uint32_t)before << 8 | after;
}

static inline void move_on(struct chip *c) {
    if (c->position == 2) {
        c->position = 0;
        c->index++;
    } else {
        c->position++;
    }
}

// the number in bits 24 to 31, and those two bytes
__attribute__((noinline)) static uint32_t port_write(struct chip *c, uint16_t port, uint8_t v) {
    if (!(c->xr[0x70] & 2)) return 2u << 24 | NONE;
    switch (port) {
    case 0x3B4:
    case 0x3D4:
        if ((port == 0x3D4) == (c->msr & 1)) c->cr_index = v;
        return NONE;
    case 0x3B5:
    case 0x3D5: {
        if ((port == 0x3D5) != (c->msr & 1)) return NONE;
        uint8_t i = c->cr_index, mask = writable[CR][i];
        if (i < 8 && (c->cr[0x11] & 0x80)) mask &= i == 7 ? 0x10 : 0x00;
        return store(&c->cr[i], v, mask);
    }
    case 0x3C0:
        c->turn = !c->turn;
        if (c->turn) {
            c->ar_index = v & 0x1F;
            c->picture = v & 0x20;
            return NONE;
        }
        return store(&c->ar[c->ar_index], v, c->picture && c->ar_index <= 0x0F ? 0x00 : writable[AR][c->ar_index]);
    case 0x3C2: return store(&c->msr, v, 0xEF);
    case 0x3C4: c->sr_index = v & 0x07; return NONE;
    case 0x3C5: return store(&c->sr[c->sr_index], v, writable[SR][c->sr_index]);
    case 0x3C6: return store(&c->palmask, v, 0xFF);
    case 0x3C7:
    case 0x3C8:
        c->index = v;
        c->position = 0;
        c->reading = port == 0x3C7;
        return NONE;
    case 0x3C9:
        if (c->position == 2) {
            uint8_t mask = c->xr[0x80] & 0x80 ? 0xFF : 0x3F;
            c->palette[c->index].part[0] = c->held[0] & mask;
            c->palette[c->index].part[1] = c->held[1] & mask;
            c->palette[c->index].part[2] = v & mask;
        } else {
            c->held[c->position] = v;
        }
        move_on(c);
        return NONE;
    case 0x3CE: c->gr_index = v & 0x0F; return NONE;
    case 0x3CF: return store(&c->gr[c->gr_index], v, writable[GR][c->gr_index]);
    case 0x3D0: c->fr_index = v; return NONE;
    case 0x3D1: return store(&c->fr[c->fr_index], v, writable[FR][c->fr_index]);
    case 0x3D2: c->mr_index = v; return NONE;
    case 0x3D3: return store(&c->mr[c->mr_index], v, writable[MR][c->mr_index]);
    case 0x3D6: c->xr_index = v; return NONE;
    case 0x3D7: return store(&c->xr[c->xr_index], v, writable[XR][c->xr_index]);
    default: return 1u << 24 | NONE;
    }
}

// 256 times the number, plus the byte
__attribute__((noinline)) static uint16_t port_read(struct chip *c, uint16_t port) {
    if (!(c->xr[0x70] & 2)) return 0x2FF;
    switch (port) {
    case 0x3B4:
    case 0x3D4: return (port == 0x3D4) == (c->msr & 1) ? c->cr_index : 0xFF;
    case 0x3B5:
    case 0x3D5: return (port == 0x3D5) == (c->msr & 1) ? c->cr[c->cr_index] : 0xFF;
    case 0x3BA:
    case 0x3DA:
        if ((port == 0x3DA) != (c->msr & 1)) return 0xFF;
        c->turn = false;
        return 0x00;
    case 0x3C0: return c->ar_index | (c->picture ? 0x20 : 0x00);
    case 0x3C1: return c->ar[c->ar_index];
    case 0x3C4: return c->sr_index;
    case 0x3C5: return c->sr[c->sr_index];
    case 0x3C6: return c->palmask;
    case 0x3C7: return c->reading ? 3 : 0;
    case 0x3C8: return c->index;
    case 0x3C9: {
        uint8_t v = c->palette[c->index].part[c->position] & (c->xr[0x80] & 0x80 ? 0xFF : 0x3F);
        move_on(c);
        return v;
    }
    case 0x3CC: return c->msr;
    case 0x3CE: return c->gr_index;
    case 0x3CF: return c->gr[c->gr_index];
    case 0x3D0: return c->fr_index;
    case 0x3D1: return c->fr[c->fr_index];
    case 0x3D2: return c->mr_index;
    case 0x3D3: return c->mr[c->mr_index];
    case 0x3D6: return c->xr_index;
    case 0x3D7: return c->xr[c->xr_index];
    default: return 0x1FF;
    }
}

// ---- the accesses

struct access {
    uint16_t port;
    uint8_t value;
    bool write;
};

enum { COUNT = 1 << 14 };
static struct access list[COUNT + 8];

static uint64_t seed = 69000;

static uint32_t drawn(uint32_t below) {
    seed ^= seed << 13;
    seed ^= seed >> 7;
    seed ^= seed << 17;
    return (uint32_t)(seed >> 32) % below;
}

static int put(int n, uint16_t port, bool write) {
    list[n] = (struct access){port, (uint8_t)drawn(256), write};
    return n + 1;
}

static void fill(void) {
    static const uint16_t index[] = {0x3B4, 0x3D4, 0x3C4, 0x3CE, 0x3D6, 0x3D0, 0x3D2};
    for (int n = 0; n < COUNT;) {
        uint32_t kind = drawn(16);
        if (kind < 11) { // a register: its index, then its data, written or read
            uint16_t port = index[drawn(7)];
            n = put(n, port, true);
            n = put(n, port + 1, kind < 6);
        } else if (kind < 13) { // a colour
            n = put(n, 0x3C8, true);
            for (int k = 0; k < 3; k++) n = put(n, 0x3C9, true);
        } else if (kind < 14) {
            n = put(n, 0x3C7, true);
            for (int k = 0; k < 3; k++) n = put(n, 0x3C9, false);
        } else if (kind < 15) { // MSR, PALMASK, and what 3C7h and 3C8h read
            static const struct access one[] = {{0x3C2, 0, true}, {0x3CC, 0, false}, {0x3C6, 0, true}, {0x3C7, 0, false}, {0x3C8, 0, false}};
            uint32_t k = drawn(5);
            n = put(n, one[k].port, one[k].write);
        } else {
            n = put(n, (uint16_t)(0x3B0 + drawn(48)), drawn(2));
        }
    }
}

// ---- the two ways

static struct chip plain;
static uint8_t state[CHIPS69000_STATE_SIZE];

static bool agree(struct access a) {
    uint32_t x = a.write ? chips69000_port_write(state, sizeof state, a.port, a.value) : chips69000_port_read(state, sizeof state, a.port);
    uint32_t y = a.write ? port_write(&plain, a.port, a.value) : port_read(&plain, a.port);
    if (x != y) printf("%s %03X differs: %08X and %08X\n", a.write ? "OUT" : "IN", a.port, x, y);
    return x == y;
}

// whether a register or a colour of the model differs
static bool differs(const struct chip *x, const struct chip *y) {
    return memcmp(x, y, offsetof(struct chip, cr_index)) || x->msr != y->msr || x->palmask != y->palmask ||
           memcmp(x->palette, y->palette, sizeof x->palette);
}

// a port of the attribute registers, in either direction; MSR, which picks the port of input status 1, and XR09, which does
// nothing to the turn; or any port
static struct access attribute(void) {
    static const uint16_t port[] = {0x3C0, 0x3C0, 0x3C0, 0x3C0, 0x3C1, 0x3C1, 0x3BA, 0x3DA, 0x3C2, 0x3D6, 0x3D7};
    uint32_t k = drawn(12);
    uint8_t value = (uint8_t)drawn(256);
    uint16_t p = k < 11 ? port[k] : (uint16_t)(0x3B0 + drawn(48));
    return (struct access){p, p == 0x3D6 ? 0x09 : value, drawn(3) > 0};
}

static uint32_t by_library(void) {
    uint32_t sum = 0;
    for (int k = 0; k < COUNT; k++)
        sum += list[k].write ? chips69000_port_write(state, sizeof state, list[k].port, list[k].value)
                             : chips69000_port_read(state, sizeof state, list[k].port);
    return sum;
}

static uint32_t by_model(void) {
    uint32_t sum = 0;
    for (int k = 0; k < COUNT; k++)
        sum += list[k].write ? port_write(&plain, list[k].port, list[k].value) : port_read(&plain, list[k].port);
    return sum;
}

static double now(void) {
    struct timespec t;
    clock_gettime(CLOCK_MONOTONIC, &t);
    return (double)t.tv_sec * 1e9 + (double)t.tv_nsec;
}

static uint32_t kept;

static double timed(uint32_t (*way)(void), int turns) {
    double began = now();
    for (int k = 0; k < turns; k++) kept += way();
    return (now() - began) / turns / COUNT;
}

// ---- scripts

enum { STEPS = 1008, BLOCKS = 12 };
static uint8_t steps[6 * STEPS], file[512 * BLOCKS], room[32 * STEPS];

static uint8_t checked(void) {
    size_t value;
    return chips69000_check_script(file, sizeof file, &value);
}

static uint8_t translated(void) {
    size_t value;
    return chips69000_translate_script(file, sizeof file, room, sizeof room, &value);
}

static uint8_t shortened(void) {
    size_t value;
    return chips69000_translate_short(file, sizeof file, room, sizeof room, &value);
}

static uint8_t played(void) {
    size_t count, value, changing;
    return chips69000_play(state, sizeof state, file, sizeof file, room, sizeof room, &count, &value, &changing);
}

enum { CHECKED, TRANSLATED, SHORTENED, PLAYED, WAYS };
static const struct {
    const char *name;
    uint8_t (*way)(void);
} ways[WAYS] = {{"checked", checked}, {"translated", translated}, {"translated short", shortened}, {"played", played}};

// a register of a group, with a writable bit: a step on another is refused; where it keeps, seven times of eight the one before
static uint8_t some_index(uint8_t group, bool keep) {
    static uint8_t before[9];
    if (group == 6 || group == 7 || (keep && drawn(8))) return before[group];
    do before[group] = (uint8_t)drawn(group == 8 ? 0x15 : 256);
    while (group < 6 && !writable[group][before[group]]);
    return before[group];
}

// the commands that the room has been filled with, run on a state after a reset: how many there are, or 0
static size_t ran(size_t commands, uint8_t *after) {
    size_t count, place, changing;
    chips69000_reset(after, CHIPS69000_STATE_SIZE, 0xFF, 0x00);
    return chips69000_run(after, CHIPS69000_STATE_SIZE, room, 4 * commands, SIZE_MAX, &count, &place, &changing) ? 0 : count;
}

// the longest script there is, of steps of every kind and group, whose two lists have to leave one state: how often a second it
// is checked, translated, translated short and played, taking turns of 100 times
static int scripts(const char *which, bool keep) {
    static uint8_t long_way[CHIPS69000_STATE_SIZE], short_way[CHIPS69000_STATE_SIZE];
    size_t blocks, plain_value, short_value;
    for (int k = 0; k < STEPS; k++) {
        uint8_t kind = (uint8_t)(1 + drawn(3)), group = (uint8_t)drawn(9), mask = (uint8_t)drawn(256), value = (uint8_t)drawn(256);
        uint8_t index = some_index(group, keep && k >= STEPS / 8);
        uint8_t set[] = {1, group, index, value, 0, 0}, field[] = {2, group, index, value & mask, mask, 0};
        uint8_t colour[] = {3, index, value, mask, group, 0};
        memcpy(steps + 6 * k, kind == 1 ? set : kind == 2 ? field : colour, 6);
    }
    if (chips69000_write_script(steps, sizeof steps, file, sizeof file, &blocks) || blocks != BLOCKS) return 1;
    chips69000_reset(state, sizeof state, 0xFF, 0x00);
    if (chips69000_translate_script(file, sizeof file, room, sizeof room, &plain_value)) return 1;
    size_t plain_count = ran(plain_value, long_way);
    if (chips69000_translate_short(file, sizeof file, room, sizeof room, &short_value)) return 1;
    size_t short_count = ran(short_value, short_way);
    if (plain_count != plain_value || short_count != short_value || memcmp(long_way, short_way, sizeof long_way)) {
        printf("%s: the two lists leave two states\n", which);
        return 1;
    }
    double best[WAYS] = {1e12, 1e12, 1e12, 1e12};
    for (int turn = 0; turn < 40 * WAYS; turn++) {
        int n = turn % WAYS;
        for (int k = 0; k < 100; k++) {
            double began = now();
            if (ways[n].way()) return 1;
            double each = now() - began;
            if (each < best[n]) best[n] = each;
        }
    }
    for (int n = 0; n < WAYS; n++)
        printf("%s of %d steps %s: %.0f times a second, %.1f million steps\n", which, STEPS, ways[n].name, 1e9 / best[n],
               STEPS * 1000.0 / best[n]);
    printf("%s: %zu commands, short %zu; translated short at %.2f of the speed of translated\n", which, plain_count, short_count,
           best[TRANSLATED] / best[SHORTENED]);
    return 0;
}

int main(void) {
    fill();
    reset(&plain, 0xFF, 0x00);
    chips69000_reset(state, sizeof state, 0xFF, 0x00);
    for (int turn = 0; turn < 64; turn++)
        for (int k = 0; k < COUNT; k++)
            if (!agree(list[k])) return 1;
    for (int k = 0; k < 64 * COUNT; k++)
        if (!agree(attribute())) return 1;
    double library = 1e9, model = 1e9;
    for (int turn = 0; turn < 40; turn++) {
        double x = timed(by_library, 20), y = timed(by_model, 20);
        if (x < library) library = x;
        if (y < model) model = y;
    }
    // the same writes as commands, run on the state in one call; before it the model makes them, and counts those that change it
    static uint8_t commands[4 * COUNT];
    size_t size = 0, count = 0, place = 0, changing = 0, changed = 0;
    for (int k = 0; k < COUNT; k++) {
        struct chip before = plain;
        if (list[k].write && port_write(&plain, list[k].port, list[k].value) >> 24 == 0) {
            uint8_t one[4] = {1, (uint8_t)list[k].port, (uint8_t)(list[k].port >> 8), list[k].value};
            memcpy(commands + size, one, 4);
            size += 4;
            changed += differs(&before, &plain);
        }
    }
    double run = 1e9;
    for (int turn = 0; turn < 200; turn++) {
        double began = now();
        uint8_t number = chips69000_run(state, sizeof state, commands, size, SIZE_MAX, &count, &place, &changing);
        if (number || 4 * count != size) return 1;
        double each = (now() - began) / (double)count;
        if (each < run) run = each;
        if (turn == 0 && changing != changed) {
            printf("run: %zu commands change something, on the model %zu\n", changing, changed);
            return 1;
        }
    }
    printf("run: %.1f million commands a second\n", 1000 / run);
    if (scripts("a script", false) || scripts("a script that keeps to registers", true)) return 1;
    printf("library %.2f ns an access, plain C model %.2f ns, ratio %.2f (%u)\n", library, model, library / model, kept);
    return 0;
}
