/* An emulator host in small: what a program does that links libchips69000.a.
 *
 * It resets a chip, lets a guest at its ports, plays a script file on it, asks the chip for the picture's size by name, draws a
 * caption into video memory with linear writes and block transfers, switches the picture on, and writes what a post would show as
 * a PPM file. The order below is that order; main is last.
 *
 *     host SCRIPT [PICTURE]      without PICTURE the picture goes to standard output
 *
 * Every number that the library returns is looked at. What the host itself asks for may not be refused: that ends the program
 * with one line on standard error and status 1. What the guest asks for may be: a port that is not listed is another device's.
 * The file is C11 and also C++.
 */
#include <stdarg.h>
#include <stdio.h>
#include <stdlib.h>
#include <string.h>

#include "chips69000.h"
#include "letters.h"

/* All that the library works on is ours: it keeps nothing between calls and allocates nothing. */
static uint8_t state[CHIPS69000_STATE_SIZE];
static uint8_t memory[CHIPS69000_MEMORY_SIZE];

/* ---- Refusals. */

static const char *meaning(unsigned number)
{
    switch (number) {
    case CHIPS69000_UNLISTED: return "no such port in this direction";
    case CHIPS69000_CLOSED: return "the ports are closed, pin CFG1 is 0";
    case CHIPS69000_MEMORY_LENGTH: return "memory of a length that is not allowed";
    case CHIPS69000_OUTSIDE: return "a byte lies outside memory";
    case CHIPS69000_RANGE: return "a number is out of its range";
    case CHIPS69000_BLOCK: return "the block breaks a layout or check rule";
    case CHIPS69000_STEP: return "the step is none of the allowed";
    case CHIPS69000_FILE_LENGTH: return "not 1 to 12 whole blocks of 512 bytes";
    case CHIPS69000_ROOM: return "the lent output is too small";
    case CHIPS69000_COMMAND: return "a command of no known form";
    case CHIPS69000_IDLE: return "the step can do nothing, no bit of its register can be written";
    case CHIPS69000_NO_GROUP: return "no group has this number";
    case CHIPS69000_NO_STATE: return "bytes of this length are no state";
    default: return "a number that the header does not name";
    }
}

/* One line on standard error, and the end. */
static void fail(const char *format, ...)
{
    va_list rest;
    va_start(rest, format);
    fputs("host: ", stderr);
    vfprintf(stderr, format, rest);
    fputc('\n', stderr);
    va_end(rest);
    exit(1);
}

/* ---- The chip's registers by name, for what the host itself wants to know. */

/* A register by name, the group as the header numbers it. The ports would answer too, but behind an index, and an index that the
 * host has moved sends the guest's next data byte into another register. By name nothing moves. */
enum { CR, SR, GR, XR, FR, MR, MSR, PALMASK, AR };

static uint8_t ask(uint8_t group, uint8_t index)
{
    unsigned word = chips69000_register(state, sizeof state, group, index); /* the byte, plus 256 times the number */
    unsigned number = word >> 8;
    if (number != CHIPS69000_DONE) fail("register %02Xh of group %u: %s (number %u)", (unsigned)index, (unsigned)group,
                                        meaning(number), number);
    return (uint8_t)word;
}

/* ---- The guest's ports. */

/* The port accesses of the emulated processor end here. A port that is not listed is another device's: an emulator hands the
 * access on to the next one. Here there is none, and a chip whose ports are closed answers as little: a write is lost, and a read
 * finds the FFh of a bus that nobody drives. It does not end the emulator: every VGA BIOS reads 3CAh, which is not listed.
 *
 * A write gives whether it changed its register. The word has the register's byte before and after, both FFh where the write is
 * refused or goes to no register; so a colour that it loads, at 3C9h, is not seen here. */
static bool out(uint16_t port, uint8_t value)
{
    uint32_t word = chips69000_port_write(state, sizeof state, port, value);
    unsigned number = word >> 24, before = word >> 8 & 0xFF, after = word & 0xFF;
    if (number != CHIPS69000_DONE && number != CHIPS69000_UNLISTED && number != CHIPS69000_CLOSED)
        fail("write to port %03Xh: %s (number %u)", (unsigned)port, meaning(number), number);
    return before != after;
}

static uint8_t in(uint16_t port)
{
    unsigned word = chips69000_port_read(state, sizeof state, port); /* the byte, plus 256 times the number */
    unsigned number = word >> 8;
    if (number == CHIPS69000_UNLISTED || number == CHIPS69000_CLOSED) return 0xFF;
    if (number != CHIPS69000_DONE) fail("read of port %03Xh: %s (number %u)", (unsigned)port, meaning(number), number);
    return (uint8_t)word;
}

/* The chip's ports are a byte wide. A word is two accesses, the low byte first: so a word at an index port is the index, and then
 * the data at the port behind it. It gives whether the data changed its register. */
static bool out_word(uint16_t port, uint16_t value)
{
    out(port, (uint8_t)value);
    return out((uint16_t)(port + 1), (uint8_t)(value >> 8));
}

static uint16_t in_word(uint16_t port)
{
    uint8_t low = in(port);
    return (uint16_t)(low | in((uint16_t)(port + 1)) << 8);
}

/* What a guest does as it starts: it reads the feature control, and goes on with whatever comes; it sets SR02 by a word, and does
 * so again, which changes nothing. */
static void start_guest(void)
{
    in(0x3CA);
    if (!out_word(0x3C4, 0x0F02) || out_word(0x3C4, 0x0F02) || ask(SR, 0x02) != 0x0F) fail("the guest's word went astray");
}

/* ---- A script is played, and the chip is asked what it set. */

enum { BLOCK = 512, BLOCKS = 12, STEPS = 1008, STEP_ROOM = 32 };

/* A script that was refused: the number says what the value counts. */
static void look_at_script(const char *path, unsigned number, size_t value)
{
    if (number == CHIPS69000_BLOCK)
        fail("%s: block %zu: %s (number %u)", path, value, meaning(number), number);
    if (number == CHIPS69000_STEP || number == CHIPS69000_IDLE)
        fail("%s: step %zu: %s (number %u)", path, value, meaning(number), number);
    if (number != CHIPS69000_DONE)
        fail("%s: %s (number %u)", path, meaning(number), number);
}

/* A host that shares its time out translates once instead, and runs the commands of some steps a call: it stops where a step's
 * commands begin, since a run's accumulator starts at 0. The shorter list sends fewer commands, and after each step the state is
 * the same. */
static void play_by_turns(uint8_t *on, const uint8_t *file, size_t length, size_t steps, uint8_t *bytes)
{
    enum { STEPS_A_TURN = 16 };
    size_t all, from, to, count, place, changing;
    unsigned number = chips69000_translate_short(file, length, bytes, steps * STEP_ROOM, &all);

    for (size_t step = 0; number == CHIPS69000_DONE && step < steps; step += STEPS_A_TURN) {
        chips69000_short_step_commands(file, length, step, &from);
        chips69000_short_step_commands(file, length, step + STEPS_A_TURN, &to);
        number = chips69000_run(on, CHIPS69000_STATE_SIZE, bytes + 4 * from, 4 * (to - from), to - from, &count, &place,
                                &changing);
    }
    if (number != CHIPS69000_DONE) fail("the shorter list: %s (number %u)", meaning(number), number);
}

/* Plays a script file on the state. Gives the numbers of its steps and of the commands that they became. */
static void play(const char *path, size_t *steps, size_t *commands)
{
    /* One byte more than the longest script, so that a longer file is seen to be longer, and refused. */
    static uint8_t file[BLOCKS * BLOCK + 1];
    static uint8_t bytes[STEPS * STEP_ROOM];
    uint8_t by_turns[CHIPS69000_STATE_SIZE];
    size_t length, value, changing;
    unsigned number;

    FILE *from = fopen(path, "rb");
    if (!from) fail("%s: cannot be opened", path);
    length = fread(file, 1, sizeof file, from);
    if (ferror(from)) fail("%s: cannot be read", path);
    fclose(from);

    number = chips69000_check_script(file, length, steps);
    look_at_script(path, number, *steps);

    /* The commands need room, 32 bytes a step. After this call every register and colour is what the steps say by name. */
    memcpy(by_turns, state, sizeof state);
    number = chips69000_play(state, sizeof state, file, length, bytes, *steps * STEP_ROOM, commands, &value, &changing);
    look_at_script(path, number, value);

    /* How many commands changed a register or a colour. None is no refusal, but whoever wrote the script will want to know. */
    if (changing == 0) fprintf(stderr, "host: %s: no command changed anything\n", path);

    play_by_turns(by_turns, file, length, *steps, bytes);
    if (memcmp(by_turns, state, sizeof state) != 0) fail("%s: the shorter list leaves another state", path);
}

/* The caption below is made for this picture, with a byte a pixel. The picture is the first part of video memory, line by line. */
enum { WIDTH = 640, HEIGHT = 480 };

static void look_at_picture(void)
{
    unsigned high = ask(CR, 0x07); /* bits 1 and 6 are bits 8 and 9 of the last line shown */
    unsigned width = (ask(CR, 0x01) + 1u) * 8;
    unsigned height = (ask(CR, 0x12) | (high & 0x02) << 7 | (high & 0x40) << 3) + 1;
    unsigned depth = ask(XR, 0x81) & 0x0F; /* XR81: 2 is 8 bits a pixel */

    if (width != WIDTH || height != HEIGHT || depth != 2)
        fail("the caption is for %d by %d at 8 bits a pixel; the script sets %u by %u and XR81 bits 3-0 to %u", WIDTH, HEIGHT,
             width, height, depth);
}

/* Bit 5 of the attribute index, video enable, decides whether there is a picture. A reset leaves it 0 and a script as it is, so
 * whoever owns the screen sets it: a guest's own program, or the host as here. A read of input status 1, at the port that MSR bit
 * 0 picks, brings the turn of 3C0h to the index, and afterwards back to it. */
enum { VIDEO_ENABLE = 0x20 };

static void switch_on(void)
{
    uint16_t status = ask(MSR, 0) & 0x01 ? 0x3DA : 0x3BA;
    in(status);
    out(0x3C0, VIDEO_ENABLE);
    in(status);
}

/* A read of 3C0h gives the attribute index and moves nothing. Closed ports gave nobody a way to set it. */
static bool is_on(void)
{
    unsigned word = chips69000_port_read(state, sizeof state, 0x3C0);
    return word >> 8 == CHIPS69000_DONE && (word & VIDEO_ENABLE) != 0;
}

/* ---- Video memory: the picture, then patterns and letters where nobody sees them. */

/* The colours, as the script names them. */
enum { BACKGROUND, TEXT, SPOKEN, COLOURS };

/* A stored colour, by name: the palette's index and position are the guest's. */
static uint32_t stored(uint8_t entry)
{
    uint32_t colour = chips69000_entry(state, sizeof state, entry);
    unsigned number = colour >> 24;
    if (number != CHIPS69000_DONE) fail("entry %u: %s (number %u)", (unsigned)entry, meaning(number), number);
    return colour;
}

static void look_at_colours(void)
{
    if (stored(TEXT) == stored(BACKGROUND) || stored(SPOKEN) == stored(BACKGROUND))
        fail("the script stores one colour for the text and the background");
}

/* Raster codes: bit 4P + 2S + D of the code is the result for a pattern bit P, a source bit S and a bit D already there. */
enum {
    ZEROS = 0x00,     /* 0, whatever is there: pixel 0, the background */
    PATTERN = 0xF0,   /* P */
    SOURCE = 0xCC,    /* S */
    THROUGH = 0xE2,   /* P where S is 1, and D where S is 0: the source is a stencil, the pattern its colour */
};

/* A pattern is 8 rows of 8 bytes, at a multiple of 64: one for each colour, then the hatch. */
enum { PATTERN_SIZE = 64, PATTERNS = WIDTH * HEIGHT, HATCH = PATTERNS + COLOURS * PATTERN_SIZE };

static void put(size_t at, uint8_t value)
{
    unsigned number = chips69000_memory_write(memory, sizeof memory, at, value);
    if (number != CHIPS69000_DONE) fail("memory byte %zu: %s (number %u)", at, meaning(number), number);
}

/* A transfer into the picture at (x, y), rightward and downward. What a code does not use may be anything: here 0. */
static void transfer(unsigned x, unsigned y, unsigned width, unsigned height, uint8_t code, uint32_t source, uint32_t span,
                     uint32_t pattern)
{
    unsigned number = chips69000_transfer(memory, sizeof memory, y * WIDTH + x, WIDTH, source, span, width, height, code, false,
                                          false, pattern, y % 8);
    if (number != CHIPS69000_DONE) fail("transfer to (%u, %u): %s (number %u)", x, y, meaning(number), number);
}

static void lay_patterns(void)
{
    unsigned colour, i;
    for (colour = 0; colour < COLOURS; colour++)
        for (i = 0; i < PATTERN_SIZE; i++) put(PATTERNS + colour * PATTERN_SIZE + i, (uint8_t)colour);
    for (i = 0; i < PATTERN_SIZE; i++) put(HATCH + i, (i / 8 + i) % 8 < 4 ? SPOKEN : BACKGROUND);
}

/* A sheet of all letters as stencils, FFh for ink and 00h beside it, each pixel a square of `scale` by `scale`. */
struct sheet {
    uint32_t at;
    unsigned scale;
};

enum { LETTERS = sizeof letters / sizeof letters[0] };

static unsigned sheet_size(unsigned scale)
{
    return LETTERS * LETTER_WIDTH * LETTER_HEIGHT * scale * scale;
}

static void lay_sheet(struct sheet sheet)
{
    unsigned width = LETTER_WIDTH * sheet.scale, height = LETTER_HEIGHT * sheet.scale, letter, x, y;
    size_t at = sheet.at;
    for (letter = 0; letter < LETTERS; letter++)
        for (y = 0; y < height; y++)
            for (x = 0; x < width; x++)
                put(at++, letters[letter][1 + y / sheet.scale] & 0x80 >> x / sheet.scale ? 0xFF : 0x00);
}

/* A line of text across the middle of the picture: each letter is one transfer from the sheet. */
static void draw_line(struct sheet sheet, unsigned y, uint32_t colour, const char *text)
{
    unsigned width = LETTER_WIDTH * sheet.scale, height = LETTER_HEIGHT * sheet.scale, letter;
    unsigned x = (WIDTH - (unsigned)strlen(text) * width) / 2;
    for (; *text; text++, x += width)
        for (letter = 0; letter < LETTERS; letter++)
            if (letters[letter][0] == *text)
                transfer(x, y, width, height, THROUGH, sheet.at + letter * width * height, width, PATTERNS + colour * PATTERN_SIZE);
}

static void draw_caption(void)
{
    struct sheet small, medium, large;
    small.scale = 1, small.at = HATCH + PATTERN_SIZE;
    medium.scale = 2, medium.at = small.at + sheet_size(small.scale);
    large.scale = 4, large.at = medium.at + sheet_size(medium.scale);
    lay_patterns();
    lay_sheet(small);
    lay_sheet(medium);
    lay_sheet(large);

    /* The background, and a box: a rectangle of text colour with a smaller one of background in it. */
    transfer(0, 0, WIDTH, HEIGHT, ZEROS, 0, 0, 0);
    transfer(24, 24, 592, 432, PATTERN, 0, 0, PATTERNS + TEXT * PATTERN_SIZE);
    transfer(28, 28, 584, 424, ZEROS, 0, 0, 0);

    /* A hatched bar, and a copy of it: the source is the bar, in the picture itself. */
    transfer(96, 144, 448, 16, PATTERN, 0, 0, HATCH);
    transfer(96, 360, 448, 16, SOURCE, 144 * WIDTH + 96, WIDTH, 0);

    draw_line(large, 64, TEXT, "THE CLOCK ROOM");
    draw_line(medium, 184, TEXT, "THE GREAT CLOCK OF 1745");
    draw_line(medium, 240, SPOKEN, "STRIKES EVERY QUARTER HOUR");
    draw_line(medium, 296, TEXT, "AND PLAYS A TUNE AT NOON.");
    draw_line(small, 404, TEXT, "THE LINE IN AMBER IS BEING SPOKEN.");
}

/* ---- The picture, through the palette. A screen whose picture is off is black, whatever video memory has. */

static void show(const char *path)
{
    static uint8_t colours[256][3], line[WIDTH][3]; /* static, so black */
    unsigned pixel, x, y;
    FILE *to;
    bool bad;

    /* A pixel has one of 256 values: each is asked for once. The number is above the three components. */
    for (pixel = 0; is_on() && pixel < 256; pixel++) {
        uint32_t colour = chips69000_pixel(state, sizeof state, (uint8_t)pixel);
        unsigned number = colour >> 24;
        if (number != CHIPS69000_DONE) fail("pixel %u: %s (number %u)", pixel, meaning(number), number);
        colours[pixel][0] = (uint8_t)(colour >> 16);
        colours[pixel][1] = (uint8_t)(colour >> 8);
        colours[pixel][2] = (uint8_t)colour;
    }

    to = path ? fopen(path, "wb") : stdout;
    if (!path) path = "standard output";
    if (!to) fail("%s: cannot be opened", path);

    /* The memory is ours, so we look at it without a call. */
    fprintf(to, "P6\n%d %d\n255\n", WIDTH, HEIGHT);
    for (y = 0; y < HEIGHT; y++) {
        for (x = 0; x < WIDTH; x++) memcpy(line[x], colours[memory[y * WIDTH + x]], 3);
        fwrite(line, 1, sizeof line, to);
    }
    bad = ferror(to) != 0;
    if (fclose(to) != 0 || bad) fail("%s: cannot be written", path);
}

/* ---- A room is left, and come back to: the bytes of the state are saved beside the version that says what they mean. */

static struct {
    uint32_t version;
    uint8_t state[CHIPS69000_STATE_SIZE];
} room;

static void leave_room(void)
{
    room.version = chips69000_state_version();
    memcpy(room.state, state, sizeof state);
}

static void come_back(void)
{
    if (room.version != chips69000_state_version()) fail("the room was saved as version %u", (unsigned)room.version);
    memcpy(state, room.state, sizeof state);
}

int main(int argc, char **argv)
{
    const char *path = argc == 3 ? argv[2] : NULL;
    size_t steps, commands;
    unsigned number;
    if (argc != 2 && argc != 3) {
        fputs("usage: host SCRIPT [PICTURE]\n", stderr);
        return 2;
    }

    /* The archive that is linked is the one that the header is of. */
    if (chips69000_version() != CHIPS69000_VERSION || chips69000_state_version() != CHIPS69000_STATE_VERSION)
        fail("the header and the library are of different versions");

    /* Bit 1 of the first pin byte is pin CFG1: were it 0, every port would be closed. Here all sixteen pins are 1, as on a board
     * with no resistor that pulls one low (databook, XR70 and XR71). */
    number = chips69000_reset(state, sizeof state, 0xFF, 0xFF);
    if (number != CHIPS69000_DONE) fail("reset: %s (number %u)", meaning(number), number);

    /* A reset says nothing of video memory. It begins as anything, so that what the caption does not cover would be seen. */
    memset(memory, 0xA5, sizeof memory);

    start_guest();
    play(argv[1], &steps, &commands);

    /* The guest is about to read XR81 when the host looks at the picture: its index is still there afterwards. */
    out(0x3D6, 0x81);
    look_at_picture();
    look_at_colours();
    if (in_word(0x3D6) != (ask(XR, 0x81) << 8 | 0x81)) fail("the guest's index moved");

    draw_caption();
    switch_on();

    /* The visitor goes through another room, whose chip starts from a reset, and is back. */
    leave_room();
    number = chips69000_reset(state, sizeof state, 0xFF, 0xFF);
    if (number != CHIPS69000_DONE) fail("reset: %s (number %u)", meaning(number), number);
    come_back();
    show(path);
    fprintf(stderr, "%s: %zu steps, %zu commands carried out; %s of %d by %d pixels to %s\n", argv[1], steps, commands,
            is_on() ? "a picture" : "no picture is on: a black one", WIDTH, HEIGHT, path ? path : "standard output");
    return 0;
}
