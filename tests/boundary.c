/* Every size and number that include/chips69000.h defines, beside what the library does where its rule says so: a define that is
 * wrong is named, and the status is 1. The file is C11 and also C++. tests/boundary compiles and runs it, and sees that it has all.
 */
#include <stdio.h>

#include "chips69000.h"

static uint8_t state[CHIPS69000_STATE_SIZE + 1];
static uint8_t memory[CHIPS69000_MEMORY_SIZE + 4];
static int wrong;

static void expect(const char *name, unsigned defined, unsigned returned)
{
    if (defined == returned) return;
    printf("%s is %u in the header, and the library returns %u\n", name, defined, returned);
    wrong = 1;
}

#define EXPECT(name, returned) expect(#name, name, returned)

int main(void)
{
    static const uint8_t good[6] = {1, 3, 0x60, 0x43, 0, 0}, none[6] = {0}, idle[6] = {1, 3, 0x70, 0x43, 0, 0};
    static const uint8_t closing[4] = {1, 0xC8, 0x03, 0x00};
    uint8_t file[512] = {0};
    size_t value, count, changing, whole = CHIPS69000_STATE_SIZE, most = CHIPS69000_MEMORY_SIZE;

    EXPECT(CHIPS69000_VERSION, chips69000_version());
    EXPECT(CHIPS69000_STATE_VERSION, chips69000_state_version());

    /* A state's length is this one, and no other beside it. */
    EXPECT(CHIPS69000_NO_STATE, chips69000_reset(state, whole - 1, 0xFF, 0xFF));
    EXPECT(CHIPS69000_NO_STATE, chips69000_reset(state, whole + 1, 0xFF, 0xFF));
    EXPECT(CHIPS69000_NO_STATE, chips69000_register(state, whole + 1, 9, 0x00) >> 8);
    EXPECT(CHIPS69000_NO_STATE, chips69000_port_write(state, whole + 1, 0x3CA, 0x00) >> 24);
    EXPECT(CHIPS69000_DONE, chips69000_reset(state, whole, 0xFF, 0xFF));
    EXPECT(CHIPS69000_NO_GROUP, chips69000_register(state, whole, 9, 0x00) >> 8);

    EXPECT(CHIPS69000_UNLISTED, chips69000_port_write(state, whole, 0x3CA, 0x00) >> 24);
    EXPECT(CHIPS69000_DONE, chips69000_port_write(state, whole, 0x3C8, 0x00) >> 24);
    EXPECT(CHIPS69000_COMMAND, chips69000_run(state, whole, closing, 3, 1, &count, &value, &changing));
    EXPECT(CHIPS69000_DONE, chips69000_reset(state, whole, 0xFD, 0xFF));
    EXPECT(CHIPS69000_CLOSED, chips69000_port_read(state, whole, 0x3C8) >> 8);
    EXPECT(CHIPS69000_CLOSED, chips69000_run(state, whole, closing, 4, 1, &count, &value, &changing));

    /* The part's whole memory is the longest. */
    EXPECT(CHIPS69000_DONE, chips69000_memory_write(memory, most, most - 1, 0x5A));
    EXPECT(CHIPS69000_MEMORY_LENGTH, chips69000_memory_write(memory, most + 4, 0, 0x5A));
    EXPECT(CHIPS69000_OUTSIDE, chips69000_memory_read(memory, most, most) >> 8);
    EXPECT(CHIPS69000_RANGE, chips69000_transfer(memory, most, 0, 8, 0, 8, 8, 1, 0xF0, false, false, 0, 8));

    EXPECT(CHIPS69000_FILE_LENGTH, chips69000_check_script(file, 511, &value));
    EXPECT(CHIPS69000_BLOCK, chips69000_check_script(file, 512, &value));
    EXPECT(CHIPS69000_STEP, chips69000_write_script(none, 6, file, 512, &value));
    EXPECT(CHIPS69000_IDLE, chips69000_write_script(idle, 6, file, 512, &value));
    EXPECT(CHIPS69000_ROOM, chips69000_write_script(good, 6, file, 511, &value));
    EXPECT(CHIPS69000_DONE, chips69000_write_script(good, 6, file, 512, &value));
    return wrong;
}
