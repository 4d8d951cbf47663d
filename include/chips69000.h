/* The CHIPS 69000 graphics controller, as a library of proved functions. Link with libchips69000.a.
 *
 * The caller owns everything. The chip's state is CHIPS69000_STATE_SIZE bytes that it lends to each call: any bytes of that
 * length are a state, and they can be copied, saved and restored between calls. A state of another length is refused with
 * CHIPS69000_NO_STATE, and no byte of it changes. Video memory, script files, step lists and command bytes are lent in the same
 * way, each as a pointer with its length; every length is accepted, and nothing outside is touched.
 *
 * Pointers are not NULL, also where a length is 0, and point to as many bytes as the length beside them says. Bytes that a call may
 * change do not overlap any other argument of that call. Two calls may run at the same time on different states.
 */
#ifndef CHIPS69000_H
#define CHIPS69000_H

#include <stddef.h>
#include <stdint.h>
#ifndef __cplusplus
#include <stdbool.h>
#endif

#ifdef __cplusplus
extern "C" {
#endif

/* The version of the library, which rises wherever a C program can see a change, and of the bytes of a state, which rises wherever
 * the meaning of a byte changes. Keep the second beside bytes that are saved, and compare it when they come back. */
#define CHIPS69000_VERSION 4
#define CHIPS69000_STATE_VERSION 2

/* The bytes of a state, and of the part's whole video memory. */
#define CHIPS69000_STATE_SIZE 1057
#define CHIPS69000_MEMORY_SIZE 2097152

/* What a call returns. */
#define CHIPS69000_DONE 0            /* done */
#define CHIPS69000_UNLISTED 1        /* port, or its direction, not listed */
#define CHIPS69000_CLOSED 2          /* a port access while pin CFG1 is 0 */
#define CHIPS69000_MEMORY_LENGTH 3   /* memory length not allowed */
#define CHIPS69000_OUTSIDE 4         /* a byte used lies outside memory */
#define CHIPS69000_RANGE 5           /* a transfer number out of its range */
#define CHIPS69000_BLOCK 6           /* a block breaks a layout or check rule; the value is its number */
#define CHIPS69000_STEP 7            /* a step is none of the allowed; the value is its number */
#define CHIPS69000_FILE_LENGTH 8     /* file not 1 to 12 whole blocks, or step list not 1 to 1,008 whole steps */
#define CHIPS69000_ROOM 9            /* lent output too small: 32 bytes a step (commands), 512 a block (files) */
#define CHIPS69000_COMMAND 10        /* command bytes not a multiple of 4, or a command of no known form */
#define CHIPS69000_IDLE 11           /* a step can do nothing: no bit of its register can be written; the value is its number */
#define CHIPS69000_NO_GROUP 254      /* no group of registers has the number */
#define CHIPS69000_NO_STATE 255      /* the state's length is not CHIPS69000_STATE_SIZE */

/* The versions of the library that is linked. */
uint32_t chips69000_version(void);

uint32_t chips69000_state_version(void);

/* ---- The state. */

/* A reset, with the two bytes that the configuration pins show. It sets every byte, so a new state needs no clearing. */
uint8_t chips69000_reset(uint8_t *state, size_t state_length, uint8_t first, uint8_t second);

/* A port write: bits 0 to 7 are the register's byte after it and 8 to 15 its byte before, each as it reads; 16 to 23 are 0, 24 to
 * 31 the number. An index that is not listed gives 00h twice, a protected register its byte twice, bit 4 of CR07 apart. Both are
 * FFh where the number is not 0, and where no register receives the byte: for an index, also to 3C0h; at 3C7h, 3C8h and 3C9h; and
 * at the CR pair that is not picked. */
uint32_t chips69000_port_write(uint8_t *state, size_t state_length, uint16_t port, uint8_t value);

/* A port read: the byte, plus 256 times the number. The byte is FFh where the number is not 0. */
uint16_t chips69000_port_read(uint8_t *state, size_t state_length, uint16_t port);

/* ---- The state by name, for a host's own questions: no index, no turn and no half loaded colour moves under its guest, and
 * closed ports make no difference. */

/* A register: the byte, plus 256 times the number. The byte is FFh where the number is not 0. Groups are 0 CR, 1 SR, 2 GR, 3 XR,
 * 4 FR, 5 MR, 6 MSR, 7 PALMASK and 8 AR. MSR and PALMASK are one register each, whatever the index; an index that is not listed
 * reads 00h in every state. */
uint16_t chips69000_register(const uint8_t *state, size_t state_length, uint8_t group, uint8_t index);

/* The colour that an entry of the palette stores: bits 16 to 23 are red, 8 to 15 green and 0 to 7 blue, 24 to 31 the number. */
uint32_t chips69000_entry(const uint8_t *state, size_t state_length, uint8_t entry);

/* The colour that a pixel shows, packed in the same way. */
uint32_t chips69000_pixel(const uint8_t *state, size_t state_length, uint8_t pixel);

/* ---- Video memory: any multiple of 4 from 4,096 to CHIPS69000_MEMORY_SIZE bytes. */

/* One byte: the byte, plus 256 times the number. The byte is FFh where the number is not 0. */
uint16_t chips69000_memory_read(const uint8_t *memory, size_t memory_length, size_t at);

uint8_t chips69000_memory_write(uint8_t *memory, size_t memory_length, size_t at, uint8_t value);

/* A block transfer at 8 bits a pixel. Width is in bytes, height in lines; an address is the first byte worked on. The eight numbers are
 * whole: one out of its range is CHIPS69000_RANGE or CHIPS69000_OUTSIDE, however large, and none is cut. The code and the directions
 * have the values of their types: C makes of a wider code its low eight bits, and of a direction false where it is 0 and true where it
 * is anything else. */
uint8_t chips69000_transfer(uint8_t *memory, size_t memory_length, size_t destination, size_t destination_span, size_t source,
                            size_t source_span, size_t width, size_t height, uint8_t code, bool leftward, bool upward,
                            size_t pattern, size_t pattern_row);

/* ---- Scripts and commands. The value is 0 where the number has none. */

/* A script file checked. The value is the number of its steps, or what the number says. */
uint8_t chips69000_check_script(const uint8_t *file, size_t file_length, size_t *value);

/* A list of six-byte steps written as a file. The value is the number of blocks, or what the number says. */
uint8_t chips69000_write_script(const uint8_t *steps, size_t steps_length, uint8_t *file, size_t file_length, size_t *value);

/* A script file translated into four-byte commands. The value is their number, or what the number says. */
uint8_t chips69000_translate_script(const uint8_t *file, size_t file_length, uint8_t *commands, size_t commands_length,
                                    size_t *value);

/* The same file translated into a shorter list, without the writes to index ports that send what the last write to the same port
 * sent. After each step registers, colours and everything else of a state are as with the plain list; numbers and room, 32 bytes
 * a step, are the same. A step's commands may begin with its data: the list counts on being run from its first command on. */
uint8_t chips69000_translate_short(const uint8_t *file, size_t file_length, uint8_t *commands, size_t commands_length,
                                   size_t *value);

/* Commands run on a state, up to a limit. The count is of those carried out; the place is that of a refused one. Changing is how
 * many of those carried out changed a register or a colour: after it a register of any group, or what an entry of the palette
 * stores, differs from before. Indexes, bit 5 of the attribute index, the turn and a half loaded colour do not count. */
uint8_t chips69000_run(uint8_t *state, size_t state_length, const uint8_t *commands, size_t commands_length, size_t limit,
                       size_t *count, size_t *place, size_t *changing);

/* A script file played on a state: translated into lent commands, 32 bytes a step, and run whole. Registers and colours are
 * afterwards what the steps say by name, and bit 5 of the attribute index, video enable, is as it was. The count is of the
 * commands carried out, and changing as for a run; the value is what the number says. */
uint8_t chips69000_play(uint8_t *state, size_t state_length, const uint8_t *file, size_t file_length, uint8_t *commands,
                        size_t commands_length, size_t *count, size_t *value, size_t *changing);

/* Where the commands of a step begin in the plain translation of a file: the value is the number of commands of the steps before
 * it, and past the last step the number of them all; steps count from 0. As the limit of a run of that list it carries out those
 * steps and no more. */
uint8_t chips69000_step_commands(const uint8_t *file, size_t file_length, size_t step, size_t *value);

/* The same of the shorter list, for a run of it. */
uint8_t chips69000_short_step_commands(const uint8_t *file, size_t file_length, size_t step, size_t *value);

#ifdef __cplusplus
}
#endif

#endif
