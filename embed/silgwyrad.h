/* SPDX-License-Identifier: Apache-2.0 */
/* Crash-safe blocks, and a Forth system over them, for a C program that supplies the device and the console.
 *
 * docs/EMBEDDING.md says what is proved of these calls and what is not. In short: each call returns if the host's functions
 * do, and does nothing undefined whatever they answer. Over a device that keeps the disk model, as the end of this comment has
 * it, answer 0 means what stands at the call, and a stop at any moment leaves all blocks of a save or none.
 *
 * The library calls two functions of the host, from within its own calls and on the same stack:
 *
 *     int64_t write(int32_t number, const void *bytes, uint64_t n)   how many it took; less than 1 is a fault
 *     int64_t read(int32_t number, void *bytes, uint64_t n)          how many it put there; less than 1 is a fault
 *
 * Where they move fewer bytes than n, they are called again for the rest. host.c gives both functions by callbacks. What
 * follows is for a host that writes them itself.
 *
 * A device is asked by 8 bytes that are written to its number: `r`, `w` or `s`, three zeros, and the sector, low byte first.
 * After `r` the sector's 512 bytes are read from that number; after `w` they are written to it; `s` is a sync, which is done
 * where its 8 bytes were taken. A console is asked for a byte by reading two from its number: the first is 1 where the
 * second is the next byte of the input, and 0 at the end of the input. Replies are written to its number in pieces.
 *
 * A program that has a `read` and a `write` already, as on a system of files, renames the library's:
 *
 *     objcopy --redefine-sym read=silgwyrad_host_read --redefine-sym write=silgwyrad_host_write libembed.a libsilgwyrad.a
 *
 * What the host owes, which nothing checks:
 * - Each pointer that is passed to a call is to as many elements as the length after it says, aligned for its type. What is
 *   passed to be filled overlaps with nothing else.
 * - The host's functions write to nothing of the library's but the bytes that they were given to fill, keep no pointer, and call no
 *   function of this header. The calls come from one thread, one after another, and none from the handler of an interrupt or a
 *   signal. A call that is left by longjmp is as one that a loss of power ended: a store that was open in it is open no more,
 *   whatever its memory says, until silgwyrad_open opens it again. One of silgwyrad_run leaves its memory taken.
 * - A device has the sectors that the call says, of 512 bytes each, and nothing else writes to them. To keep the disk model: a
 *   read gives what was last written. A write changes no other sector; one that failed may leave any bytes in its own. Until a
 *   sync has succeeded, a loss of power may leave any bytes in a sector that was written (with an image of layout 3, in each of
 *   the eight sectors of its page, which begins at a multiple of eight). A sync that answers 0 makes all stay that was written
 *   before it, also where an earlier sync failed, of this program or of one before it since the machine was started.
 * - A console gives each byte of its input once, in order, and then its end; where it fails, none was lost. Bytes that it answered 0 for stay
 *   written, in order; of those that it refused some may have come through.
 * - An open store is what the last call over it that returned left in its memory, and no older copy, or zeros; its number is that of the same device.
 * - The heap of silgwyrad_run gives blocks aligned to 16 bytes. The stack has what docs/EMBEDDING.md measures: no call looks at its end. */
#ifndef SILGWYRAD_H
#define SILGWYRAD_H

#include <stddef.h>
#include <stdint.h>

/* The version of header and library, as text and as a number: 10000 times the first part, 100 times the second, and the third. */
#define SILGWYRAD_VERSION "0.1.0"
#define SILGWYRAD_VERSION_NUMBER 100

/* The bytes of a block, and those of a sector. */
#define SILGWYRAD_BLOCK 1024
#define SILGWYRAD_SECTOR 512

/* The sectors of an image of so many blocks, 32 to 3840, by layout 3 or 2; 0, which each call refuses, by another one. In a file, and on a flash that is
 * erased by units of 4096 bytes, take layout 3 (docs/IMAGE.md, Which layout). */
#define SILGWYRAD_SECTORS(blocks, layout) ((layout) == 3 ? 32u + 16u * (blocks) : (layout) == 2 ? 3u + 4u * (blocks) : 0u)

#ifdef __cplusplus
extern "C" {
#endif

/* What a call answers. */
enum silgwyrad_answer {
    SILGWYRAD_DONE = 0,
    SILGWYRAD_BAD_SIZE = 1,      /* no image has so many sectors (see SILGWYRAD_SECTORS), or, of silgwyrad_format, none of so many blocks; no device call */
    SILGWYRAD_NO_LABEL = 2,      /* the image has no label: it was never formatted, or a format was stopped */
    SILGWYRAD_OTHER_VERSION = 3, /* the label has another version than that of images of this size */
    SILGWYRAD_WRONG_COUNT = 4,   /* the label counts other blocks than the sectors do */
    SILGWYRAD_DEVICE = 5,        /* a call of the device failed: open the image again by any call that takes a device but silgwyrad_format, as after a loss
                                    of power; over a file whose sync failed only once the system has let go of its pages (docs/IMAGE.md, After a failed
                                    sync). Of silgwyrad_run a call of the opening failed: one in the session is told in a reply */
    SILGWYRAD_DAMAGED = 6,       /* the bytes of a save that is under way, or by layout 3 of a block or of the record, aren't those that were saved */
    SILGWYRAD_NO_BLOCK = 7,      /* the image has no such block; the device wasn't called */
    SILGWYRAD_BAD_LENGTH = 8,    /* not SILGWYRAD_BLOCK bytes for each block; the device wasn't called */
    SILGWYRAD_NO_STEPS = 9,      /* a line may take no step; nothing was called */
    SILGWYRAD_INPUT = 10,        /* the input failed, or has given 2^64 - 1 bytes */
    SILGWYRAD_OUTPUT = 11,       /* the output failed */
    SILGWYRAD_NO_MEMORY = 12,    /* there is no memory for a session; nothing of the input was read */
    SILGWYRAD_NOT_OPEN = 13      /* no store is open there; no device was called */
};

/* An answer as text, as forth83 tells it. It stands here, so a program that doesn't call it has none of it. */
static inline const char *silgwyrad_text(int answer) {
    switch (answer) {
    case SILGWYRAD_DONE: return "done";
    case SILGWYRAD_BAD_SIZE: return "bad size";
    case SILGWYRAD_NO_LABEL: return "no label";
    case SILGWYRAD_OTHER_VERSION: return "other version";
    case SILGWYRAD_WRONG_COUNT: return "wrong count";
    case SILGWYRAD_DEVICE: return "device fault";
    case SILGWYRAD_DAMAGED: return "damaged";
    case SILGWYRAD_NO_BLOCK: return "no block";
    case SILGWYRAD_BAD_LENGTH: return "bad length";
    case SILGWYRAD_NO_STEPS: return "no steps";
    case SILGWYRAD_INPUT: return "cannot read the input";
    case SILGWYRAD_OUTPUT: return "cannot write the output";
    case SILGWYRAD_NO_MEMORY: return "no memory";
    case SILGWYRAD_NOT_OPEN: return "not open";
    default: return "no answer of this library";
    }
}

/* The numbers of a call have the same bits on each target: a length has 64 also where a pointer has 32. */

/* Makes an image of so many blank blocks, of the layout whose sectors these are: SILGWYRAD_SECTORS(blocks, 3), as one in a file should have, or
 * SILGWYRAD_SECTORS(blocks, 2). A stop leaves the blank image, the old one, or none: then no label, or one of another version or count over
 * blocks that are lost. The calls below take images of either layout. */
uint8_t silgwyrad_format(int32_t device, uint32_t sectors, uint16_t blocks);

/* Finishes a save that a stop left half done. silgwyrad_read, silgwyrad_save, silgwyrad_open and silgwyrad_run do so first. */
uint8_t silgwyrad_recover(int32_t device, uint32_t sectors);

/* Reads the bytes of a block, as it was saved last. At any other answer than 0, out is as it was. n is SILGWYRAD_BLOCK. */
uint8_t silgwyrad_read(int32_t device, uint32_t sectors, uint16_t block, uint8_t *out, uint64_t n);

/* Saves `count` blocks, all or none, whenever it is stopped. n is SILGWYRAD_BLOCK for each. Of a block that stands twice the last bytes count. */
uint8_t silgwyrad_save(int32_t device, uint32_t sectors, const uint16_t *blocks, uint64_t count, const uint8_t *bytes,
                       uint64_t n);

/* An open store between two calls, in memory of the program's: 524 bytes, of which it looks at nothing. Zeros are one that isn't open. */
struct silgwyrad_store {
    int32_t device;
    uint32_t sectors;
    uint32_t state;
    uint8_t listing[SILGWYRAD_SECTOR];
};

/* Opens an image as silgwyrad_recover does, for the three calls below, which don't open it again. As long as it is open, nothing else writes to the
 * image, and no silgwyrad_run uses it. Where the answer isn't 0 the store isn't open. */
uint8_t silgwyrad_open(int32_t device, uint32_t sectors, struct silgwyrad_store *store);

/* silgwyrad_read of an open store: 2 reads of the device. After SILGWYRAD_DEVICE the store isn't open any more; after another refusal it is as it was. */
uint8_t silgwyrad_read_open(struct silgwyrad_store *store, uint16_t block, uint8_t *out, uint64_t n);

/* silgwyrad_save to an open store. After SILGWYRAD_DEVICE the store isn't open any more; after another refusal it is as it was. */
uint8_t silgwyrad_save_open(struct silgwyrad_store *store, const uint16_t *blocks, uint64_t count, const uint8_t *bytes, uint64_t n);

/* Closes it. Nothing is left to be done, and no device is called: a store that is just left is as good. */
void silgwyrad_close(struct silgwyrad_store *store);

/* Runs a session of a new Forth system over the image: the lines that `input` gives, to the end of the input, at most `steps`
 * steps a line, 1 or more. The replies are written to `output`, which may be the same console. A call of the device that fails in the
 * session is told in a reply: the session goes on, and may end in 0. */
uint8_t silgwyrad_run(int32_t device, uint32_t sectors, int32_t input, int32_t output, uint32_t steps);

/* With host.c: the callbacks of a device or a console. Each answers 0 where it was done. */
struct silgwyrad_device {
    void *context;
    int (*read)(void *context, uint32_t sector, uint8_t out[SILGWYRAD_SECTOR]);
    int (*write)(void *context, uint32_t sector, const uint8_t bytes[SILGWYRAD_SECTOR]);
    int (*sync)(void *context);
};

struct silgwyrad_console {
    void *context;
    int (*key)(void *context); /* the next byte of the input, -1 at its end, -2 where it failed */
    int (*emit)(void *context, const uint8_t *bytes, size_t n);
};

/* The device or the console of a number from 0 to SILGWYRAD_NUMBERS - 1, which has to stay while it is used. Answers 0 where it was
 * taken, and 1 where there is no such number. A null pointer takes the number away. */
#define SILGWYRAD_NUMBERS 8
int silgwyrad_use_device(int32_t number, const struct silgwyrad_device *device);
int silgwyrad_use_console(int32_t number, const struct silgwyrad_console *console);

#ifdef __cplusplus
}
#endif
#endif
