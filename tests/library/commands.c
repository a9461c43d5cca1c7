/* Every command of a disk, a tape and a printer, by the channel alone: how it ends, what it reads and writes, and that it allocates
 * nothing.
 *
 * A run takes memory for its copy of the storage, with or without a program. So a run that does commands makes as many allocations as
 * one in which no program runs. Statuses and sense follow from docs/SPECIFICATION.md. */
#include "excp.h"

#include <stdio.h>
#include <stdlib.h>
#include <string.h>

extern void *__libc_malloc(size_t);
extern void *__libc_calloc(size_t, size_t);
extern void *__libc_realloc(void *, size_t);

/* How many blocks were asked for. */
static unsigned long allocations;

void *malloc(size_t size)
{
    allocations++;
    return __libc_malloc(size);
}

void *calloc(size_t count, size_t size)
{
    allocations++;
    return __libc_calloc(count, size);
}

void *realloc(void *block, size_t size)
{
    allocations++;
    return __libc_realloc(block, size);
}

enum { BASE = 0x1000, PROGRAM = 0x1080, LENGTH = 0x100 };

static uint8_t storage[LENGTH];
static excp_site site = EXCP_SITE_INIT;

static int wrong(const char *program, const char *what)
{
    fprintf(stderr, "commands: %s: %s\n", program, what);
    return 1;
}

/* A CCW of a program. */
typedef struct {
    uint8_t command, flags;
    uint16_t address, count;
} ccw;

/* A program of at most 8 CCWs, and how it ends: after how many of them, with which unit status, sense and residual count. */
typedef struct {
    const char *name;
    ccw ccws[8];
    int used;
    uint8_t unit_status;
    uint16_t sense, residual;
} program;

enum { CC = 0x40, SLI = 0x20 };

/* Runs a program on a channel, with no channel status at its end. */
static int runs(uint32_t channel, const program *it)
{
    excp_channel_ran ran;
    excp_channel_status status;
    uint32_t code;
    unsigned long without, with;
    for (int at = 0; at < 8; at++) {
        uint8_t *to = storage + PROGRAM - BASE + 8 * at;
        const ccw *from = &it->ccws[at];
        const uint8_t bytes[8] = { from->command, 0, (uint8_t)(from->address >> 8), (uint8_t)from->address, from->flags, 0,
                                   (uint8_t)(from->count >> 8), (uint8_t)from->count };
        memcpy(to, bytes, sizeof bytes);
    }
    allocations = 0;
    if (excp_channel_run(&site, channel, 1, BASE, storage, LENGTH, &ran) != EXCP_OK || ran.commands != 0)
        return wrong(it->name, "something runs before the start");
    without = allocations;
    if (excp_channel_start(&site, channel, PROGRAM, 0, 0, 0xC0, &code) != EXCP_OK || code != 0)
        return wrong(it->name, "it is not started");
    allocations = 0;
    if (excp_channel_run(&site, channel, 1000, BASE, storage, LENGTH, &ran) != EXCP_OK || !ran.pending || ran.commands == 0)
        return wrong(it->name, "it does not end");
    with = allocations;
    if (with != without)
        return wrong(it->name, "a command allocates");
    if (excp_channel_test(&site, channel, &status) != EXCP_OK || status.code != 0 || status.channel_status != 0)
        return wrong(it->name, "another channel status");
    if (status.address != PROGRAM + 8 * (uint32_t)it->used || status.unit_status != it->unit_status)
        return wrong(it->name, "another address or unit status");
    if (status.sense != it->sense || status.residual != it->residual)
        return wrong(it->name, "another sense or residual count");
    return 0;
}

/* Runs the programs of a device, and tests that there is memory for a channel to allocate. */
static int all_run(uint16_t unit, const program *programs, size_t count)
{
    uint32_t channel;
    if (excp_channel_new(&site, unit, &channel) != EXCP_OK)
        return wrong("excp_channel_new", "no channel");
    for (size_t at = 0; at < count; at++)
        if (runs(channel, &programs[at]))
            return 1;
    return 0;
}

#define ALL(unit, programs) all_run(unit, programs, sizeof programs / sizeof *programs)

static int holds(const char *what, uint16_t address, const uint8_t *bytes, size_t length)
{
    return memcmp(storage + address - BASE, bytes, length) == 0 ? 0 : wrong(what, "other bytes in storage");
}

/* --- a disk of one track of 40 bytes, with R1: key D1, data C1C2C3C4 */

#define FIND(id) { 0x31, CC, id, 5 }, { 0x08, 0, PROGRAM, 0 }

/* At 1000 a seek address, at 1008 the ID of R1, at 1010 the count area of R2 with its key and data. For R1: its key at 1020, data at
 * 1028, another key and data at 1030. What is read goes to 1040 and after. */
static const program DISK[] = {
    /* the key of the record whose count area was read is found, so the CCW after the search is passed by */
    { "key of R1, and write data", { { 0x03, CC | SLI, 0x1040, 1 }, { 0x04, CC | SLI, 0x1040, 2 }, { 0x07, CC, 0x1000, 6 },
                                     { 0x12, CC, 0x1040, 8 }, { 0x29, CC, 0x1020, 1 }, { 0x08, 0, PROGRAM, 0 },
                                     { 0x05, 0, 0x1028, 4 } }, 7, 0x0C, 0, 0 },
    { "read data", { FIND(0x1008), { 0x06, 0, 0x1040, 4 } }, 3, 0x0C, 0, 0 },
    { "write key and data", { FIND(0x1008), { 0x0D, 0, 0x1030, 5 } }, 3, 0x0C, 0, 0 },
    /* after R2 comes the index point, and R1 */
    { "write count, key and data", { FIND(0x1008), { 0x1D, CC, 0x1010, 11 }, { 0x0E, CC, 0x1044, 5 }, { 0x06, CC, 0x1049, 2 },
                                     { 0x1E, 0, 0x1050, 13 } }, 6, 0x0C, 0, 0 },
    /* the start has set a mask */
    { "set file mask", { { 0x1F, 0, 0x1040, 1 } }, 1, 0x0E, 0x8000, 1 },
    { "no command", { { 0x02, SLI, 0x1040, 1 } }, 1, 0x0E, 0x8000, 1 },
};

static int disk_runs(void)
{
    static const uint8_t data[] = { 0, 0, 0, 0, 0, 0, 0, 0, 0, 0, 0, 0, 1, 0, 0, 0, 0, 0, 0, 0, 2, 1, 0, 2, 0xD2, 0xE1, 0xE2, 0, 0, 0, 0,
                                    0, 0xD1, 0, 0, 0, 0, 0, 0, 0, 0xF1, 0xF2, 0xF3, 0xF4, 0, 0, 0, 0, 0xD3, 0xA1, 0xA2, 0xA3, 0xA4 };
    /* the data that was written first, key and data of R1, the data of R2, and R1 */
    static const uint8_t read[] = { 0xF1, 0xF2, 0xF3, 0xF4, 0xD3, 0xA1, 0xA2, 0xA3, 0xA4, 0xE1, 0xE2, 0, 0, 0, 0, 0, 0, 0, 0, 0, 1, 1, 0,
                                    4, 0xD3, 0xA1, 0xA2, 0xA3, 0xA4 };
    static const excp_room room = { 1, 1 };
    uint16_t unit;
    memcpy(storage, data, sizeof data);
    if (excp_put_record(&site, 0, 0, 1, data + 0x20, 1, (const uint8_t *)"\xC1\xC2\xC3\xC4", 4) != EXCP_OK
        || excp_mount_disk(&site, 1, 1, 40, &room, &unit) != EXCP_OK)
        return wrong("a disk", "it is not mounted");
    return ALL(unit, DISK) || holds("a disk", 0x1040, read, sizeof read);
}

/* --- a tape of 17 bytes without an item */

/* A block of three bytes, a mark and a block of two are written, read backward from 1012 on, and passed by in both directions. */
static const program TAPE[] = {
    { "no-operation", { { 0x03, SLI, 0x1010, 1 } }, 1, 0x0C, 0, 1 },
    { "sense", { { 0x04, SLI, 0x1010, 2 } }, 1, 0x0C, 0, 0 },
    { "write", { { 0x01, 0, 0x1000, 3 } }, 1, 0x0C, 0, 0 },
    { "write a mark", { { 0x1F, SLI, 0x1000, 1 } }, 1, 0x0C, 0, 1 },
    { "write again", { { 0x01, 0, 0x1003, 2 } }, 1, 0x0C, 0, 0 },
    { "backspace block", { { 0x27, SLI, 0x1000, 1 } }, 1, 0x0C, 0, 1 },
    { "read a mark backward", { { 0x0C, SLI, 0x1012, 3 } }, 1, 0x0D, 0, 3 },
    { "read backward", { { 0x0C, 0, 0x1012, 3 } }, 1, 0x0C, 0, 0 },
    { "read backward at the load point", { { 0x0C, SLI, 0x1012, 3 } }, 1, 0x0E, 0x8000, 3 },
    { "forward space file", { { 0x3F, SLI, 0x1000, 1 } }, 1, 0x0C, 0, 1 },
    { "read", { { 0x02, 0, 0x1013, 2 } }, 1, 0x0C, 0, 0 },
    { "read at the end", { { 0x02, SLI, 0x1013, 2 } }, 1, 0x0E, 0x1000, 2 },
    { "backspace file", { { 0x2F, SLI, 0x1000, 1 } }, 1, 0x0C, 0, 1 },
    { "forward space block at a mark", { { 0x37, SLI, 0x1000, 1 } }, 1, 0x0D, 0, 1 },
    { "rewind", { { 0x07, SLI, 0x1000, 1 } }, 1, 0x0C, 0, 1 },
    { "backspace block at the load point", { { 0x27, SLI, 0x1000, 1 } }, 1, 0x0E, 0x8000, 1 },
    { "no command", { { 0x05, SLI, 0x1000, 1 } }, 1, 0x0E, 0x8000, 1 },
};

static int tape_runs(void)
{
    static const uint8_t data[] = { 0xA1, 0xA2, 0xA3, 0xB1, 0xB2 };
    static const excp_room room = { 1, 1 };
    uint16_t unit;
    memset(storage, 0, sizeof storage);
    memcpy(storage, data, sizeof data);
    if (excp_mount_tape(&site, 17, &room, &unit) != EXCP_OK)
        return wrong("a tape", "it is not mounted");
    return ALL(unit, TAPE) || holds("a tape", 0x1010, data, sizeof data);
}

/* --- a printer of 5 lines and 3 pages */

/* A line is printed and the paper spaced by 0 to 3 lines, or skipped; and the paper moved alone. */
static const program PRINTER[] = {
    { "no-operation", { { 0x03, SLI, 0x1000, 1 } }, 1, 0x0C, 0, 1 },
    { "sense", { { 0x04, SLI, 0x1004, 2 } }, 1, 0x0C, 0, 0 },
    { "write", { { 0x01, CC, 0x1000, 4 }, { 0x09, CC, 0x1000, 4 }, { 0x11, CC, 0x1000, 4 }, { 0x19, CC, 0x1000, 4 },
                 { 0x89, 0, 0x1000, 4 } }, 5, 0x0C, 0, 0 },
    { "space and skip", { { 0x0B, CC | SLI, 0x1000, 1 }, { 0x13, CC | SLI, 0x1000, 1 }, { 0x1B, CC | SLI, 0x1000, 1 },
                          { 0x8B, SLI, 0x1000, 1 } }, 4, 0x0C, 0, 1 },
    { "no command", { { 0x02, SLI, 0x1000, 1 } }, 1, 0x0E, 0x8000, 1 },
};

static int printer_runs(void)
{
    static const uint8_t data[] = { 0xC1, 0xC2, 0xC3, 0xC4, 0xFF, 0xFF }, sense[] = { 0, 0 };
    static const excp_room room = { 1, 1 };
    uint16_t unit;
    memset(storage, 0, sizeof storage);
    memcpy(storage, data, sizeof data);
    if (excp_mount_printer(&site, 5, 3, &room, &unit) != EXCP_OK)
        return wrong("a printer", "it is not mounted");
    return ALL(unit, PRINTER) || holds("a printer", 0x1004, sense, sizeof sense);
}

int main(void)
{
    int failed = excp_site_new(&site, 1, 4) != EXCP_OK || disk_runs() || tape_runs() || printer_runs();
    if (allocations == 0)
        failed = wrong("a run", "no allocation is counted");
    if (excp_site_free(&site) != EXCP_OK)
        failed = wrong("the site", "it is not freed");
    if (!failed)
        printf("every command ends as it should, and allocates nothing\n");
    return failed;
}
