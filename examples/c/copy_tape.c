/* Prints the blocks of a tape on a printer by channel programs, as crates/example_print_tape does.
 *
 * A buffer is one piece of storage with two requests: one reads a block of the tape, the other prints it. With two buffers the
 * next block is read while one is printed. All requests are related, so the error at the tape mark also ends the read after it. */
#include "excp.h"
#include "excp_blocks.h"

#include <stdio.h>
#include <string.h>

enum { TAPE = 0, PRINTER = 1, UNITS = 2 };

/* Where a buffer has the IOB, the ECB and the channel program of the request to each unit, and the block. */
enum { BASE = 0x1000, ECB = 0x28, PROGRAM = 0x30, REQUEST = 0x40, BLOCK = UNITS * REQUEST };

/* The most bytes that are read: one more than a line has, so that a block that does not fit it shows. */
enum { MOST = 133, LENGTH = BLOCK + MOST };

/* Says what failed. Returns whether it did. */
static int failed(const char *what, excp_status status)
{
    if (status != EXCP_OK)
        fprintf(stderr, "copy_tape: %s: %s\n", what, excp_message(status));
    return status != EXCP_OK;
}

/* Writes the request to a unit into a buffer: an IOB of a related request of DCB 1, an ECB, and a program of one CCW. */
static void put_request(uint8_t *buffer, unsigned unit, uint8_t command, uint16_t count)
{
    uint8_t *request = buffer + unit * REQUEST;
    uint32_t at = BASE + unit * REQUEST;
    excp_iob iob = { .ecb = at + ECB, .start = at + PROGRAM, .dcb = 1 };
    memset(request, 0, REQUEST);
    excp_store_iob(request, &iob);
    excp_store_ccw(request + PROGRAM, command, BASE + BLOCK, EXCP_FLAG_SLI, count);
}

static int issue(excp_site *site, uint16_t unit, const uint8_t *buffer)
{
    uint64_t number;
    uint32_t iob = BASE + unit * (uint32_t)REQUEST;
    return failed("issue", excp_issue(site, 0, unit, 1, iob, BASE, buffer, LENGTH, &number));
}

/* Issues what follows the end of a request. Returns whether something failed. */
static int follow(excp_site *site, const excp_post *post, uint8_t *buffer, int *at_mark)
{
    if (post->unit == TAPE && post->code == EXCP_CODE_ENDED && post->residual > 0) {
        put_request(buffer, PRINTER, EXCP_OP_PR1, (uint16_t)(MOST - post->residual));
        return issue(site, PRINTER, buffer);
    }
    if (post->unit == TAPE && post->code == EXCP_CODE_PERMANENT_ERROR && post->unit_status == EXCP_UNIT_EXCEPTION_END) {
        *at_mark = 1;
        return 0;
    }
    if (*at_mark && (post->unit == TAPE ? post->code == EXCP_CODE_PURGED : post->code == EXCP_CODE_ENDED))
        return 0;
    if (post->unit == PRINTER && post->code == EXCP_CODE_ENDED) {
        put_request(buffer, TAPE, EXCP_OP_RDF, MOST);
        return issue(site, TAPE, buffer);
    }
    fprintf(stderr, "copy_tape: unit %u ended with code %02X\n", (unsigned)post->unit, (unsigned)post->code);
    return 1;
}

/* Copies the tape up to its mark: serves both units and follows each post, until none comes. */
static int copy(excp_site *site)
{
    uint8_t buffer[LENGTH] = { 0 };
    int at_mark = 0;
    put_request(buffer, TAPE, EXCP_OP_RDF, MOST);
    if (issue(site, TAPE, buffer) || issue(site, TAPE, buffer))
        return 1;
    for (;;) {
        excp_served served;
        excp_post post;
        excp_status status;
        for (uint16_t unit = 0; unit < UNITS; unit++)
            if (failed("serve", excp_serve(site, unit, UINT32_MAX, &served)))
                return 1;
        status = excp_next_post(site, 0, &post, buffer, LENGTH);
        if (status == EXCP_NO_POST)
            return 0;
        if (failed("next post", status) || follow(site, &post, buffer, &at_mark))
            return 1;
    }
}

/* Adds a tape with three blocks and a mark, and a printer, each with its DCB 1. */
static int set_up(excp_site *site)
{
    static const uint8_t name[] = { 0xC3, 0xD6, 0xC2, 0xC1, 0xD3, 0xE3, 0xC6, 0xC5, 0xD9, 0xD9, 0xC5, 0xE3 };
    static const uint8_t digits[] = { 0xF0, 0xF1, 0xF2, 0xF3, 0xF4, 0xF5, 0xF6, 0xF7, 0xF8, 0xF9 };
    const excp_room room = { 2, 2 };
    uint16_t unit, dcb;
    return failed("block", excp_put_block(site, name, sizeof name)) || failed("block", excp_put_block(site, (const uint8_t *)"\xE7", 1))
        || failed("block", excp_put_block(site, digits, sizeof digits)) || failed("mark", excp_put_tape_mark(site))
        || failed("tape", excp_mount_tape(site, 1024, &room, &unit)) || failed("printer", excp_mount_printer(site, 100, 2, &room, &unit))
        || failed("open", excp_open(site, TAPE, EXCP_INPUT, NULL, 0, &dcb))
        || failed("open", excp_open(site, PRINTER, EXCP_OUTPUT, NULL, 0, &dcb));
}

/* The character of a byte of EBCDIC, for capital letters and digits. */
static char character(uint8_t byte)
{
    int high = byte >> 4, low = byte & 0x0F;
    if (high == 0x0F && low <= 9)
        return "0123456789"[low];
    if (high < 0x0C || low > 9 || low < (high == 0x0E ? 2 : 1))
        return '.';
    return "ABCDEFGHI.JKLMNOPQR..STUVWXYZ"[(high - 0x0C) * 10 + low - 1];
}

/* Shows what is on the paper. */
static int show(excp_site *site)
{
    excp_line line;
    excp_status status;
    uint8_t bytes[132];
    for (uint32_t place = 0; (status = excp_printed_line(site, PRINTER, place, &line, bytes, sizeof bytes)) == EXCP_OK; place++) {
        printf("page %u line %2u |", (unsigned)line.page, (unsigned)line.line);
        for (int at = 0; at < line.length; at++)
            putchar(character(bytes[at]));
        putchar('\n');
    }
    return status != EXCP_NOTHING_THERE && failed("paper", status);
}

int main(void)
{
    excp_site site = EXCP_SITE_INIT;
    int wrong = failed("site", excp_site_new(&site, 1, 2));
    if (!wrong) {
        wrong = set_up(&site) || copy(&site);
        wrong |= show(&site) | failed("free", excp_site_free(&site));
    }
    return wrong;
}
