/* Makes calls at random, many with wrong arguments, wrong handles or NULL pointers:  fuzz SEED SECONDS
 *
 * Tested of each call: its status is one of excp.h; if a pointer that it needs is NULL, or the handle has no site, it does not
 * succeed; if it does not succeed, it writes nothing; and, of some of those calls, all that can be seen of the site is as before,
 * but for the words on an image at fault.
 * What is given has just its length, so a checker of memory finds a read or a write past it. */
#define _POSIX_C_SOURCE 199309L
#include "images.h"
#include "seen.h"

#include <time.h>

enum { HANDLES = 3, CALLS_OF_A_SITE = 3000 };

static uint64_t state, seed, made;
static unsigned long ended[EXCP_IN_ERROR + 1];

/* xorshift64* */
static uint32_t chance(uint32_t below)
{
    state ^= state >> 12;
    state ^= state << 25;
    state ^= state >> 27;
    return (uint32_t)((state * 2685821657736338717u) >> 33) % below;
}

static int rarely(void)
{
    return chance(24) == 0;
}

/* A small number, and now and then one near a limit. */
static uint32_t number(uint32_t usual)
{
    static const uint32_t edges[] = { 0, 1, 0x7FFF, 0xFFFF, 0x10000, 0x10001, 0x7FFFFFFF, 0xFFFFFFFE, 0xFFFFFFFF };
    return rarely() ? edges[chance(sizeof edges / sizeof *edges)] : chance(usual);
}

static uint64_t long_number(uint64_t usual)
{
    static const uint64_t edges[] = { 0, UINT64_MAX, 1ull << 63, (1ull << 32) + 1 };
    return rarely() ? edges[chance(sizeof edges / sizeof *edges)] : usual;
}

/* Bytes to give, in a block of just their length. */
typedef struct {
    uint8_t *bytes;
    size_t length;
} block;

static block block_of(size_t length)
{
    block made_of = { needed(malloc(length ? length : 1)), length };
    for (size_t at = 0; at < length; at++)
        made_of.bytes[at] = (uint8_t)chance(256);
    return made_of;
}

/* --- storage that holds a request, most times */

static void put(uint8_t *bytes, int count, uint32_t value)
{
    for (; count > 0; value >>= 8)
        bytes[--count] = (uint8_t)value;
}

static void put_ccw(uint8_t *ccw, uint32_t base)
{
    static const uint8_t commands[] = { 0x31, 0x29, 0x06, 0x0E, 0x1E, 0x12, 0x05, 0x0D, 0x1D, 0x03, 0x04, 0x08, 0x01, 0x02, 0x0C,
                                        0x1F, 0x07, 0x27, 0x2F, 0x37, 0x3F, 0x09, 0x11, 0x19, 0x89, 0x0B, 0x13, 0x1B, 0x8B };
    static const uint8_t flags[] = { 0x40, 0x60, 0x20, 0x00, 0xC0, 0x80, 0x70, 0x44, 0x64 };
    ccw[0] = rarely() ? (uint8_t)chance(256) : commands[chance(sizeof commands)];
    put(ccw + 1, 3, base + (ccw[0] % 16 == 8 ? 0x30 + 8 * chance(8) : 0x60 + 4 * chance(16)));
    ccw[4] = rarely() ? (uint8_t)chance(256) : flags[chance(sizeof flags)];
    put(ccw + 6, 2, 1 + number(12));
}

static block storage_of(uint32_t base, uint16_t dcb)
{
    block made_of = block_of(rarely() ? chance(8300) : 0xA0 + chance(64));
    uint8_t *iob = made_of.bytes;
    if (made_of.length < 0x60)
        return made_of;
    memset(iob, 0, 0x60);
    iob[0] = (uint8_t)(chance(2) ? 0x42 : 0x40);
    put(iob + 5, 3, base + 0x28);
    put(iob + 17, 3, base + 0x30);
    put(iob + 21, 3, dcb);
    iob[39] = (uint8_t)chance(4);
    for (uint32_t at = 0x30; at < 0x60; at += 8)
        put_ccw(iob + at, base);
    if (made_of.length >= 0x68) {
        memset(iob + 0x60, 0, 8);
        iob[0x64] = (uint8_t)chance(4);
    }
    if (rarely())
        iob[chance(40)] = (uint8_t)chance(256);
    return made_of;
}

/* --- the calls */

/* Where calls write. A call that does not succeed leaves it as it is. */
typedef struct {
    uint16_t short_number;
    uint64_t number;
    size_t length;
    excp_answer answer;
    excp_served served;
    excp_post post;
    excp_unit_state unit;
    excp_dcb_state dcb;
    excp_trace_entry entry;
    excp_active_request active;
    excp_place place;
    excp_record record;
    excp_item item;
    excp_line line;
    uint32_t code;
    excp_channel_ran ran;
    excp_channel_status status;
    uint8_t bytes[8300];
} written;

/* A pointer, or now and then NULL; and whether one that is needed is NULL. */
static int lacks;

static void *pointer(void *real)
{
    if (!rarely())
        return real;
    lacks = 1;
    return NULL;
}

/* As `pointer`, of bytes, which may be NULL if there are none. */
static void *bytes_at(void *real, size_t length)
{
    if (!rarely())
        return real;
    lacks |= length > 0;
    return NULL;
}

/* An image of a tape or of a disk, at times with a byte changed or cut short. */
static block image_of(int is_disk)
{
    block made_of = block_of(is_disk ? DISK_IMAGE : sizeof TAPE_IMAGE);
    if (is_disk)
        put_disk_image(made_of.bytes);
    else
        memcpy(made_of.bytes, TAPE_IMAGE, sizeof TAPE_IMAGE);
    if (chance(3) == 0)
        made_of.bytes[chance(chance(2) ? 40 : (uint32_t)made_of.length) % made_of.length] = (uint8_t)chance(256);
    if (rarely()) {
        block cut = block_of(chance((uint32_t)made_of.length));
        memcpy(cut.bytes, made_of.bytes, cut.length);
        free(made_of.bytes);
        return cut;
    }
    return made_of;
}

static excp_status mount_image(excp_site *site, const excp_room *room, uint16_t *unit)
{
    int is_disk = chance(2) == 0;
    block image = image_of(is_disk);
    const void *bytes = bytes_at(image.bytes, image.length);
    excp_status status = is_disk ? excp_mount_ckd(site, bytes, image.length, room, unit)
                                 : excp_mount_aws(site, bytes, image.length, long_number(chance(200)), room, unit);
    free(image.bytes);
    return status;
}

static excp_status mount(excp_site *site, written *to)
{
    excp_room room = { 1 + number(6), 1 + number(6) };
    const excp_room *given = pointer(&room);
    uint16_t *unit = pointer(&to->short_number);
    switch (chance(5)) {
    case 0:
        return excp_mount_disk(site, long_number(1 + chance(2)), long_number(1 + chance(2)), long_number(40 + chance(60)), given,
                               unit);
    case 1: return excp_mount_tape(site, long_number(chance(4) ? 100 + chance(400) : chance(8)), given, unit);
    case 2: return excp_mount_printer(site, long_number(1 + chance(9)), long_number(1 + chance(3)), given, unit);
    default: return mount_image(site, given, unit);
    }
}

static excp_status put_medium(excp_site *site)
{
    block key = block_of(chance(12)), data = block_of(rarely() ? chance(66000) : chance(20));
    const void *bytes = bytes_at(data.bytes, data.length);
    excp_status status;
    switch (chance(8)) {
    case 0: case 1:
        status = excp_put_record(site, (uint16_t)number(2), (uint16_t)number(2), (uint8_t)chance(5),
                                 bytes_at(key.bytes, key.length), key.length, bytes, data.length);
        break;
    case 2: case 3: lacks = lacks && !bytes; status = excp_put_block(site, bytes, data.length); break;
    case 4: lacks = 0; status = excp_put_tape_mark(site); break;
    case 5:
        lacks = 0;
        status = excp_put_fault(site, long_number(chance(40)), (uint8_t)(chance(2) ? 0x0E : chance(256)),
                                (uint8_t)(chance(3) ? 0 : chance(16)), (uint16_t)number(5000));
        break;
    default: lacks = 0; status = excp_clear_medium(site);
    }
    free(key.bytes);
    free(data.bytes);
    return status;
}

static excp_status open_dcb(excp_site *site, written *to)
{
    block extents = block_of(chance(3) ? 16 * chance(3) : chance(40));
    excp_status status;
    for (size_t at = 0; at + 16 <= extents.length && !rarely(); at += 16) {
        memset(extents.bytes + at, 0, 16);
        extents.bytes[at + 15] = 1;
    }
    status = excp_open(site, (uint16_t)number(4), (uint8_t)(rarely() ? chance(256) : chance(2)),
                       bytes_at(extents.bytes, extents.length), extents.length, pointer(&to->short_number));
    free(extents.bytes);
    return status;
}

static excp_status issue(excp_site *site, written *to)
{
    uint16_t dcb = (uint16_t)(1 + number(2));
    uint32_t base = rarely() ? number(0x2000) : 0x1000;
    block storage = storage_of(base, rarely() ? (uint16_t)number(3) : dcb);
    excp_status status = excp_issue(site, (uint16_t)number(3), (uint16_t)number(4), dcb, rarely() ? number(0x2000) : base, base,
                                    bytes_at(storage.bytes, storage.length), storage.length, pointer(&to->number));
    free(storage.bytes);
    return status;
}

/* A call of the channel alone. */
static excp_status use_channel(excp_site *site, written *to)
{
    uint32_t channel = number(3), base = rarely() ? number(0x2000) : 0x1000;
    block storage = storage_of(base, 1);
    excp_status status;
    switch (chance(6)) {
    case 0: status = excp_channel_new(site, (uint16_t)number(4), pointer(&to->code)); break;
    case 1:
        status = excp_channel_start(site, channel, 0x1000 + 8 * number(10), (uint16_t)number(2), (uint16_t)number(2),
                                    (uint8_t)chance(256), pointer(&to->code));
        break;
    case 2:
        status = excp_channel_run(site, channel, number(70), base, bytes_at(storage.bytes, storage.length),
                                  storage.length, pointer(&to->ran));
        break;
    case 3: status = excp_channel_test(site, channel, pointer(&to->status)); break;
    case 4:
        status = rarely() ? excp_channel_free(site, channel) : excp_channel_make_image(site, channel, pointer(&to->length));
        break;
    default: status = excp_channel_halt(site, channel, pointer(&to->code));
    }
    free(storage.bytes);
    return status;
}

/* Makes one call. */
static excp_status made_call(excp_site *site, written *to)
{
    uint16_t unit = (uint16_t)number(4), task = (uint16_t)number(3), dcb = (uint16_t)number(4);
    uint8_t mode = (uint8_t)(rarely() ? chance(256) : chance(2));
    uint32_t most = number(70), place = number(5);
    size_t room = rarely() ? sizeof to->bytes : chance(400), from = rarely() ? SIZE_MAX - chance(9) : chance(200);
    switch (chance(42)) {
    case 0: case 1: case 2: case 3: return put_medium(site);
    case 4: case 5: return mount(site, to);
    case 6: case 7: return open_dcb(site, to);
    case 8: case 9: case 10: case 11: return issue(site, to);
    case 12: case 13: return excp_take(site, unit, pointer(&to->answer));
    case 14: case 15: return excp_start(site, unit, pointer(&to->answer));
    case 16: case 17: return excp_run(site, unit, most, pointer(&to->answer));
    case 18: case 19: return excp_interrupt(site, unit, pointer(&to->answer));
    case 20: case 21: return excp_deliver(site, unit, pointer(&to->answer));
    case 22: return excp_serve(site, unit, most, pointer(&to->served));
    case 23: return excp_settle(site, unit);
    case 24: return excp_peek_post(site, task, pointer(&to->post));
    case 25: return excp_next_post(site, task, pointer(&to->post), bytes_at(to->bytes, room), room);
    case 26: return excp_purge(site, unit, dcb, mode, pointer(&to->answer));
    case 27: return excp_purge_task(site, unit, task, mode, pointer(&to->answer));
    case 28: return chance(4) ? excp_reset(site, unit, dcb) : excp_close(site, unit, dcb, pointer(&to->answer));
    case 29: return excp_look(site, unit, pointer(&to->unit));
    case 30: return excp_look_dcb(site, unit, dcb, pointer(&to->dcb));
    case 31:
        return chance(2) ? excp_waiting(site, unit, place, pointer(&to->short_number), pointer(&to->number))
                         : excp_look_entry(site, unit, place, pointer(&to->entry));
    case 32:
        return excp_read_record(site, unit, (uint16_t)number(2), (uint16_t)number(2), place, pointer(&to->record),
                                bytes_at(to->bytes, room), room);
    case 33: return excp_printed_line(site, unit, place, pointer(&to->line), bytes_at(to->bytes, room), room);
    case 34: return excp_make_record(site, unit, place, pointer(&to->length));
    case 35: return excp_make_image(site, unit, pointer(&to->length));
    case 36: return excp_made_length(site, pointer(&to->length));
    case 37: return excp_read_item(site, unit, place, pointer(&to->item), bytes_at(to->bytes, room), room);
    case 38:
        return chance(2) ? excp_look_active(site, unit, pointer(&to->active)) : excp_look_place(site, unit, pointer(&to->place));
    case 39: return excp_drop_made(site);
    case 40: return use_channel(site, to);
    default: return chance(2) ? excp_copy_out(site, from, bytes_at(to->bytes, room), room) : excp_checkpoint(site, unit);
    }
}

/* --- the test */

static void wrong(const char *what, excp_status status)
{
    fprintf(stderr, "fuzz: seed %llu, call %llu: %s: %d, %s\n", (unsigned long long)seed, (unsigned long long)made, what,
            (int)status, excp_message(status));
    exit(1);
}

static void is_a_status(excp_status status)
{
    if ((unsigned)status > EXCP_IN_ERROR)
        wrong("no status", status);
    if (!excp_message(status) || !*excp_message(status) || strcmp(excp_message(status), "unknown status") == 0)
        wrong("a status without words", status);
    ended[status]++;
    made++;
}

/* Whether a status may leave a reason as what was made last. */
static int has_reason(excp_status status)
{
    return (EXCP_BAD_GEOMETRY <= status && status <= EXCP_BAD_IMAGE) || (EXCP_BAD_EXTENT <= status && status <= EXCP_WRONG_DCB);
}

/* Makes a call on a site that is there, and tests what it did. */
static void test_call(excp_site *site)
{
    static written to, before;
    int looks = chance(16) == 0;
    uint64_t sum = looks ? seen(site, 1) : 0;
    excp_status status;
    memset(&to, 0xA5, sizeof to);
    before = to;
    lacks = 0;
    status = made_call(rarely() ? NULL : site, &to);
    is_a_status(status);
    if (status == EXCP_OK && lacks)
        wrong("it succeeded with a NULL pointer", status);
    if (status == EXCP_NO_SITE || status == EXCP_NO_MEMORY)
        wrong("on a site that is there, with memory", status);
    if (status != EXCP_OK && memcmp(&to, &before, sizeof to) != 0)
        wrong("it wrote without success", status);
    if (status != EXCP_OK && looks && ((!has_reason(status) && !is_kept(site)) || seen(site, 1) != sum))
        wrong("it changed the site without success", status);
}

/* Makes a call on a handle without a site. */
static void test_without_site(excp_site *site)
{
    static written to, before;
    excp_status status;
    memset(&to, 0xA5, sizeof to);
    before = to;
    status = chance(8) ? made_call(site, &to) : excp_site_free(site);
    is_a_status(status);
    if (status == EXCP_OK || memcmp(&to, &before, sizeof to) != 0)
        wrong("it succeeded, or wrote, without a site", status);
}

/* Makes a site, or tries to with wrong numbers. */
static void test_new(excp_site *site)
{
    int has = site->at != NULL, lacks_site = rarely();
    excp_status status = excp_site_new(lacks_site ? NULL : site, rarely() ? 0 : 3, rarely() ? 0 : 1 + chance(8));
    is_a_status(status);
    if (status == EXCP_OK && (lacks_site || has || !site->at))
        wrong("a site was made, or none", status);
    if (status == EXCP_SITE_IN_USE && !has)
        wrong("in use without a site", status);
}

int main(int count, char **words)
{
    static excp_site sites[HANDLES];
    static const excp_site none = EXCP_SITE_INIT;
    struct timespec begun, now;
    double seconds = count > 2 ? atof(words[2]) : 1;
    int kinds = 0;
    seed = count > 1 ? strtoull(words[1], NULL, 10) : 1;
    state = seed * 2654435761u + 88172645463325252u;
    clock_gettime(CLOCK_MONOTONIC, &begun);
    do {
        excp_site *site = &sites[chance(HANDLES)];
        if (rarely() || !site->at)
            test_new(site);
        for (uint32_t left = chance(CALLS_OF_A_SITE); left > 0 && site->at; left--)
            test_call(site);
        if (site->at && excp_site_free(site) != EXCP_OK)
            wrong("a site is not freed", EXCP_OK);
        if (memcmp(site, &none, sizeof none) != 0)
            wrong("a freed handle is not as at first", EXCP_OK);
        for (uint32_t left = chance(20); left > 0; left--)
            test_without_site(site);
        clock_gettime(CLOCK_MONOTONIC, &now);
    } while ((double)(now.tv_sec - begun.tv_sec) + 1e-9 * (double)(now.tv_nsec - begun.tv_nsec) < seconds);
    free(kept);
    for (int status = 0; status <= EXCP_IN_ERROR; status++)
        kinds += ended[status] > 0;
    printf("%llu calls, %lu of them successful, %d kinds of status\n", (unsigned long long)made, ended[EXCP_OK], kinds);
    return 0;
}
