/* Makes each allocation of each call fail in turn: alone, and with all that follow it.
 *
 * The calls of a list are made three times. The first time no allocation fails, and after each call all that can be seen of the
 * site is noted. The second and third time each call is made with its first allocation failing, then with its second, and so on
 * until it succeeds. All this is done again with more and more entries in the trace of each unit, made by resets of its DCB. So each call
 * that adds entries finds the trace full once, and short of one entry. A call that returns EXCP_NO_MEMORY leaves all as it was (but excp_serve and excp_settle, which keep what they
 * did), and the call that succeeds leaves what was noted. A call that is refused for a reason says it, or nothing if there was no memory
 * for the words. In the end no block is left. */
#define _GNU_SOURCE
#include "images.h"
#include "seen.h"

#include <errno.h>

extern void *__libc_malloc(size_t);
extern void *__libc_calloc(size_t, size_t);
extern void *__libc_realloc(void *, size_t);
extern void *__libc_memalign(size_t, size_t);
extern void __libc_free(void *);

/* The allocations of the call so far, which of them fails (none if 0), whether all that follow fail too, and all blocks. */
static unsigned long allocations, fails_at;
static int lasts;
static long blocks;

static int fails(void)
{
    allocations++;
    if (fails_at == 0 || !(allocations == fails_at || (lasts && allocations > fails_at)))
        return 0;
    errno = ENOMEM;
    return 1;
}

static void *counted(void *block)
{
    blocks += block != NULL;
    return block;
}

void *malloc(size_t size)
{
    return fails() ? NULL : counted(__libc_malloc(size));
}

void *calloc(size_t count, size_t size)
{
    return fails() ? NULL : counted(__libc_calloc(count, size));
}

void *realloc(void *block, size_t size)
{
    if (fails())
        return NULL;
    return block ? __libc_realloc(block, size) : counted(__libc_realloc(block, size));
}

void *aligned_alloc(size_t alignment, size_t size)
{
    return fails() ? NULL : counted(__libc_memalign(alignment, size));
}

void *memalign(size_t alignment, size_t size)
{
    return aligned_alloc(alignment, size);
}

int posix_memalign(void **block, size_t alignment, size_t size)
{
    void *made = aligned_alloc(alignment, size);
    if (made)
        *block = made;
    return made ? 0 : ENOMEM;
}

void free(void *block)
{
    blocks -= block != NULL;
    __libc_free(block);
}

/* --- the calls */

enum { BASE = 0x1000, LENGTH = 0x88 };

/* What calls write. A call that fails leaves it as it is. */
typedef struct {
    uint16_t short_number;
    uint64_t number;
    size_t length;
    uint32_t code;
    excp_channel_ran ran;
    excp_answer answer;
    excp_served served;
    excp_post post;
    uint8_t storage[LENGTH];
} written;

/* A request with the IOB of this DCB, and a program for its unit: a disk, a tape or a printer. */
static void put_request(uint8_t *storage, unsigned unit, uint8_t dcb, int is_related)
{
    static const uint8_t programs[][24] = {
        { 0x31, 0, 0x10, 0x50, 0x40, 0, 0, 5, 0x08, 0, 0x10, 0x30, 0, 0, 0, 0, 0x06, 0, 0x10, 0x60, 0, 0, 0, 4 },
        { 0x02, 0, 0x10, 0x60, 0x20, 0, 0, 16 },
        { 0x09, 0, 0x10, 0x50, 0, 0, 0, 16 },
    };
    memset(storage, 0, LENGTH);
    storage[0] = is_related ? 0x40 : 0x42;
    storage[6] = storage[18] = 0x10;
    storage[7] = 0x28;
    storage[19] = 0x30;
    storage[23] = dcb;
    memcpy(storage + 0x30, programs[unit], sizeof programs[unit]);
    storage[0x54] = 1;
}

static excp_status issue(excp_site *site, uint16_t task, uint16_t unit, uint8_t dcb, int is_related, written *to)
{
    uint8_t storage[LENGTH];
    put_request(storage, unit, dcb, is_related);
    return excp_issue(site, task, unit, dcb, BASE, BASE, storage, LENGTH, &to->number);
}

/* Runs channel 0 on the storage of a request of a tape, which stays as it is if the call fails. */
static int run_channel(excp_site *site, written *to)
{
    uint8_t before[LENGTH], storage[LENGTH];
    int status;
    put_request(before, 1, 1, 0);
    memcpy(storage, before, LENGTH);
    status = excp_channel_run(site, 0, 10, BASE, storage, LENGTH, &to->ran);
    if (status == EXCP_OK)
        memcpy(to->storage, storage, LENGTH);
    else if (memcmp(before, storage, LENGTH) != 0)
        return EXCP_BAD_PROGRAM;
    return status;
}

enum { CHANGES_NOTHING, SERVES };

/* The first call that keeps what it did. From there on histories differ, since an attempt that ended early is gone on with by
 * taking. */
enum { FIRST_SERVE = 31 };

/* The calls that make records, whose lengths differ with these histories. */
enum { FIRST_RECORD = 41, LAST_RECORD = 44 };

/* Makes the call with this number. `kind` says whether it keeps what it did if memory runs out. */
static int call(excp_site *site, int number, written *to, int *kind)
{
    static const uint8_t block[] = { 0xC1, 0xC2, 0xC3, 0xC4 };
    static const uint8_t extent[16] = { 0x18, [15] = 1 };
    static const excp_room room = { 8, 8 };
    static uint8_t disk[DISK_IMAGE];
    *kind = number == FIRST_SERVE || number == 36 || number == 37 ? SERVES : CHANGES_NOTHING;
    switch (number) {
    case 0: return excp_site_new(site, 2, 8);
    case 1: return excp_put_record(site, 0, 0, 1, NULL, 0, block, sizeof block);
    case 2: return excp_put_fault(site, 4, 0x0E, 0, 0x0800);
    case 3: return excp_mount_disk(site, 1, 1, 40, &room, &to->short_number);
    case 4: return excp_put_block(site, block, sizeof block);
    case 5: return excp_put_tape_mark(site);
    case 6: return excp_put_block(site, block, 1);
    case 7: return excp_mount_tape(site, 100, &room, &to->short_number);
    case 8: return excp_mount_printer(site, 10, 2, &room, &to->short_number);
    case 9: return excp_put_block(site, block, 2);
    case 10: return excp_clear_medium(site);
    case 11: return excp_open(site, 0, EXCP_OUTPUT, extent, sizeof extent, &to->short_number);
    case 12: return excp_open(site, 0, EXCP_INPUT, extent, sizeof extent, &to->short_number);
    case 13: return excp_open(site, 1, EXCP_OUTPUT, NULL, 0, &to->short_number);
    case 14: return excp_open(site, 2, EXCP_OUTPUT, NULL, 0, &to->short_number);
    case 15: return issue(site, 0, 0, 1, 0, to);
    case 16: return excp_take(site, 0, &to->answer);
    case 17: return excp_start(site, 0, &to->answer);
    case 18: return excp_run(site, 0, 1, &to->answer);
    case 19: return excp_run(site, 0, 10, &to->answer);
    case 20: return excp_interrupt(site, 0, &to->answer);
    case 21: return excp_deliver(site, 0, &to->answer);
    case 22: return issue(site, 1, 0, 1, 0, to);
    case 23: return excp_take(site, 0, &to->answer);
    case 24: return excp_start(site, 0, &to->answer);
    case 25: return excp_run(site, 0, 10, &to->answer);
    case 26: return excp_interrupt(site, 0, &to->answer);
    case 27: return issue(site, 0, 0, 1, 1, to);
    case 28: return issue(site, 1, 0, 2, 1, to);
    case 29: return excp_take(site, 0, &to->answer);
    case 30: return excp_purge(site, 0, 1, EXCP_QUIESCE, &to->answer);
    case 31: return excp_settle(site, 0);
    case 32: return excp_purge_task(site, 0, 1, EXCP_HALT, &to->answer);
    case 33: return issue(site, 0, 1, 1, 1, to);
    case 34: return issue(site, 0, 1, 1, 1, to);
    case 35: return issue(site, 1, 1, 1, 1, to);
    case 36: return excp_serve(site, 1, 100, &to->served);
    case 37: return excp_serve(site, 0, 100, &to->served);
    case 38: return excp_reset(site, 1, 1);
    case 39: return excp_close(site, 0, 2, &to->answer);
    case 40: return issue(site, 0, 2, 1, 0, to);
    case 41: return excp_make_record(site, 0, 0, &to->length);
    case 42: return excp_make_record(site, 1, 5, &to->length);
    case 43: return excp_make_record(site, 0, UINT64_MAX, &to->length);
    case 44: return excp_make_record(site, 2, 1, &to->length);
    case 45: return excp_next_post(site, 0, &to->post, to->storage, sizeof to->storage);
    case 46: return excp_next_post(site, 0, &to->post, to->storage, sizeof to->storage);
    case 47: return excp_next_post(site, 0, &to->post, to->storage, sizeof to->storage);
    case 48: return excp_next_post(site, 0, &to->post, to->storage, sizeof to->storage);
    case 49: return excp_next_post(site, 1, &to->post, to->storage, sizeof to->storage);
    case 50: return excp_next_post(site, 1, &to->post, to->storage, sizeof to->storage);
    case 51: return excp_next_post(site, 1, &to->post, to->storage, sizeof to->storage);
    case 52: return excp_checkpoint(site, 0);
    case 53: return excp_checkpoint(site, 1);
    case 54: return issue(site, 0, 0, 1, 0, to);
    case 55: return excp_mount_aws(site, TAPE_IMAGE, sizeof TAPE_IMAGE, 100, &room, &to->short_number);
    case 56: put_disk_image(disk); return excp_mount_ckd(site, disk, sizeof disk, &room, &to->short_number);
    case 57: return excp_make_image(site, 2, &to->length);
    case 58: return excp_make_image(site, 3, &to->length);
    case 59: return excp_make_image(site, 4, &to->length);
    case 60: return excp_open(site, 0, EXCP_OUTPUT, NULL, 0, &to->short_number);
    case 61: return excp_issue(site, 0, 0, 1, BASE + 2, BASE, block, 4, &to->number);
    case 62: return excp_channel_new(site, 1, &to->code);
    case 63: return excp_channel_start(site, 0, BASE + 0x30, 0, 0, 0, &to->code);
    case 64: return run_channel(site, to);
    case 65: return excp_channel_make_image(site, 0, &to->length);
    case 66: return excp_channel_free(site, 0);
    default: return EXCP_BAD_NUMBER;
    }
}

/* --- the test */

enum { CALLS = 67 };

/* How an attempt ended: the call succeeded, it ran out of memory and left all as it was, or something is wrong. */
enum { DONE, REFUSED, WRONG };

static uint64_t noted[CALLS];
static unsigned long tried, refused;

static int wrong(int number, unsigned long place, const char *what)
{
    fprintf(stderr, "out_of_memory: call %d, allocation %lu%s: %s\n", number, place, lasts ? " and all after it" : "", what);
    return WRONG;
}

/* After a call that is refused for a reason: whether it is there, or nothing if the memory for it failed. */
static int explained(excp_site *site, int number, unsigned long place)
{
    size_t length = 0;
    int is_full = place == 0 || allocations < place;
    if (excp_made_length(site, &length) != EXCP_OK || (is_full && length == 0))
        return wrong(number, place, "no reason");
    kept_length = 0;
    return is_full ? DONE : REFUSED;
}

/* Makes a call with the allocation at a place failing, or none if that is 0. */
static int attempt(excp_site *site, int number, unsigned long place, written *to)
{
    int kind, status;
    written before = *to;
    uint64_t sum = number > 0 ? seen(site, 1) : 0;
    allocations = 0;
    fails_at = place;
    status = call(site, number, to, &kind);
    fails_at = 0;
    tried++;
    if (status == EXCP_OK)
        return DONE;
    if (status == EXCP_BAD_EXTENT || status == EXCP_BAD_IOB)
        return explained(site, number, place);
    if (status != EXCP_NO_MEMORY || place == 0)
        return wrong(number, place, excp_message((excp_status)status));
    refused++;
    if (memcmp(&before, to, sizeof before) != 0)
        return wrong(number, place, "it wrote what it was to leave");
    if (number == 0)
        return site->at ? wrong(number, place, "it made a site") : REFUSED;
    if (!is_kept(site))
        return wrong(number, place, "the bytes that the site keeps changed");
    if (kind != SERVES && seen(site, 1) != sum)
        return wrong(number, place, "the site changed");
    return REFUSED;
}

/* After the DCBs were opened: entries that fill the traces, up to the room that a trace makes at once. */
enum { FIRST_ISSUE = 15, MOST_FILLED = 16 };

static int fill(excp_site *site, int entries)
{
    for (uint16_t unit = 0; unit < 3; unit++)
        for (int at = 0; at < entries; at++)
            if (excp_reset(site, unit, 1) != EXCP_OK)
                return wrong(FIRST_ISSUE, 0, "a trace is not filled");
    return DONE;
}

/* Makes all calls. If `failing`, each is made with one allocation failing after another. */
static int make_all(excp_site *site, int failing, int entries)
{
    written to;
    memset(&to, 0xA5, sizeof to);
    for (int number = 0; number < CALLS; number++) {
        int ended = REFUSED;
        uint64_t sum;
        if (number == FIRST_ISSUE && fill(site, entries) != DONE)
            return 1;
        for (unsigned long place = failing ? 1 : 0; ended == REFUSED; place++)
            ended = attempt(site, number, place, &to);
        if (ended == WRONG)
            return 1;
        /* the attempts of a serve count only what each did */
        memset(&to.served, 0, sizeof to.served);
        if (FIRST_RECORD <= number && number <= LAST_RECORD)
            to.length = 0;
        sum = mixed(seen(site, number < FIRST_SERVE), &to, sizeof to);
        if (failing && sum != noted[number])
            return wrong(number, 0, "it left another state than with memory");
        noted[number] = sum;
    }
    return 0;
}

int main(void)
{
    int failed = 0;
    for (int run = 0; run < 3 * MOST_FILLED && !failed; run++) {
        excp_site site = EXCP_SITE_INIT;
        int form = run % 3;
        long before;
        free(kept);
        kept = NULL;
        kept_length = 0;
        before = blocks;
        lasts = form == 2;
        failed = make_all(&site, form > 0, run / 3);
        if (excp_site_free(&site) != EXCP_OK)
            failed = wrong(CALLS, 0, "the site is not freed");
        free(kept);
        kept = NULL;
        if (blocks != before)
            failed = wrong(CALLS, 0, "blocks are left");
    }
    if (!failed)
        printf("%lu attempts, %lu of them without memory\n", tried, refused);
    return failed || refused == 0;
}
