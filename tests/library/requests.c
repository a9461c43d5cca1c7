/* Makes small requests of a disk, by single events or by excp_serve, and measures them: `requests events 1000`,
 * `requests serve 1000`. Each searches for a record, transfers back and reads it, as a book cycle of bench_steps does. */
#include "excp.h"

#include <stdio.h>
#include <stdlib.h>
#include <string.h>
#include <time.h>

enum { BASE = 0x1000, LENGTH = 104, STEP = 1000 };

static const uint8_t STORAGE[LENGTH] = {
    [0] = 0x42, [6] = 0x10, [7] = 0x28, [18] = 0x10, [19] = 0x30, [23] = 1, [31] = 1,
    [48] = 0x31, [50] = 0x10, [51] = 0x50, [52] = 0x40, [55] = 5,
    [56] = 0x08, [58] = 0x10, [59] = 0x30,
    [64] = 0x06, [66] = 0x10, [67] = 0x60, [71] = 4,
    [84] = 1,
};

static const uint8_t EXTENT[16] = { [0] = 0x18, [15] = 1 };

static int failed(const char *what, excp_status status)
{
    if (status != EXCP_OK)
        fprintf(stderr, "requests: %s: %s\n", what, excp_message(status));
    return status != EXCP_OK;
}

static int is_done_by_events(excp_site *site)
{
    excp_answer answer;
    return !failed("take", excp_take(site, 0, &answer)) && !failed("start", excp_start(site, 0, &answer))
        && !failed("run", excp_run(site, 0, UINT32_MAX, &answer)) && !failed("interrupt", excp_interrupt(site, 0, &answer))
        && !failed("deliver", excp_deliver(site, 0, &answer));
}

static int is_done_by_serve(excp_site *site)
{
    excp_served served;
    return !failed("serve", excp_serve(site, 0, UINT32_MAX, &served));
}

/* Issues a request, has it done, and collects its post. */
static int is_posted(excp_site *site, int (*is_done)(excp_site *))
{
    uint8_t left[LENGTH];
    uint64_t number;
    excp_post post;
    return !failed("issue", excp_issue(site, 0, 0, 1, BASE, BASE, STORAGE, LENGTH, &number)) && is_done(site)
        && !failed("next_post", excp_next_post(site, 0, &post, left, LENGTH)) && post.code == 0x7F && left[96] == 0xC1;
}

/* A disk of one track with one record, and its DCB 1. */
static int is_set_up(excp_site *site)
{
    const excp_room room = { 1, 1 };
    const uint8_t data[4] = { 0xC1, 0xC1, 0xC1, 0xC1 };
    uint16_t unit, dcb;
    return !failed("site", excp_site_new(site, 1, 1)) && !failed("record", excp_put_record(site, 0, 0, 1, NULL, 0, data, 4))
        && !failed("disk", excp_mount_disk(site, 1, 1, 28, &room, &unit))
        && !failed("open", excp_open(site, unit, EXCP_OUTPUT, EXTENT, 16, &dcb));
}

int main(int count, char **words)
{
    const long requests = count == 3 ? atol(words[2]) : 0;
    const int by_events = count == 3 && !strcmp(words[1], "events");
    excp_site site = EXCP_SITE_INIT;
    clock_t begun;
    double seconds;
    if (requests <= 0 || !is_set_up(&site)) {
        fprintf(stderr, "usage: requests events|serve COUNT\n");
        return 2;
    }
    begun = clock();
    for (long at = 1; at <= requests; at++)
        if (!is_posted(&site, by_events ? is_done_by_events : is_done_by_serve)
            || (at % STEP == 0 && failed("checkpoint", excp_checkpoint(&site, 0))))
            return 1;
    seconds = (double)(clock() - begun) / CLOCKS_PER_SEC;
    printf("%ld requests in %.3f processor seconds\n", requests, seconds);
    return failed("free", excp_site_free(&site));
}
