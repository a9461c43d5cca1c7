/* Issues and serves many requests, with a checkpoint after each so many: `long_use 100000 100`. The memory in use stays as it was
 * after the first checkpoint, and numbers of requests go on. Without checkpoints it grows, which shows that the measure sees it, and
 * one more checkpoint gives that back. */
#include "excp.h"

#include <malloc.h>
#include <stdio.h>
#include <stdlib.h>
#include <string.h>

enum { FEW = 2000, BASE = 0x1000, LENGTH = 0x68, MOST_GROWTH = 65536, MOST_LEFT = 4096 };

/* A request of DCB 1 with a no-operation. */
static void put_request(uint8_t *storage)
{
    memset(storage, 0, LENGTH);
    storage[0] = 0x42;
    storage[6] = storage[18] = BASE >> 8;
    storage[7] = 0x28;
    storage[19] = 0x30;
    storage[23] = 1;
    storage[0x30] = 0x03;
    storage[0x37] = 1;
}

static int wrong(const char *what, uint64_t number)
{
    fprintf(stderr, "long_use: request %llu: %s\n", (unsigned long long)number, what);
    return 1;
}

static size_t in_use(void)
{
    struct mallinfo2 all = mallinfo2();
    return all.uordblks + all.hblkhd;
}

/* Issues some requests one after another, and collects each, with a checkpoint after each `step`, or none if that is 0. */
static int serve(excp_site *site, uint64_t from, uint64_t count, uint64_t step)
{
    uint8_t storage[LENGTH], left[LENGTH];
    excp_served served;
    excp_post post;
    put_request(storage);
    for (uint64_t at = from; at < from + count; at++) {
        uint64_t number;
        if (excp_issue(site, 0, 0, 1, BASE, BASE, storage, LENGTH, &number) != EXCP_OK || number != at)
            return wrong("it is not issued under its number", at);
        if (excp_serve(site, 0, 16, &served) != EXCP_OK || served.posts != 1 || served.commands != 1)
            return wrong("it is not served", at);
        if (excp_next_post(site, 0, &post, left, LENGTH) != EXCP_OK || post.number != at || post.code != 0x7F)
            return wrong("it has no post", at);
        if (step && at % step == 0 && excp_checkpoint(site, 0) != EXCP_OK)
            return wrong("no checkpoint after it", at);
    }
    return 0;
}

int main(int count, char **words)
{
    const uint64_t requests = count == 3 ? strtoull(words[1], NULL, 10) : 0, step = count == 3 ? strtoull(words[2], NULL, 10) : 0;
    excp_site site = EXCP_SITE_INIT;
    excp_room room = { 1, 1 };
    uint16_t unit, dcb;
    size_t begun, ended, grown;
    if (requests == 0 || step == 0 || excp_site_new(&site, 1, 1) != EXCP_OK
        || excp_mount_printer(&site, 1, 1, &room, &unit) != EXCP_OK
        || excp_open(&site, unit, EXCP_OUTPUT, NULL, 0, &dcb) != EXCP_OK || serve(&site, 1, step, step))
        return 1;
    begun = in_use();
    if (serve(&site, step + 1, requests, step))
        return 1;
    ended = in_use();
    if (ended > begun + MOST_GROWTH)
        return wrong("the memory in use has grown in spite of checkpoints", step + requests);
    if (serve(&site, step + requests + 1, FEW, 0))
        return 1;
    grown = in_use();
    if (grown < ended + FEW * (size_t)LENGTH)
        return wrong("without checkpoints the memory in use does not grow, so this measures nothing", step + requests + FEW);
    if (excp_checkpoint(&site, 0) != EXCP_OK || in_use() > ended + MOST_LEFT)
        return wrong("a checkpoint after it does not give back the memory of what happened", step + requests + FEW);
    if (excp_site_free(&site) != EXCP_OK)
        return wrong("the site is not freed", 0);
    printf("%llu requests with checkpoints take %ld bytes more, %d without take %lu\n", (unsigned long long)requests,
           (long)(ended - begun), FEW, (unsigned long)(grown - ended));
    return 0;
}
