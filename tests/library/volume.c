/* Measures the memory and the time of a large disk: `volume CYLINDERS REQUESTS`, of 19 heads and 13,312 bytes a track.
 *
 * The disk comes from an image. The memory is that of the site, in times of the bytes of all tracks: after the mount, at the most while
 * it was mounted, and at the most during a checkpoint after these requests. */
#define _GNU_SOURCE
#include "excp.h"
#include "excp_blocks.h"

#include <malloc.h>
#include <stdio.h>
#include <stdlib.h>
#include <string.h>
#include <time.h>

enum { HEADS = 19, TRACK = 13312, HEADER = 512, BASE = 0x1000, LENGTH = 0x68 };

extern void *__libc_malloc(size_t);
extern void *__libc_realloc(void *, size_t);
extern void *__libc_memalign(size_t, size_t);
extern void __libc_free(void *);

/* The bytes in use, and the most of them. */
static size_t used, most;

static void *counted(void *block)
{
    used += malloc_usable_size(block);
    if (used > most)
        most = used;
    return block;
}

void *malloc(size_t size)
{
    return counted(__libc_malloc(size));
}

void *realloc(void *block, size_t size)
{
    const size_t before = malloc_usable_size(block);
    void *made = __libc_realloc(block, size);
    used -= made ? before : 0;
    return made ? counted(made) : NULL;
}

void *aligned_alloc(size_t alignment, size_t size)
{
    return counted(__libc_memalign(alignment, size));
}

void free(void *block)
{
    used -= malloc_usable_size(block);
    __libc_free(block);
}

static int failed(const char *what, excp_status status)
{
    if (status != EXCP_OK)
        fprintf(stderr, "volume: %s: %s\n", what, excp_message(status));
    return status != EXCP_OK;
}

static double milliseconds(void)
{
    struct timespec now;
    clock_gettime(CLOCK_PROCESS_CPUTIME_ID, &now);
    return now.tv_sec * 1e3 + now.tv_nsec / 1e6;
}

/* The image of a disk whose tracks have R0 alone (docs/FORMATS.md), in memory that is not counted. */
static uint8_t *image_of(size_t cylinders)
{
    uint8_t *image = __libc_malloc(HEADER + cylinders * HEADS * TRACK);
    if (!image)
        exit(2);
    memset(image, 0, HEADER + cylinders * HEADS * TRACK);
    memcpy(image, "CKD_P370", 8);
    image[8] = HEADS;
    image[12] = TRACK & 0xFF;
    image[13] = TRACK >> 8;
    image[16] = 0x30;
    for (size_t at = 0; at < cylinders * HEADS; at++) {
        uint8_t *track = image + HEADER + at * TRACK;
        track[1] = track[5] = (uint8_t)(at / HEADS >> 8);
        track[2] = track[6] = (uint8_t)(at / HEADS);
        track[4] = track[8] = (uint8_t)(at % HEADS);
        track[12] = 8;
        memset(track + 21, 0xFF, 8);
    }
    return image;
}

/* Issues these requests one after another, each a no-operation, and collects each. */
static int serve(excp_site *site, long requests)
{
    excp_iob iob = { .ecb = BASE + 0x28, .start = BASE + 0x30, .dcb = 1 };
    uint8_t storage[LENGTH] = { 0 };
    excp_served served;
    excp_post post;
    uint64_t number;
    excp_store_iob(storage, &iob);
    excp_store_ccw(storage + 0x30, EXCP_OP_NOP, BASE, EXCP_FLAG_SLI, 1);
    while (requests-- > 0) {
        uint8_t left[LENGTH];
        if (failed("issue", excp_issue(site, 0, 0, 1, BASE, BASE, storage, LENGTH, &number))
            || failed("serve", excp_serve(site, 0, 16, &served)) || failed("post", excp_next_post(site, 0, &post, left, LENGTH))
            || post.code != 0x7F)
            return 1;
    }
    return 0;
}

int main(int count, char **words)
{
    const long cylinders = count == 3 ? atol(words[1]) : 0, requests = count == 3 ? atol(words[2]) : 0;
    const double size = (double)cylinders * HEADS * TRACK;
    excp_site site = EXCP_SITE_INIT;
    const excp_room room = { 1, 1 };
    const excp_extent first = { .end_head = HEADS - 1, .tracks = HEADS };
    uint8_t extent[EXCP_EXTENT_LENGTH], *image;
    uint16_t unit, dcb;
    double mounted, at_mount, begun, took;
    if (cylinders <= 0 || cylinders > 3000 || requests <= 0)
        return 2;
    image = image_of(cylinders);
    excp_store_extent(extent, &first);
    if (failed("site", excp_site_new(&site, 1, 1))
        || failed("mount", excp_mount_ckd(&site, image, HEADER + (size_t)size, &room, &unit))
        || failed("open", excp_open(&site, unit, EXCP_OUTPUT, extent, sizeof extent, &dcb)))
        return 1;
    mounted = used / size;
    at_mount = most / size;
    if (serve(&site, requests))
        return 1;
    most = used;
    begun = milliseconds();
    if (failed("checkpoint", excp_checkpoint(&site, unit)))
        return 1;
    took = milliseconds() - begun;
    printf("%.1f MiB: %.2f times that mounted, %.2f at the most before; %.2f during a checkpoint, which took %.3f ms\n",
           size / (1 << 20), mounted, at_mount, most / size, took);
    return failed("free", excp_site_free(&site));
}
