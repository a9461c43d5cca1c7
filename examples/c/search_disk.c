/* Searches a disk, reads and writes its records, and saves its image:
 *
 *     search_disk [FILE]
 *
 * The disk is a CKD_P370 image of one track with two records, made in memory. The first command meets a data check, so the request
 * is started again. A purge halts the second request. The third one writes record 2. The image then goes to FILE, if it is named.
 * After a checkpoint the fourth request reads what was written. */
#include "excp.h"
#include "excp_blocks.h"

#include <stdio.h>
#include <stdlib.h>
#include <string.h>

/* Where the storage of a request lies, and where in it the parts are. The IOB is at its start. */
enum { BASE = 0x1000, ECB = 0x28, PROGRAM = 0x30, ARGUMENT = 0x48, DATA = 0x50, DATA_LENGTH = 8, LENGTH = DATA + DATA_LENGTH };

/* The image: a header, and a track with its home address, R0, two records and the end mark. */
enum { HEADER = 512, TRACK = 64, IMAGE = HEADER + TRACK };

static excp_site site = EXCP_SITE_INIT;
static uint16_t disk, dcb;

/* Ends the program if a call failed. */
static void check(const char *what, excp_status status)
{
    if (status != EXCP_OK) {
        fprintf(stderr, "search_disk: %s: %s\n", what, excp_message(status));
        exit(1);
    }
}

/* Stores a record of cylinder 0 and head 0 without a key, and returns the place after it. */
static uint8_t *put_record(uint8_t *to, uint8_t number, const char *data)
{
    memset(to, 0, 8);
    to[4] = number;
    excp_store_number(to + 6, 2, DATA_LENGTH);
    memcpy(to + 8, data, DATA_LENGTH);
    return to + 8 + DATA_LENGTH;
}

/* Makes the image (docs/FORMATS.md). */
static void make_image(uint8_t *image)
{
    uint8_t *at = image + HEADER + 5;
    memset(image, 0, IMAGE);
    memcpy(image, "CKD_P370", 8);
    image[8] = 1; /* a track a cylinder */
    image[12] = TRACK;
    image[16] = 0x90;
    at = put_record(at, 0, "\0\0\0\0\0\0\0");
    at = put_record(at, 1, "FIRST...");
    at = put_record(at, 2, "SECOND..");
    memset(at, 0xFF, 8);
}

/* Mounts the disk, whose first command ends with a data check, and opens DCB 1 for output on its track. */
static void set_up(void)
{
    const excp_room room = { 4, 4 };
    const excp_extent track = { 0, 0, 0, 0, 1 };
    uint8_t image[IMAGE], extent[EXCP_EXTENT_LENGTH];
    make_image(image);
    excp_store_extent(extent, &track);
    check("site", excp_site_new(&site, 1, 4));
    check("fault", excp_put_fault(&site, 1, EXCP_UNIT_CHECK_END, 0, EXCP_SENSE_DATA_CHECK));
    check("disk", excp_mount_ckd(&site, image, sizeof image, &room, &disk));
    check("open", excp_open(&site, disk, EXCP_OUTPUT, extent, sizeof extent, &dcb));
}

/* Issues a request that searches for a record, and reads its data or writes these. */
static void issue(uint8_t record, uint8_t command, const char *data)
{
    const excp_iob iob = { .ecb = BASE + ECB, .start = BASE + PROGRAM, .dcb = dcb, .flags = EXCP_IOB_UNRELATED };
    uint8_t storage[LENGTH] = { 0 };
    uint64_t number;
    excp_store_iob(storage, &iob);
    excp_store_ccw(storage + PROGRAM, EXCP_OP_SIDE, BASE + ARGUMENT, EXCP_FLAG_CC, 5);
    excp_store_ccw(storage + PROGRAM + 8, EXCP_OP_TIC, BASE + PROGRAM, 0, 0);
    excp_store_ccw(storage + PROGRAM + 16, command, BASE + DATA, 0, DATA_LENGTH);
    storage[ARGUMENT + 4] = record;
    memcpy(storage + DATA, data, DATA_LENGTH);
    check("issue", excp_issue(&site, 0, disk, dcb, BASE, BASE, storage, sizeof storage, &number));
}

/* Serves the disk, and prints how the next request ended, as a run does. */
static void show_post(void)
{
    excp_served served;
    excp_post post;
    uint8_t storage[LENGTH];
    check("serve", excp_serve(&site, disk, UINT32_MAX, &served));
    check("post", excp_next_post(&site, 0, &post, storage, sizeof storage));
    printf("post 0 %u %u %02X %06X ", (unsigned)post.unit, (unsigned)post.number, (unsigned)post.code, (unsigned)post.address);
    printf("%02X%02X %04X ", (unsigned)post.unit_status, (unsigned)post.channel_status, (unsigned)post.residual);
    printf("%04X %.8s\n", (unsigned)post.sense, (const char *)storage + DATA);
}

/* Starts the request in flight, and does its first command. */
static excp_answer begin(void)
{
    excp_answer answer;
    check("take", excp_take(&site, disk, &answer));
    check("start", excp_start(&site, disk, &answer));
    check("run", excp_run(&site, disk, 1, &answer));
    return answer;
}

/* The data check is tried again. */
static void retry(void)
{
    excp_answer answer;
    issue(1, EXCP_OP_RD, "........");
    answer = begin();
    printf("pending %d ", answer.kind == EXCP_RAN_PENDING);
    check("interrupt", excp_interrupt(&site, disk, &answer));
    printf("again %d\n", answer.kind == EXCP_AGAIN);
    show_post();
}

/* The purge halts the program that runs. */
static void halt(void)
{
    excp_answer answer;
    issue(2, EXCP_OP_RD, "........");
    begin();
    check("purge", excp_purge(&site, disk, dcb, EXCP_HALT, &answer));
    printf("active %d\n", answer.kind == EXCP_ACTIVE);
    show_post();
}

/* Writes the image to a file, if it is named, and prints the data of record 2 in it. */
static void save(const char *name)
{
    size_t length;
    uint8_t *image;
    FILE *file = name ? fopen(name, "wb") : NULL;
    check("image", excp_make_image(&site, disk, &length));
    image = malloc(length);
    check("copy", image ? excp_copy_out(&site, 0, image, length) : EXCP_NO_MEMORY);
    printf("image of %u bytes: %.8s\n", (unsigned)length, (const char *)image + HEADER + 5 + 16 + 16 + 8);
    if (name && (!file || fwrite(image, 1, length, file) != length || fclose(file) != 0)) {
        perror(name);
        exit(1);
    }
    free(image);
}

int main(int count, char **words)
{
    set_up();
    retry();
    halt();
    issue(2, EXCP_OP_WD, "CHANGED.");
    show_post();
    save(count > 1 ? words[1] : NULL);
    check("checkpoint", excp_checkpoint(&site, disk));
    issue(2, EXCP_OP_RD, "........");
    show_post();
    check("free", excp_site_free(&site));
    return 0;
}
