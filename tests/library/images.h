/* Small images of a tape and of a disk, for tests (docs/FORMATS.md). */
#ifndef IMAGES_H
#define IMAGES_H

#include <stdint.h>
#include <string.h>

/* A block of three bytes in two chunks, and a tape mark: two bytes of data, one, and none, each behind the length of its own data
 * and of that of the chunk before. */
static const uint8_t TAPE_IMAGE[] = {
    2, 0, 0, 0, 0x80, 0, 0xC1, 0xC2,
    1, 0, 2, 0, 0x20, 0, 0xC3,
    0, 0, 1, 0, 0x40, 0,
};

enum { DISK_HEADER = 512, DISK_TRACK = 64, DISK_IMAGE = DISK_HEADER + DISK_TRACK };

/* A disk of one track with its R0 and a record of four bytes. */
static void put_disk_image(uint8_t *image)
{
    uint8_t *track = image + DISK_HEADER;
    memset(image, 0, DISK_IMAGE);
    memcpy(image, "CKD_P370", 8);
    image[8] = 1;
    image[12] = DISK_TRACK;
    image[16] = 0x90;
    track[5 + 7] = 8;
    track[21 + 4] = 1;
    track[21 + 7] = 4;
    memset(track + 29, 0xC1, 4);
    memset(track + 33, 0xFF, 8);
}

#endif
