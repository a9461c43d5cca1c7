/* excp_blocks.h: what lies in the storage of a request, for programs that use excp.h: the constants of control blocks, commands,
 * status and sense, and functions that store a block (docs/SPECIFICATION.md, rules 3.2 to 3.9, 4.1, 4.2 and 4.10).
 *
 * A function stores all bytes of its block, big-endian. Of an address it stores the low 24 bits. It needs no library. */
#ifndef EXCP_BLOCKS_H
#define EXCP_BLOCKS_H

#include <stdint.h>
#include <string.h>

#ifdef __cplusplus
extern "C" {
#endif

/* ---- Constants ------------------------------------------------------------------------------------------------------- */

/* The commands by their mnemonics (docs/ASSEMBLER.md). Some codes have a name for each kind of device. */
enum {
    EXCP_OP_NOP = 0x03, /* every device: no-operation */
    EXCP_OP_SNS = 0x04, /* sense */
    EXCP_OP_TIC = 0x08, /* transfer in channel */

    EXCP_OP_SIDE = 0x31, /* disk: search ID equal */
    EXCP_OP_SKE = 0x29,  /* search key equal */
    EXCP_OP_RD = 0x06,   /* read data */
    EXCP_OP_RKD = 0x0E,  /* read key and data */
    EXCP_OP_RCKD = 0x1E, /* read count, key and data */
    EXCP_OP_RC = 0x12,   /* read count */
    EXCP_OP_WD = 0x05,   /* write data */
    EXCP_OP_WKD = 0x0D,  /* write key and data */
    EXCP_OP_WCKD = 0x1D, /* write count, key and data */
    EXCP_OP_SEEK = 0x07, /* seek */
    EXCP_OP_SFM = 0x1F,  /* set file mask */

    EXCP_OP_WRT = 0x01, /* tape: write */
    EXCP_OP_RDF = 0x02, /* read */
    EXCP_OP_RDB = 0x0C, /* read backward */
    EXCP_OP_WTM = 0x1F, /* write tape mark */
    EXCP_OP_REW = 0x07, /* rewind */
    EXCP_OP_BSB = 0x27, /* backspace block */
    EXCP_OP_BSF = 0x2F, /* backspace file */
    EXCP_OP_FSB = 0x37, /* forward space block */
    EXCP_OP_FSF = 0x3F, /* forward space file */

    EXCP_OP_PR0 = 0x01,  /* printer: print */
    EXCP_OP_PR1 = 0x09,  /* print, space 1 */
    EXCP_OP_PR2 = 0x11,  /* print, space 2 */
    EXCP_OP_PR3 = 0x19,  /* print, space 3 */
    EXCP_OP_PRC1 = 0x89, /* print, skip to the next page */
    EXCP_OP_SP1 = 0x0B,  /* space 1 */
    EXCP_OP_SP2 = 0x13,  /* space 2 */
    EXCP_OP_SP3 = 0x1B,  /* space 3 */
    EXCP_OP_SKC1 = 0x8B  /* skip to the next page */
};

/* The flags of a CCW. */
enum {
    EXCP_FLAG_CD = 0x80,   /* chain data */
    EXCP_FLAG_CC = 0x40,   /* chain command */
    EXCP_FLAG_SLI = 0x20,  /* suppress length indication */
    EXCP_FLAG_SKIP = 0x10, /* store nothing */
    EXCP_FLAG_PCI = 0x08,  /* program-controlled interruption, which is ignored */
    EXCP_FLAG_IDA = 0x04   /* indirect data address */
};

/* The flags of an IOB. Command chaining and data chaining are kept and not looked at. */
enum {
    EXCP_IOB_DATA_CHAINING = 0x80,
    EXCP_IOB_COMMAND_CHAINING = 0x40,
    EXCP_IOB_IO_ERROR = 0x04, /* set by a post with another code than 7F */
    EXCP_IOB_UNRELATED = 0x02 /* an error of another request does not doom this one */
};

/* The completion codes, in excp_post and in the ECB. */
enum {
    EXCP_CODE_ENDED = 0x7F,
    EXCP_CODE_PERMANENT_ERROR = 0x41,
    EXCP_CODE_EXTENT_VIOLATED = 0x42,
    EXCP_CODE_PURGED = 0x48
};

/* The bits of unit status, and the statuses with which commands of the devices end. */
enum {
    EXCP_UNIT_ATTENTION = 0x80,
    EXCP_UNIT_STATUS_MODIFIER = 0x40,
    EXCP_UNIT_CONTROL_UNIT_END = 0x20,
    EXCP_UNIT_BUSY = 0x10,
    EXCP_UNIT_CHANNEL_END = 0x08,
    EXCP_UNIT_DEVICE_END = 0x04,
    EXCP_UNIT_CHECK = 0x02,
    EXCP_UNIT_EXCEPTION = 0x01,

    EXCP_UNIT_NORMAL_END = 0x0C,
    EXCP_UNIT_MODIFIER_END = 0x4C,
    EXCP_UNIT_CHECK_END = 0x0E,
    EXCP_UNIT_EXCEPTION_END = 0x0D
};

/* The bits of subchannel status, which is `channel_status` of excp_post. */
enum {
    EXCP_CHANNEL_PROGRAM_CONTROLLED_INTERRUPTION = 0x80,
    EXCP_CHANNEL_INCORRECT_LENGTH = 0x40,
    EXCP_CHANNEL_PROGRAM_CHECK = 0x20,
    EXCP_CHANNEL_PROTECTION_CHECK = 0x10,
    EXCP_CHANNEL_DATA_CHECK = 0x08,
    EXCP_CHANNEL_CONTROL_CHECK = 0x04,
    EXCP_CHANNEL_INTERFACE_CONTROL_CHECK = 0x02,
    EXCP_CHANNEL_CHAINING_CHECK = 0x01
};

/* The bits of the sense bytes 0 and 1 as one number, as in excp_post. */
enum {
    EXCP_SENSE_COMMAND_REJECT = 0x8000,
    EXCP_SENSE_INTERVENTION_REQUIRED = 0x4000,
    EXCP_SENSE_BUS_OUT_CHECK = 0x2000,
    EXCP_SENSE_EQUIPMENT_CHECK = 0x1000,
    EXCP_SENSE_DATA_CHECK = 0x0800,
    EXCP_SENSE_OVERRUN = 0x0400,
    EXCP_SENSE_INVALID_TRACK_FORMAT = 0x0040,
    EXCP_SENSE_END_OF_CYLINDER = 0x0020,
    EXCP_SENSE_NO_RECORD_FOUND = 0x0008,
    EXCP_SENSE_FILE_PROTECTED = 0x0004
};

/* How many bytes a block has. */
enum { EXCP_IOB_LENGTH = 40, EXCP_ECB_LENGTH = 4, EXCP_CCW_LENGTH = 8, EXCP_ADDRESS_WORD_LENGTH = 4, EXCP_EXTENT_LENGTH = 16 };

/* ---- Blocks ---------------------------------------------------------------------------------------------------------- */

/* A disk address MBBCCHHR. */
typedef struct excp_seek {
    uint8_t extent; /* M: the number of the extent, from 0 */
    uint16_t bin;   /* BB: 0 */
    uint16_t cylinder;
    uint16_t head;
    uint8_t record;
} excp_seek;

/* What a program sets in an IOB. All else in it is stored as zero. */
typedef struct excp_iob {
    uint32_t ecb;   /* the address of the ECB */
    uint32_t start; /* the address of the first CCW */
    uint16_t dcb;   /* the number of the DCB */
    uint8_t flags;  /* EXCP_IOB_UNRELATED, or 0 for a related request */
    excp_seek seek; /* zeros, unless the unit is a disk */
} excp_iob;

/* An extent of a DEB: its first and its last track, and how many tracks it has. Its file mask is stored as X'18'; the supervisor
 * sets the mask by the method of the DCB. */
typedef struct excp_extent {
    uint16_t start_cylinder;
    uint16_t start_head;
    uint16_t end_cylinder;
    uint16_t end_head;
    uint16_t tracks;
} excp_extent;

/* Stores a number of `length` bytes. */
static inline void excp_store_number(uint8_t *to, unsigned length, uint32_t number)
{
    for (; length > 0; number >>= 8)
        to[--length] = (uint8_t)(number & 0xFF);
}

/* Stores a channel command word, 8 bytes on a doubleword of the storage. */
static inline void excp_store_ccw(uint8_t *to, uint8_t command, uint32_t address, uint8_t flags, uint16_t count)
{
    to[0] = command;
    excp_store_number(to + 1, 3, address);
    to[4] = flags;
    to[5] = 0;
    excp_store_number(to + 6, 2, count);
}

/* Stores a word of a list of indirect addresses, 4 bytes on a fullword. */
static inline void excp_store_address_word(uint8_t *to, uint32_t address)
{
    to[0] = 0;
    excp_store_number(to + 1, 3, address);
}

/* Stores a disk address, 8 bytes. */
static inline void excp_store_seek(uint8_t *to, const excp_seek *seek)
{
    to[0] = seek->extent;
    excp_store_number(to + 1, 2, seek->bin);
    excp_store_number(to + 3, 2, seek->cylinder);
    excp_store_number(to + 5, 2, seek->head);
    to[7] = seek->record;
}

/* Stores an IOB, 40 bytes on a fullword. */
static inline void excp_store_iob(uint8_t *to, const excp_iob *iob)
{
    memset(to, 0, EXCP_IOB_LENGTH);
    to[0] = iob->flags;
    excp_store_number(to + 5, 3, iob->ecb);
    excp_store_number(to + 17, 3, iob->start);
    excp_store_number(to + 21, 3, iob->dcb);
    excp_store_seek(to + 32, &iob->seek);
}

/* Stores an extent, 16 bytes, for excp_open. */
static inline void excp_store_extent(uint8_t *to, const excp_extent *extent)
{
    memset(to, 0, EXCP_EXTENT_LENGTH);
    to[0] = 0x18;
    excp_store_number(to + 6, 2, extent->start_cylinder);
    excp_store_number(to + 8, 2, extent->start_head);
    excp_store_number(to + 10, 2, extent->end_cylinder);
    excp_store_number(to + 12, 2, extent->end_head);
    excp_store_number(to + 14, 2, extent->tracks);
}

/* Bytes in which the storage of a post differs from the storage as issued. */
typedef struct excp_change {
    size_t offset; /* of the first of them, in the storage */
    size_t length;
} excp_change;

/* Finds the next change after one, or the first after { 0, 0 }. Returns 1, or 0 if there is none. The site keeps no issued bytes for
 * that, so pass both. To copy back into a memory only what a request changed:
 *
 *     excp_change change = { 0, 0 };
 *     while (excp_next_change(issued, storage, post.length, &change))
 *         memcpy(memory + post.base + change.offset, storage + change.offset, change.length);
 */
static inline int excp_next_change(const uint8_t *issued, const uint8_t *storage, size_t length, excp_change *change)
{
    size_t at = change->offset + change->length;
    while (at < length && issued[at] == storage[at])
        at++;
    change->offset = at;
    while (at < length && issued[at] != storage[at])
        at++;
    change->length = at - change->offset;
    return change->length > 0;
}

#ifdef __cplusplus
}
#endif

#endif
