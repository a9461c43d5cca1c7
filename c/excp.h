/* excp.h: the I/O supervisor as a library (docs/CLIENT.md, "From C").
 *
 * A site has tasks and units. A unit has a device, its DCBs and one subchannel. A task issues requests: each is an IOB, an ECB and
 * a channel program in one piece of storage. The caller makes the events of a unit: what is in flight arrives (excp_take), the next
 * request is started (excp_start), its channel program runs (excp_run), its status is taken (excp_interrupt), its post is
 * delivered to its task (excp_deliver). excp_serve makes all of these. excp_next_post gives a request back to its task.
 *
 * Every call but excp_message, excp_version and excp_is_proved returns a status. Out parameters are written only if it is EXCP_OK, and a call
 * that returns another status changes nothing, but for what its comment says. No call aborts, prints, waits, or keeps a pointer of
 * the caller: bytes are copied in and out.
 *
 * Reasons. If a mount, excp_open or excp_issue returns EXCP_BAD_GEOMETRY, EXCP_BAD_MEDIUM, EXCP_BAD_IMAGE, or one from
 * EXCP_BAD_EXTENT to EXCP_WRONG_DCB, the site makes the reason in words, as "record 2: a key has at most 255 bytes, not 300".
 * excp_made_length says how long it is, and excp_copy_out copies it. Records, items, faults and extents count from 0. If memory ran
 * out, its length is 0. After any other status, what is there is an older reason, or what was made: EXCP_BAD_NUMBER has no reason.
 *
 * Pointers. Each call tests its pointers for NULL (EXCP_NULL_POINTER). A pointer to bytes may be NULL if their length is 0.
 *
 * Handles. A call on a handle that is EXCP_SITE_INIT, or whose site was freed, returns EXCP_NO_SITE. Not tested: a copy of a handle,
 * after the site was freed or while another call uses it; a handle whose fields the caller wrote; a pointer to something else.
 *
 * Storage. excp_blocks.h has the constants of control blocks, commands and status, and functions that store the blocks.
 *
 * Threads. One call at a time on a site. Sites may be used by several threads, and move between them, if the caller puts a
 * lock around each call (examples/c/threads.c). Calls on different sites may run side by side.
 */
#ifndef EXCP_H
#define EXCP_H

#include <stddef.h>
#include <stdint.h>

#ifdef __cplusplus
extern "C" {
#endif

/* A handle: what the caller has of a site. Begin with EXCP_SITE_INIT. Never copy it, and never write its fields. */
typedef struct excp_site {
    uint64_t mark;
    void *at;
} excp_site;

#define EXCP_SITE_INIT { 0, NULL }

/* What a call returns. The numbers stay as they are from version to version. */
typedef enum excp_status {
    EXCP_OK = 0,
    EXCP_NO_MEMORY = 1,
    EXCP_NULL_POINTER = 2,
    EXCP_NO_SITE = 3,        /* the handle has no site */
    EXCP_SITE_IN_USE = 4,    /* excp_site_new: the handle has a site already */
    EXCP_BAD_NUMBER = 5,     /* a number is outside its range: a mode, a method, a room, a count of tasks or commands */
    EXCP_NO_UNIT = 6,
    EXCP_NO_TASK = 7,
    EXCP_NO_DCB = 8,         /* no such DCB was opened; for a reset, it is not open */
    EXCP_TOO_MANY_UNITS = 9, /* a site has at most 65,535 units */
    EXCP_TOO_MANY_DCBS = 10, /* a unit has at most 65,535 DCBs */
    EXCP_BAD_GEOMETRY = 11,  /* the size of a disk, a tape or a printer */
    EXCP_BAD_MEDIUM = 12,    /* what was put is not of the medium, or does not fit it; or the unit has another device */
    EXCP_BAD_IMAGE = 13,     /* an image breaks a rule of its format, or has more than the tape */
    EXCP_NO_IMAGE = 14,      /* excp_make_image: no model of a disk has as many heads and bytes a track (docs/FORMATS.md, "CKD_P370") */
    EXCP_BAD_EXTENT = 15,    /* an extent is not one of the device, or is not 16 bytes */
    EXCP_AREA_MISALIGNED = 16, /* the base of the storage is not a multiple of 8 */
    EXCP_AREA_TOO_LONG = 17, /* the storage has over 8,192 bytes */
    EXCP_AREA_PAST_TOP = 18, /* the storage ends past 2^24 */
    EXCP_BAD_IOB = 19,       /* the IOB is not on a fullword in the storage */
    EXCP_BAD_ECB = 20,       /* the ECB is not on a fullword in the storage and outside the IOB */
    EXCP_BAD_PROGRAM = 21,   /* the channel program is not on a doubleword in the storage */
    EXCP_WRONG_DCB = 22,     /* the IOB names another DCB than the call */
    EXCP_FULL = 23,          /* as many requests are in flight to the unit as may be */
    EXCP_NO_NUMBER = 24,     /* the task issued 4,294,967,295 requests to the unit since its checkpoint: make another */
    EXCP_NO_POST = 25,       /* no post was delivered to the task that it has not collected */
    EXCP_NO_ROOM = 26,       /* the caller's buffer is too short; excp_copy_out: it is too long */
    EXCP_NOTHING_THERE = 27, /* no request, entry, record, item, line or channel is at that place, or no request is active */
    EXCP_NOT_IDLE = 28,      /* excp_checkpoint: a request is in flight, waits, is active or out, or a post is not collected, which
                                excp_look does not show */
    EXCP_IN_ERROR = 29       /* excp_checkpoint: an open DCB is in error */
} excp_status;

/* A status in words, without a period at its end. Of another number: "unknown status". */
const char *excp_message(excp_status status);

/* The version of this header. The number of the shared library, as in libexcp.so.1, is EXCP_VERSION_MAJOR. */
#define EXCP_VERSION_MAJOR 1
#define EXCP_VERSION_MINOR 1

/* The version of the library, as "1.2". */
const char *excp_version(void);

/* Whether the library is proved: 1, or 0 for one that `tools/library.py --unproved` has built. */
int excp_is_proved(void);

/* ---- Sites ---------------------------------------------------------------------------------------------------------- */

/* Makes a site with no unit, with `tasks` tasks, numbered from 0. Up to `post_room` posts may be on their way back to a task. Both
 * are at least 1. */
excp_status excp_site_new(excp_site *site, uint16_t tasks, uint32_t post_room);

/* Frees a site. The handle is EXCP_SITE_INIT then. */
excp_status excp_site_free(excp_site *site);

/* ---- Media and units ------------------------------------------------------------------------------------------------- */

/* What the medium of the next unit has: records of a disk, or blocks and tape marks of a tape, and the faults that the device is to
 * meet. The mount tests it and uses it up. A mount that returns another status than EXCP_OK leaves it. */
excp_status excp_put_record(excp_site *site, uint16_t cylinder, uint16_t head, uint8_t number, const uint8_t *key, size_t key_length,
                            const uint8_t *data, size_t data_length);
excp_status excp_put_block(excp_site *site, const uint8_t *data, size_t length);
excp_status excp_put_tape_mark(excp_site *site);

/* The device's command with this number, counted from 1, ends with this status: unit status 0E with any sense bytes, or channel
 * status 08, 04 or 02 without sense. In ascending order of commands. */
excp_status excp_put_fault(excp_site *site, uint64_t command, uint8_t unit_status, uint8_t channel_status, uint16_t sense);

/* Forgets what was put. */
excp_status excp_clear_medium(excp_site *site);

/* How many requests may be in flight to a unit, and how many it holds at a time, which wait, are active, or are posted and not
 * delivered. Each is 1 to 65,536. */
typedef struct excp_room {
    uint32_t in_flight;
    uint32_t held;
} excp_room;

/* Adds a unit, whose number counts from 0. EXCP_BAD_GEOMETRY: a size is outside its range.
 * A disk has `cylinders` times `heads` tracks, 1 to 65,535, of `track_bytes` bytes, 16 to 65,535, and at most 16,777,216 bytes.
 * A tape has `bytes` bytes, 4 to 16,777,216: a block takes 4 beside its data, and a tape mark takes 4.
 * A printer has room for `lines` lines, 1 to 100,000, on paper of `pages` pages, 1 to 10,000. */
excp_status excp_mount_disk(excp_site *site, uint64_t cylinders, uint64_t heads, uint64_t track_bytes, const excp_room *room,
                            uint16_t *unit);
excp_status excp_mount_tape(excp_site *site, uint64_t bytes, const excp_room *room, uint16_t *unit);
excp_status excp_mount_printer(excp_site *site, uint64_t lines, uint64_t pages, const excp_room *room, uint16_t *unit);

/* Adds a unit from an image, with the faults that were put: a disk from a CKD_P370 image, or a tape of `bytes` bytes from an AWSTAPE
 * image (docs/FORMATS.md). The tape has at most 4,294,967,296 bytes (EXCP_BAD_GEOMETRY); EXCP_BAD_IMAGE: they are too few for the
 * image. The reason of EXCP_BAD_IMAGE is the rule that the image breaks. */
excp_status excp_mount_ckd(excp_site *site, const uint8_t *image, size_t length, const excp_room *room, uint16_t *unit);
excp_status excp_mount_aws(excp_site *site, const uint8_t *image, size_t length, uint64_t bytes, const excp_room *room, uint16_t *unit);

/* ---- DCBs ------------------------------------------------------------------------------------------------------------ */

enum { EXCP_INPUT = 0, EXCP_OUTPUT = 1 };

/* Opens the next DCB of a unit. The first has the number 1. `extents` has 16 bytes for each extent, as in a DEB; a tape and a
 * printer have none. */
excp_status excp_open(excp_site *site, uint16_t unit, uint8_t method, const uint8_t *extents, size_t length, uint16_t *dcb);

/* ---- Events ---------------------------------------------------------------------------------------------------------- */

/* What an event did. */
typedef enum excp_answer_kind {
    EXCP_QUIET = 0,       /* nothing */
    EXCP_HELD = 1,        /* take: the unit holds as many requests as it may */
    EXCP_TOOK = 2,        /* take: the request arrived */
    EXCP_BUSY = 3,        /* start: a program runs, or its status is pending */
    EXCP_IDLE = 4,        /* start: nothing is active, and nothing waits */
    EXCP_STARTED = 5,     /* start: the program of the request was started */
    EXCP_VIOLATED = 6,    /* start: the request failed the extent check, and was posted 42 */
    EXCP_RAN = 7,         /* run: `commands` commands were done */
    EXCP_RAN_PENDING = 8, /* run: the same, and a status is pending */
    EXCP_AGAIN = 9,       /* interrupt: the request is to be started again */
    EXCP_ENDED = 10,      /* interrupt: the request was posted with `code` */
    EXCP_DELIVERED = 11,  /* deliver: the post of the request is on its way back to its task */
    EXCP_ROW_FULL = 12,   /* deliver: its task has as many posts to collect as it may */
    EXCP_ACTIVE = 13,     /* purge: the request, which the purge covers, is active; after EXCP_HALT the next excp_interrupt posts it */
    EXCP_CLOSED = 14,     /* close: no request of the DCB is active */
    EXCP_CLOSING = 15     /* close: this request of the DCB is active */
} excp_answer_kind;

typedef struct excp_answer {
    uint64_t number;   /* of the request that the answer names, or 0 */
    uint32_t commands; /* that were done, or 0 */
    uint16_t task;     /* of the request, or 0 */
    uint8_t kind;      /* an excp_answer_kind */
    uint8_t code;      /* the completion code of EXCP_ENDED, or 0 */
} excp_answer;

/* Issues a request on a copy of the storage, which lies at `base` and has its IOB at `iob` (EXCP). `number` is that of the request:
 * those of a task to a unit count from 1. */
excp_status excp_issue(excp_site *site, uint16_t task, uint16_t unit, uint16_t dcb, uint32_t iob, uint32_t base, const uint8_t *storage,
                       size_t length, uint64_t *number);

/* The first request in flight arrives at the unit. */
excp_status excp_take(excp_site *site, uint16_t unit, excp_answer *answer);
/* The unit starts what comes next. */
excp_status excp_start(excp_site *site, uint16_t unit, excp_answer *answer);
/* The active channel program runs for at most `max_commands` commands, at least 1. A transfer in channel is no command. */
excp_status excp_run(excp_site *site, uint16_t unit, uint32_t max_commands, excp_answer *answer);
/* The unit takes the pending status. */
excp_status excp_interrupt(excp_site *site, uint16_t unit, excp_answer *answer);
/* The first posted request of the unit goes back to its task. */
excp_status excp_deliver(excp_site *site, uint16_t unit, excp_answer *answer);

enum { EXCP_SERVED_ALL = 0, EXCP_SERVED_ROW_FULL = 1, EXCP_SERVED_COMMANDS = 2 };

typedef struct excp_served {
    uint64_t posts;    /* that were delivered */
    uint32_t commands; /* that were done */
    uint32_t ended;    /* EXCP_SERVED_ALL: nothing is left to do at the unit. EXCP_SERVED_ROW_FULL: a task has to collect a post
                          first. EXCP_SERVED_COMMANDS: `max_commands` were done. */
} excp_served;

/* Takes, starts, runs, interrupts and delivers, until nothing is left to do or `max_commands` commands were done, at least 1. If it
 * returns EXCP_NO_MEMORY, what was done stays done. */
excp_status excp_serve(excp_site *site, uint16_t unit, uint32_t max_commands, excp_served *served);

/* Starts, runs and interrupts until nothing waits or is active. If it returns EXCP_NO_MEMORY, what was done stays done. */
excp_status excp_settle(excp_site *site, uint16_t unit);

/* ---- Posts ----------------------------------------------------------------------------------------------------------- */

/* How a request ended. Its storage comes back with the ECB and the IOB posted. */
typedef struct excp_post {
    uint64_t number;
    uint32_t address;       /* of the CSW: the last CCW used, plus 8 */
    uint32_t base;          /* where its storage lies */
    uint32_t length;        /* how many bytes the storage has */
    uint16_t residual;      /* of the CSW: the residual count */
    uint16_t sense;         /* sense bytes 0 and 1 */
    uint16_t unit;
    uint16_t task;
    uint16_t dcb;
    uint8_t code;           /* the completion code: 7F, 41, 42, 48, .. */
    uint8_t unit_status;    /* of the CSW */
    uint8_t channel_status; /* of the CSW */
} excp_post;

/* How the first request ended that was delivered to a task. The post stays. */
excp_status excp_peek_post(excp_site *site, uint16_t task, excp_post *post);

/* Collects it: its storage goes to `storage`, which has room for `room` bytes. EXCP_NO_ROOM: the storage has more, and the post
 * stays. */
excp_status excp_next_post(excp_site *site, uint16_t task, excp_post *post, uint8_t *storage, size_t room);

/* ---- Controls -------------------------------------------------------------------------------------------------------- */

enum { EXCP_QUIESCE = 0, EXCP_HALT = 1 };

/* Purges the requests of a DCB, or those of a task at one unit, which the unit took. What waits is posted 48. What is active goes on
 * to its end (EXCP_QUIESCE) or is halted (EXCP_HALT). A halt ends a program that runs, and excp_interrupt posts the request. If its
 * status is pending, the halt changes only what would be a retry: it is posted 48 then. If it awaits its restart, the halt posts it,
 * and the answer is EXCP_QUIET. */
excp_status excp_purge(excp_site *site, uint16_t unit, uint16_t dcb, uint8_t mode, excp_answer *answer);
excp_status excp_purge_task(excp_site *site, uint16_t unit, uint16_t task, uint8_t mode, excp_answer *answer);
/* Closes a DCB. */
excp_status excp_close(excp_site *site, uint16_t unit, uint16_t dcb, excp_answer *answer);
/* Clears the error flag of an open DCB. */
excp_status excp_reset(excp_site *site, uint16_t unit, uint16_t dcb);

/* ---- What there is --------------------------------------------------------------------------------------------------- */

enum { EXCP_DISK = 0, EXCP_TAPE = 1, EXCP_PRINTER = 2 };
enum { EXCP_NONE_ACTIVE = 0, EXCP_RUNNING = 1, EXCP_PENDING = 2, EXCP_AWAITS_RESTART = 3 };

typedef struct excp_unit_state {
    uint64_t active_number;  /* of the active request, or 0 */
    uint32_t in_flight;      /* requests in flight to the unit */
    uint32_t in_flight_room; /* how many more may be in flight */
    uint32_t waiting;        /* requests that wait */
    uint32_t out;            /* posted requests that were not delivered */
    uint32_t printed;        /* lines that a printer printed, or 0 */
    uint16_t active_task;    /* of the active request, or 0 */
    uint8_t active;          /* EXCP_NONE_ACTIVE, .. */
    uint8_t kind;            /* EXCP_DISK, .. */
    uint8_t has_room;        /* 1 if the unit can take another request, 0 if it holds as many as it may */
} excp_unit_state;

excp_status excp_look(excp_site *site, uint16_t unit, excp_unit_state *state);

/* The active request of a unit. */
typedef struct excp_active_request {
    uint64_t number;
    uint32_t next;    /* the address of its next CCW, if its channel program runs, or 0 */
    uint32_t attempt; /* how often its channel program was started */
    uint16_t task;
    uint16_t dcb;
} excp_active_request;

/* EXCP_NOTHING_THERE: no request is active. */
excp_status excp_look_active(excp_site *site, uint16_t unit, excp_active_request *active);

/* Where the device of a unit is on its medium. What it does not have is 0. */
typedef struct excp_place {
    uint32_t items;    /* that a tape has */
    uint32_t passed;   /* of them, those before its head */
    uint16_t cylinder; /* of the track under the heads of a disk */
    uint16_t head;
    uint16_t page;     /* where the next line of a printer goes, from 1 */
    uint16_t line;     /* from 1 */
} excp_place;

excp_status excp_look_place(excp_site *site, uint16_t unit, excp_place *place);

enum { EXCP_DCB_OPEN = 1, EXCP_DCB_CLOSING = 2, EXCP_DCB_CLOSED = 3 };

typedef struct excp_dcb_state {
    uint8_t state;     /* EXCP_DCB_OPEN, .. */
    uint8_t in_error;  /* 1 if related requests of it are doomed */
    uint8_t file_mask; /* that the supervisor set */
} excp_dcb_state;

excp_status excp_look_dcb(excp_site *site, uint16_t unit, uint16_t dcb, excp_dcb_state *state);

/* The request that waits at a place, counted from 0 in the order in which they are started. */
excp_status excp_waiting(excp_site *site, uint16_t unit, uint32_t place, uint16_t *task, uint64_t *number);

/* What happened at a unit, which is an entry of its trace. */
typedef enum excp_entry_kind {
    EXCP_ENTRY_OPENED = 0,      /* a DCB was opened; `way` is EXCP_INPUT or EXCP_OUTPUT */
    EXCP_ENTRY_ARRIVED = 1,     /* a request arrived */
    EXCP_ENTRY_STARTED = 2,     /* the program of a request was started */
    EXCP_ENTRY_RAN = 3,         /* `commands` commands of it were done */
    EXCP_ENTRY_HALTED = 4,      /* it was halted */
    EXCP_ENTRY_PURGED_DCB = 5,  /* a purge of a DCB; `way` is EXCP_QUIESCE or EXCP_HALT */
    EXCP_ENTRY_PURGED_TASK = 6, /* a purge of a task; `way` as before */
    EXCP_ENTRY_CLOSED = 7,      /* a DCB was closed */
    EXCP_ENTRY_RESET = 8,       /* the error flag of a DCB was cleared */
    EXCP_ENTRY_POSTED = 9       /* a request was posted with this code, CSW and sense */
} excp_entry_kind;

/* An entry. What its kind has not is 0. */
typedef struct excp_trace_entry {
    uint64_t number;        /* of the request */
    uint32_t commands;
    uint32_t address;       /* of the CSW */
    uint16_t task;          /* of the request, or that is purged */
    uint16_t dcb;           /* that was opened, purged, closed or reset */
    uint16_t residual;      /* of the CSW */
    uint16_t sense;
    uint8_t kind;           /* an excp_entry_kind */
    uint8_t way;
    uint8_t code;           /* the completion code */
    uint8_t unit_status;    /* of the CSW */
    uint8_t channel_status; /* of the CSW */
} excp_trace_entry;

/* The entry at a place of the trace of a unit, counted from 0, the oldest first. Of those before a checkpoint, openings and closes of
 * DCBs stay. */
excp_status excp_look_entry(excp_site *site, uint16_t unit, uint32_t place, excp_trace_entry *entry);

typedef struct excp_record {
    uint16_t cylinder;   /* CC of its count area */
    uint16_t head;       /* HH */
    uint8_t number;      /* R */
    uint8_t key_length;
    uint16_t data_length;
} excp_record;

/* The record at a place of a track, counted from 0; that at 0 is R0. Its key and its data go to `bytes`, one behind the other, which
 * has room for `room` bytes. EXCP_NO_ROOM: it has more. EXCP_NOTHING_THERE: the track has no such place, or
 * at place 0 the disk no such track. EXCP_BAD_MEDIUM: the unit is no disk. */
excp_status excp_read_record(excp_site *site, uint16_t unit, uint16_t cylinder, uint16_t head, uint32_t place, excp_record *record,
                             uint8_t *bytes, size_t room);

typedef struct excp_item {
    uint16_t length; /* of a block, 1 to 65,535; 0 of a tape mark */
    uint8_t is_mark; /* 1 if it is a tape mark */
} excp_item;

/* The item of a tape at a place, counted from 0, from the load point on. The data of a block go to `bytes`. EXCP_NO_ROOM: it has more
 * than `room`. EXCP_NOTHING_THERE: there is no such item. EXCP_BAD_MEDIUM: the unit is no tape. A call takes time in the items before
 * the place; excp_make_image makes all at once. */
excp_status excp_read_item(excp_site *site, uint16_t unit, uint32_t place, excp_item *item, uint8_t *bytes, size_t room);

typedef struct excp_line {
    uint16_t page;   /* from 1 */
    uint16_t line;   /* from 1 */
    uint16_t length; /* at most 132 */
} excp_line;

/* The line of a printer at a place, counted from 0, the oldest first. Its bytes, in EBCDIC, go to `bytes`. EXCP_NO_ROOM: it has more
 * than `room`. EXCP_NOTHING_THERE: there is no such line. EXCP_BAD_MEDIUM: the unit is no printer. */
excp_status excp_printed_line(excp_site *site, uint16_t unit, uint32_t place, excp_line *line, uint8_t *bytes, size_t room);

/* Records, images and reasons. A site keeps the bytes that were made last: each of these calls makes them anew, and says how many there are.
 * excp_copy_out copies `length` of them, from the place `from` on (EXCP_NO_ROOM: there are not so many). */

/* What happened at a unit since it was mounted, or since its last checkpoint, and its medium, as lines of JSON (docs/REPORT.md): an
 * object for each entry, and for each of its first `most_steps` commands, and no NUL. Requests of a task count from 1 since then. A
 * command that met a fault of the unit has no number of that; `bytes`, `lines` and `pages` of the medium are null. */
excp_status excp_make_record(excp_site *site, uint16_t unit, uint64_t most_steps, size_t *length);

/* The medium of a unit as an image: a disk as CKD_P370, a tape as AWSTAPE, the paper of a printer as text in UTF-8
 * (docs/FORMATS.md). What was not written is as in the image that the unit came from. A checkpoint leaves the image as it is. */
excp_status excp_make_image(excp_site *site, uint16_t unit, size_t *length);

/* Gives back the memory of what was made last, so that a site in long use holds none of it. excp_made_length is 0 then. */
excp_status excp_drop_made(excp_site *site);

/* How many bytes were made last. */
excp_status excp_made_length(excp_site *site, size_t *length);
excp_status excp_copy_out(excp_site *site, size_t from, uint8_t *bytes, size_t length);

/* ---- The channel alone ------------------------------------------------------------------------------------------------ */

/* For an emulator that has a supervisor of its own: START, TEST and HALT SUBCHANNEL on a copy of the device of a unit, as it is now.
 * Channels count from 0, and no two of a site have one number. Their devices are apart from the units. EXCP_NOTHING_THERE: there is no
 * such channel. Condition codes are those of Principles of Operation, chapter 14. */
excp_status excp_channel_new(excp_site *site, uint16_t unit, uint32_t *channel);

/* Frees a channel with its device. Freeing the site frees all that are left. */
excp_status excp_channel_free(excp_site *site, uint32_t channel);

/* Makes the medium of a channel as an image, as excp_make_image makes that of a unit. What neither wrote is as in the image that the
 * unit came from. */
excp_status excp_channel_make_image(excp_site *site, uint32_t channel, size_t *length);

/* START SUBCHANNEL: seeks a disk to this track (EXCP_BAD_NUMBER: it has none, or the address has more than 24 bits), sets its file
 * mask, and starts the program at an address. The supervisor sets the mask 18 for output and 58 for input; with 00 a program may also
 * seek. A tape and a printer have no track and no mask. `code`: 0 started, 1 a status is pending, 2 a program runs. */
excp_status excp_channel_start(excp_site *site, uint32_t channel, uint32_t start, uint16_t cylinder, uint16_t head, uint8_t file_mask,
                               uint32_t *code);

typedef struct excp_channel_ran {
    uint32_t commands; /* that were done */
    uint32_t pending;  /* 1 if a status is pending */
} excp_channel_ran;

/* The program runs for at most `max_commands` commands, at least 1, on storage that lies at `base`, and changes it. As that of a
 * request, it has at most 8,192 bytes, and `base` is a multiple of 8. If no program runs, no command is done. Give each run of a
 * program the storage as the run before left it. EXCP_AREA_..: storage cannot lie there. No reason is made in words. */
excp_status excp_channel_run(excp_site *site, uint32_t channel, uint32_t max_commands, uint32_t base, uint8_t *storage, size_t length,
                             excp_channel_ran *ran);

typedef struct excp_channel_status {
    uint32_t address;       /* of the CSW */
    uint16_t residual;      /* of the CSW */
    uint16_t sense;         /* sense bytes 0 and 1 */
    uint8_t code;           /* the condition code: 0 stored, 1 no status is pending, and the rest is 0 */
    uint8_t unit_status;    /* of the CSW */
    uint8_t channel_status; /* of the CSW */
} excp_channel_status;

/* TEST SUBCHANNEL: stores the status that is pending, and clears it. */
excp_status excp_channel_test(excp_site *site, uint32_t channel, excp_channel_status *status);

/* HALT SUBCHANNEL. `code`: 0 the program was halted, and a status is pending now, also if the subchannel was idle; 1 a status was
 * pending already. */
excp_status excp_channel_halt(excp_site *site, uint32_t channel, uint32_t *code);

/* ---- Long use -------------------------------------------------------------------------------------------------------- */

/* Forgets what happened at an idle unit, so that its memory does not grow with each request. The device, its medium, its image and
 * the DCBs stay as they are, but for the error flag of a closed one. Numbers of requests go on. It takes memory for one number for
 * each task. EXCP_NOT_IDLE and EXCP_IN_ERROR say what has to be done first. */
excp_status excp_checkpoint(excp_site *site, uint16_t unit);

#ifdef __cplusplus
}
#endif

#endif
