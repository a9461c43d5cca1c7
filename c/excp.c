/* excp.c: the functions of excp.h. Each tests its pointers and calls its export of crates/excp_c.
 * Pointers are tested in C, since a reference of Rattle is never NULL. The caller holds the handle, a mark and a pointer: a table of
 * handles would need a mutable global, which the kit lacks. Each export tests the mark, which a zeroed or freed handle lacks. Media are
 * put piece by piece, because a slice of structs with pointers cannot be checked.
 * tools/library.py builds it, and gives it EXCP_VERSION, and EXCP_IS_PROVED: 1 if it links exports that were proved. */
#include "excp.h"

/* The exports. An allocator takes no bytes, so none is passed. A slice is a pointer, which is never null, and a length. */
#define SITE excp_site *site
#define SLICE(bytes) const uint8_t *bytes, size_t bytes##_length
#define ROOM(bytes) uint8_t *bytes, size_t bytes##_length

uint32_t excp_call_site_new(SITE, uint16_t tasks, uint32_t post_room);
uint32_t excp_call_site_free(SITE);
uint32_t excp_call_put_record(SITE, uint16_t cylinder, uint16_t head, uint8_t number, SLICE(key), SLICE(data));
uint32_t excp_call_put_block(SITE, SLICE(data));
uint32_t excp_call_put_tape_mark(SITE);
uint32_t excp_call_put_fault(SITE, uint64_t command, uint8_t unit_status, uint8_t channel_status, uint16_t sense);
uint32_t excp_call_clear_medium(SITE);
uint32_t excp_call_mount_disk(SITE, uint64_t cylinders, uint64_t heads, uint64_t track_bytes, const excp_room *room, uint16_t *unit);
uint32_t excp_call_mount_tape(SITE, uint64_t bytes, const excp_room *room, uint16_t *unit);
uint32_t excp_call_mount_printer(SITE, uint64_t lines, uint64_t pages, const excp_room *room, uint16_t *unit);
uint32_t excp_call_mount_ckd(SITE, SLICE(image), const excp_room *room, uint16_t *unit);
uint32_t excp_call_mount_aws(SITE, SLICE(image), uint64_t bytes, const excp_room *room, uint16_t *unit);
uint32_t excp_call_open(SITE, uint16_t unit, uint8_t method, SLICE(extents), uint16_t *dcb);
uint32_t excp_call_issue(SITE, uint16_t task, uint16_t unit, uint16_t dcb, uint32_t iob, uint32_t base, SLICE(storage), uint64_t *number);
uint32_t excp_call_take(SITE, uint16_t unit, excp_answer *answer);
uint32_t excp_call_step(SITE, uint16_t unit, uint8_t kind, uint32_t number, uint8_t mode, excp_answer *answer);
uint32_t excp_call_deliver(SITE, uint16_t unit, excp_answer *answer);
uint32_t excp_call_serve(SITE, uint16_t unit, uint32_t max_commands, excp_served *served);
uint32_t excp_call_settle(SITE, uint16_t unit);
uint32_t excp_call_peek_post(SITE, uint16_t task, excp_post *post);
uint32_t excp_call_next_post(SITE, uint16_t task, excp_post *post, ROOM(storage));
uint32_t excp_call_look(SITE, uint16_t unit, excp_unit_state *state);
uint32_t excp_call_look_active(SITE, uint16_t unit, excp_active_request *active);
uint32_t excp_call_look_place(SITE, uint16_t unit, excp_place *place);
uint32_t excp_call_look_dcb(SITE, uint16_t unit, uint16_t dcb, excp_dcb_state *state);
uint32_t excp_call_waiting(SITE, uint16_t unit, uint32_t place, uint16_t *task, uint64_t *number);
uint32_t excp_call_look_entry(SITE, uint16_t unit, uint32_t place, excp_trace_entry *entry);
uint32_t excp_call_read_record(SITE, uint16_t unit, uint16_t cylinder, uint16_t head, uint32_t place, excp_record *record, ROOM(bytes));
uint32_t excp_call_read_item(SITE, uint16_t unit, uint32_t place, excp_item *item, ROOM(bytes));
uint32_t excp_call_printed_line(SITE, uint16_t unit, uint32_t place, excp_line *line, ROOM(bytes));
uint32_t excp_call_make_record(SITE, uint16_t unit, uint64_t most_steps, size_t *length);
uint32_t excp_call_make_image(SITE, uint16_t unit, size_t *length);
uint32_t excp_call_made_length(SITE, size_t *length);
uint32_t excp_call_drop_made(SITE);
uint32_t excp_call_copy_out(SITE, size_t from, ROOM(bytes));
uint32_t excp_call_channel_new(SITE, uint16_t unit, uint32_t *channel);
uint32_t excp_call_channel_free(SITE, uint32_t channel);
uint32_t excp_call_channel_make_image(SITE, uint32_t channel, size_t *length);
uint32_t excp_call_channel_start(SITE, uint32_t channel, uint32_t start, uint16_t cylinder, uint16_t head, uint8_t file_mask, uint32_t *code);
uint32_t excp_call_channel_run(SITE, uint32_t channel, uint32_t max_commands, uint32_t base, ROOM(storage), excp_channel_ran *ran);
uint32_t excp_call_channel_test(SITE, uint32_t channel, excp_channel_status *status);
uint32_t excp_call_channel_halt(SITE, uint32_t channel, uint32_t *code);
uint32_t excp_call_checkpoint(SITE, uint16_t unit);

/* A function whose pointers must not be null, and what it returns if none is. */
#define CALL_AS(name, export, parameters, pointers, ...) \
    excp_status excp_##name parameters { return (pointers) ? (excp_status)excp_call_##export(__VA_ARGS__) : EXCP_NULL_POINTER; }
#define CALL(name, parameters, pointers, ...) CALL_AS(name, name, parameters, pointers, __VA_ARGS__)

/* The steps of a unit, by the numbers of `step_from_c` in crates/excp_c. */
enum { START, RUN, INTERRUPT, PURGE, PURGE_TASK, CLOSE, RESET };
#define STEP(name, parameters, kind, number, mode) CALL_AS(name, step, parameters, site && answer, site, unit, kind, number, mode, answer)

/* Whether bytes have a pointer or no length, and then a pointer that is not null. Nothing is read or written through `no_byte`. */
static uint8_t no_byte;
#define IS_SLICE(bytes, length) ((bytes) || !(length))
#define BYTES(bytes, length) (bytes) ? (bytes) : &no_byte, (length)

const char *excp_message(excp_status status)
{
    static const char *const texts[] = {
        [EXCP_OK] = "done",
        [EXCP_NO_MEMORY] = "out of memory",
        [EXCP_NULL_POINTER] = "a pointer is null",
        [EXCP_NO_SITE] = "the handle has no site",
        [EXCP_SITE_IN_USE] = "the handle has a site already",
        [EXCP_BAD_NUMBER] = "a number is outside its range",
        [EXCP_NO_UNIT] = "the site has no such unit",
        [EXCP_NO_TASK] = "the site has no such task",
        [EXCP_NO_DCB] = "no such DCB was opened, or none is open",
        [EXCP_TOO_MANY_UNITS] = "a site has at most 65,535 units",
        [EXCP_TOO_MANY_DCBS] = "a unit has at most 65,535 DCBs",
        [EXCP_BAD_GEOMETRY] = "the size of the disk, the tape or the printer is not one",
        [EXCP_BAD_MEDIUM] = "what was put is not of the medium or does not fit it, or the unit has another device",
        [EXCP_BAD_IMAGE] = "the image breaks a rule of its format, or has more than the tape",
        [EXCP_NO_IMAGE] = "no model of a disk has as many heads and bytes a track",
        [EXCP_BAD_EXTENT] = "an extent is not one of the device, or is not 16 bytes",
        [EXCP_AREA_MISALIGNED] = "the base of the storage is not a multiple of 8",
        [EXCP_AREA_TOO_LONG] = "the storage has over 8,192 bytes",
        [EXCP_AREA_PAST_TOP] = "the storage ends past 2^24",
        [EXCP_BAD_IOB] = "the IOB is not on a fullword in the storage",
        [EXCP_BAD_ECB] = "the ECB is not on a fullword in the storage and outside the IOB",
        [EXCP_BAD_PROGRAM] = "the channel program is not on a doubleword in the storage",
        [EXCP_WRONG_DCB] = "the IOB names another DCB than the call",
        [EXCP_FULL] = "as many requests are in flight to the unit as may be",
        [EXCP_NO_NUMBER] = "the task used its last number at the unit",
        [EXCP_NO_POST] = "no post was delivered to the task that it has not collected",
        [EXCP_NO_ROOM] = "the buffer is too short, or so many bytes were not made",
        [EXCP_NOTHING_THERE] = "no request, entry, record, item, line or channel is at that place, or none is active",
        [EXCP_NOT_IDLE] = "a request is in flight, waits, is active or out, or a post is not collected",
        [EXCP_IN_ERROR] = "a DCB is in error",
    };
    return (size_t)status < sizeof texts / sizeof texts[0] && texts[status] ? texts[status] : "unknown status";
}

const char *excp_version(void)
{
    return EXCP_VERSION;
}

int excp_is_proved(void)
{
    return EXCP_IS_PROVED;
}

CALL(site_new, (SITE, uint16_t tasks, uint32_t post_room), site, site, tasks, post_room)
CALL(site_free, (SITE), site, site)

CALL(put_record, (SITE, uint16_t cylinder, uint16_t head, uint8_t number, SLICE(key), SLICE(data)),
     site && IS_SLICE(key, key_length) && IS_SLICE(data, data_length), site, cylinder, head, number, BYTES(key, key_length),
     BYTES(data, data_length))
CALL(put_block, (SITE, const uint8_t *data, size_t length), site && IS_SLICE(data, length), site, BYTES(data, length))
CALL(put_tape_mark, (SITE), site, site)
CALL(put_fault, (SITE, uint64_t command, uint8_t unit_status, uint8_t channel_status, uint16_t sense), site, site, command, unit_status,
     channel_status, sense)
CALL(clear_medium, (SITE), site, site)
CALL(mount_disk, (SITE, uint64_t cylinders, uint64_t heads, uint64_t track_bytes, const excp_room *room, uint16_t *unit),
     site && room && unit, site, cylinders, heads, track_bytes, room, unit)
CALL(mount_tape, (SITE, uint64_t bytes, const excp_room *room, uint16_t *unit), site && room && unit, site, bytes, room, unit)
CALL(mount_printer, (SITE, uint64_t lines, uint64_t pages, const excp_room *room, uint16_t *unit), site && room && unit, site, lines,
     pages, room, unit)
CALL(mount_ckd, (SITE, const uint8_t *image, size_t length, const excp_room *room, uint16_t *unit),
     site && IS_SLICE(image, length) && room && unit, site, BYTES(image, length), room, unit)
CALL(mount_aws, (SITE, const uint8_t *image, size_t length, uint64_t bytes, const excp_room *room, uint16_t *unit),
     site && IS_SLICE(image, length) && room && unit, site, BYTES(image, length), bytes, room, unit)

CALL(open, (SITE, uint16_t unit, uint8_t method, const uint8_t *extents, size_t length, uint16_t *dcb),
     site && IS_SLICE(extents, length) && dcb, site, unit, method, BYTES(extents, length), dcb)

CALL(issue, (SITE, uint16_t task, uint16_t unit, uint16_t dcb, uint32_t iob, uint32_t base, const uint8_t *storage, size_t length,
     uint64_t *number), site && IS_SLICE(storage, length) && number, site, task, unit, dcb, iob, base, BYTES(storage, length), number)
CALL(take, (SITE, uint16_t unit, excp_answer *answer), site && answer, site, unit, answer)
CALL(deliver, (SITE, uint16_t unit, excp_answer *answer), site && answer, site, unit, answer)

STEP(start, (SITE, uint16_t unit, excp_answer *answer), START, 0, 0)
STEP(run, (SITE, uint16_t unit, uint32_t max_commands, excp_answer *answer), RUN, max_commands, 0)
STEP(interrupt, (SITE, uint16_t unit, excp_answer *answer), INTERRUPT, 0, 0)
STEP(purge, (SITE, uint16_t unit, uint16_t dcb, uint8_t mode, excp_answer *answer), PURGE, dcb, mode)
STEP(purge_task, (SITE, uint16_t unit, uint16_t task, uint8_t mode, excp_answer *answer), PURGE_TASK, task, mode)
STEP(close, (SITE, uint16_t unit, uint16_t dcb, excp_answer *answer), CLOSE, dcb, 0)

excp_status excp_reset(SITE, uint16_t unit, uint16_t dcb)
{
    excp_answer none = {0};
    return site ? (excp_status)excp_call_step(site, unit, RESET, dcb, 0, &none) : EXCP_NULL_POINTER;
}

CALL(serve, (SITE, uint16_t unit, uint32_t max_commands, excp_served *served), site && served, site, unit, max_commands, served)
CALL(settle, (SITE, uint16_t unit), site, site, unit)

CALL(peek_post, (SITE, uint16_t task, excp_post *post), site && post, site, task, post)
CALL(next_post, (SITE, uint16_t task, excp_post *post, uint8_t *storage, size_t room), site && post && IS_SLICE(storage, room), site,
     task, post, BYTES(storage, room))

CALL(look, (SITE, uint16_t unit, excp_unit_state *state), site && state, site, unit, state)
CALL(look_active, (SITE, uint16_t unit, excp_active_request *active), site && active, site, unit, active)
CALL(look_place, (SITE, uint16_t unit, excp_place *place), site && place, site, unit, place)
CALL(look_dcb, (SITE, uint16_t unit, uint16_t dcb, excp_dcb_state *state), site && state, site, unit, dcb, state)
CALL(waiting, (SITE, uint16_t unit, uint32_t place, uint16_t *task, uint64_t *number), site && task && number, site, unit, place, task,
     number)
CALL(look_entry, (SITE, uint16_t unit, uint32_t place, excp_trace_entry *entry), site && entry, site, unit, place, entry)
CALL(read_record, (SITE, uint16_t unit, uint16_t cylinder, uint16_t head, uint32_t place, excp_record *record, uint8_t *bytes, size_t room),
     site && record && IS_SLICE(bytes, room), site, unit, cylinder, head, place, record, BYTES(bytes, room))
CALL(read_item, (SITE, uint16_t unit, uint32_t place, excp_item *item, uint8_t *bytes, size_t room),
     site && item && IS_SLICE(bytes, room), site, unit, place, item, BYTES(bytes, room))
CALL(printed_line, (SITE, uint16_t unit, uint32_t place, excp_line *line, uint8_t *bytes, size_t room),
     site && line && IS_SLICE(bytes, room), site, unit, place, line, BYTES(bytes, room))
CALL(make_record, (SITE, uint16_t unit, uint64_t most_steps, size_t *length), site && length, site, unit, most_steps, length)
CALL(make_image, (SITE, uint16_t unit, size_t *length), site && length, site, unit, length)
CALL(made_length, (SITE, size_t *length), site && length, site, length)
CALL(drop_made, (SITE), site, site)
CALL(copy_out, (SITE, size_t from, uint8_t *bytes, size_t length), site && IS_SLICE(bytes, length), site, from, BYTES(bytes, length))

CALL(channel_new, (SITE, uint16_t unit, uint32_t *channel), site && channel, site, unit, channel)
CALL(channel_free, (SITE, uint32_t channel), site, site, channel)
CALL(channel_make_image, (SITE, uint32_t channel, size_t *length), site && length, site, channel, length)
CALL(channel_start, (SITE, uint32_t channel, uint32_t start, uint16_t cylinder, uint16_t head, uint8_t file_mask, uint32_t *code),
     site && code, site, channel, start, cylinder, head, file_mask, code)
CALL(channel_run, (SITE, uint32_t channel, uint32_t max_commands, uint32_t base, uint8_t *storage, size_t length, excp_channel_ran *ran),
     site && IS_SLICE(storage, length) && ran, site, channel, max_commands, base, BYTES(storage, length), ran)
CALL(channel_test, (SITE, uint32_t channel, excp_channel_status *status), site && status, site, channel, status)
CALL(channel_halt, (SITE, uint32_t channel, uint32_t *code), site && code, site, channel, code)

CALL(checkpoint, (SITE, uint16_t unit), site, site, unit)
