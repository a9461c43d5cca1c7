/* Each struct of excp.h is filled by the library with another number in each of its fields: the numbers are those of
 * docs/SPECIFICATION.md, chapters 3, 6, 8, 9 and 11. Bytes behind each struct stay as they were. So both sides have one layout.
 * Every function of the header is called, and linked. */
#include <excp.h>
#include <stdio.h>
#include <string.h>

enum { TASK = 7, BASE = 0x2000, IOB = 0x2000, ECB = 0x2028, PROGRAM = 0x2030, TEXT = 0x2048, LENGTH = 0x58, GUARD = 32 };

static int faults;

static void expect(int is_so, const char *what, int line)
{
    if (!is_so) {
        fprintf(stderr, "layout.c:%d: %s\n", line, what);
        faults++;
    }
}

#define EXPECT(is_so) expect(is_so, #is_so, __LINE__)
#define OK(call) EXPECT((call) == EXCP_OK)

/* Declares a struct with bytes behind it that nothing may change. */
#define GUARDED(type, name) \
    struct { type it; uint8_t guard[GUARD]; } name; \
    memset(&name, 0xA5, sizeof name)

static int is_whole(const uint8_t *guard)
{
    for (int at = 0; at < GUARD; at++)
        if (guard[at] != 0xA5)
            return 0;
    return 1;
}

static void put(uint8_t *at, int bytes, uint32_t number)
{
    while (bytes--) {
        at[bytes] = (uint8_t)number;
        number >>= 8;
    }
}

static void put_ccw(uint8_t *at, uint8_t command, uint32_t address, uint8_t flags, uint16_t count)
{
    at[0] = command;
    put(at + 1, 3, address);
    at[4] = flags;
    put(at + 6, 2, count);
}

/* A request of two commands that print six bytes each, chained, on storage at BASE. The second has this count and these flags. */
static void make(uint8_t *storage, uint16_t dcb, uint8_t second, uint8_t flags, uint16_t count)
{
    memset(storage, 0, LENGTH);
    storage[0] = 0x42;
    put(storage + 5, 3, ECB);
    put(storage + 17, 3, PROGRAM);
    put(storage + 21, 3, dcb);
    put_ccw(storage + PROGRAM - BASE, 0x09, TEXT, 0x40, 6);
    put_ccw(storage + PROGRAM - BASE + 8, second, TEXT, flags, count);
    memcpy(storage + TEXT - BASE, "\xC1\xC2\xC3\xC4\xC5\xC6", 6);
}

static uint64_t issue(excp_site *site, uint16_t unit, uint16_t dcb, uint8_t second, uint8_t flags, uint16_t count)
{
    uint8_t storage[LENGTH];
    uint64_t number = 0;
    make(storage, dcb, second, flags, count);
    OK(excp_issue(site, TASK, unit, dcb, IOB, BASE, storage, LENGTH, &number));
    return number;
}

/* A site with a disk, a tape and, as unit 2, a printer whose command 3 meets a fault, with three DCBs. */
static void set_up(excp_site *site)
{
    excp_room room = { 30, 9 }, one = { 1, 1 };
    uint16_t unit = 99, dcb = 99;
    OK(excp_site_new(site, TASK + 1, 4));
    OK(excp_put_record(site, 2, 1, 9, (const uint8_t *)"KEY", 3, (const uint8_t *)"DATUM", 5));
    OK(excp_mount_disk(site, 3, 2, 100, &one, &unit));
    EXPECT(unit == 0);
    OK(excp_put_block(site, (const uint8_t *)"BLOCK", 5));
    OK(excp_put_tape_mark(site));
    OK(excp_mount_tape(site, 100, &one, &unit));
    EXPECT(unit == 1);
    OK(excp_put_fault(site, 3, 0x0E, 0, 0x4021));
    OK(excp_mount_printer(site, 100, 10, &room, &unit));
    EXPECT(unit == 2);
    for (int number = 1; number <= 3; number++) {
        OK(excp_open(site, 2, EXCP_OUTPUT, NULL, 0, &dcb));
        EXPECT(dcb == number);
    }
}

static void see_answers_and_states(excp_site *site)
{
    GUARDED(excp_answer, answer);
    GUARDED(excp_unit_state, state);
    GUARDED(excp_active_request, active);
    uint64_t number = 0;
    uint16_t task = 0;

    for (int at = 0; at < 20; at++)
        EXPECT(issue(site, 2, 3, 0x09, 0, 6) == (uint64_t)at + 1);
    for (int at = 0; at < 9; at++) {
        OK(excp_take(site, 2, &answer.it));
        EXPECT(answer.it.kind == EXCP_TOOK && answer.it.number == (uint64_t)at + 1 && answer.it.task == TASK);
        EXPECT(answer.it.commands == 0 && answer.it.code == 0);
    }
    for (int at = 0; at < 3; at++) {
        OK(excp_start(site, 2, &answer.it));
        EXPECT(answer.it.kind == EXCP_STARTED && answer.it.number == (uint64_t)at + 1);
        OK(excp_run(site, 2, 100, &answer.it));
        EXPECT(answer.it.kind == EXCP_RAN_PENDING && answer.it.commands == (at == 1 ? 1u : 2u));
        EXPECT(answer.it.number == 0 && answer.it.task == 0 && answer.it.code == 0);
        OK(excp_interrupt(site, 2, &answer.it));
        EXPECT(answer.it.kind == EXCP_ENDED && answer.it.number == (uint64_t)at + 1 && answer.it.task == TASK);
        EXPECT(answer.it.code == (at == 1 ? 0x41 : 0x7F) && answer.it.commands == 0);
    }
    OK(excp_start(site, 2, &answer.it));
    EXPECT(answer.it.kind == EXCP_STARTED && answer.it.number == 4);
    EXPECT(is_whole(answer.guard));

    OK(excp_look(site, 2, &state.it));
    EXPECT(state.it.active_number == 4 && state.it.active_task == TASK && state.it.active == EXCP_RUNNING);
    EXPECT(state.it.in_flight == 11 && state.it.in_flight_room == 19 && state.it.waiting == 5 && state.it.out == 3);
    EXPECT(state.it.printed == 4 && state.it.kind == EXCP_PRINTER && state.it.has_room == 0);
    EXPECT(is_whole(state.guard));

    OK(excp_look_active(site, 2, &active.it));
    EXPECT(active.it.number == 4 && active.it.next == PROGRAM && active.it.attempt == 1);
    EXPECT(active.it.task == TASK && active.it.dcb == 3 && is_whole(active.guard));
    EXPECT(excp_look_active(site, 1, &active.it) == EXCP_NOTHING_THERE);

    OK(excp_waiting(site, 2, 2, &task, &number));
    EXPECT(task == TASK && number == 7);
}

static void see_posts(excp_site *site)
{
    GUARDED(excp_post, post);
    GUARDED(excp_served, served);
    uint8_t storage[LENGTH];

    OK(excp_serve(site, 2, 100, &served.it));
    EXPECT(served.it.posts == 4 && served.it.commands == 20 && served.it.ended == EXCP_SERVED_ROW_FULL);
    EXPECT(is_whole(served.guard));

    OK(excp_next_post(site, TASK, &post.it, storage, LENGTH));
    EXPECT(post.it.number == 1 && post.it.code == 0x7F);
    OK(excp_peek_post(site, TASK, &post.it));
    EXPECT(post.it.number == 2 && post.it.address == PROGRAM + 8 && post.it.base == BASE && post.it.length == LENGTH);
    EXPECT(post.it.residual == 6 && post.it.sense == 0x4021 && post.it.unit == 2 && post.it.task == TASK && post.it.dcb == 3);
    EXPECT(post.it.code == 0x41 && post.it.unit_status == 0x0E && post.it.channel_status == 0);
    EXPECT(excp_next_post(site, TASK, &post.it, storage, LENGTH - 1) == EXCP_NO_ROOM);
    OK(excp_next_post(site, TASK, &post.it, storage, LENGTH));
    EXPECT(memcmp(storage + 2, "\x40\x21\x41", 3) == 0 && memcmp(storage + ECB - BASE, "\x41\0\0\0", 4) == 0);
    EXPECT(is_whole(post.guard));
}

/* The second command of this request has a count of 140, of which the printer takes 132. */
static void see_channel_status(excp_site *site)
{
    GUARDED(excp_post, post);
    GUARDED(excp_served, served);
    uint8_t storage[0x100];
    uint64_t number;
    make(storage, 3, 0x01, 0, 140);
    memset(storage + LENGTH, 0, sizeof storage - LENGTH);
    do {
        OK(excp_serve(site, 2, 100, &served.it));
    } while (excp_next_post(site, TASK, &post.it, storage, sizeof storage) == EXCP_OK);
    make(storage, 3, 0x01, 0, 140);
    OK(excp_issue(site, TASK, 2, 3, IOB, BASE, storage, sizeof storage, &number));
    OK(excp_serve(site, 2, 100, &served.it));
    OK(excp_next_post(site, TASK, &post.it, storage, sizeof storage));
    EXPECT(post.it.number == 21 && post.it.length == 0x100 && post.it.residual == 8 && post.it.address == PROGRAM + 16);
    EXPECT(post.it.code == 0x41 && post.it.unit_status == 0x0C && post.it.channel_status == 0x40);
}

static void see_dcbs(excp_site *site)
{
    GUARDED(excp_dcb_state, state);
    GUARDED(excp_answer, answer);
    OK(excp_look_dcb(site, 2, 3, &state.it));
    EXPECT(state.it.state == EXCP_DCB_OPEN && state.it.in_error == 0 && state.it.file_mask == 0x18);
    OK(excp_close(site, 2, 3, &answer.it));
    EXPECT(answer.it.kind == EXCP_CLOSED);
    OK(excp_look_dcb(site, 2, 3, &state.it));
    EXPECT(state.it.state == EXCP_DCB_CLOSED && state.it.in_error == 0);
    EXPECT(is_whole(state.guard) && is_whole(answer.guard));
}

static void see_media(excp_site *site)
{
    GUARDED(excp_record, record);
    GUARDED(excp_line, line);
    uint8_t bytes[132];
    OK(excp_read_record(site, 0, 2, 1, 1, &record.it, bytes, sizeof bytes));
    EXPECT(record.it.cylinder == 2 && record.it.head == 1 && record.it.number == 9);
    EXPECT(record.it.key_length == 3 && record.it.data_length == 5 && memcmp(bytes, "KEYDATUM", 8) == 0);
    EXPECT(is_whole(record.guard));
    OK(excp_printed_line(site, 2, 3, &line.it, bytes, sizeof bytes));
    EXPECT(line.it.page == 1 && line.it.line == 4 && line.it.length == 6 && memcmp(bytes, "\xC1\xC2\xC3\xC4\xC5\xC6", 6) == 0);
    EXPECT(is_whole(line.guard));
}

/* The items of the tape, at its load point; and the line of the printer after those that were printed, each one line on. */
static void see_places(excp_site *site)
{
    GUARDED(excp_item, item);
    GUARDED(excp_place, place);
    excp_unit_state state;
    uint8_t bytes[5];
    OK(excp_read_item(site, 1, 0, &item.it, bytes, sizeof bytes));
    EXPECT(item.it.length == 5 && item.it.is_mark == 0 && memcmp(bytes, "BLOCK", 5) == 0);
    OK(excp_read_item(site, 1, 1, &item.it, bytes, 0));
    EXPECT(item.it.length == 0 && item.it.is_mark == 1 && is_whole(item.guard));
    EXPECT(excp_read_item(site, 1, 2, &item.it, bytes, sizeof bytes) == EXCP_NOTHING_THERE);
    EXPECT(excp_read_item(site, 1, 0, &item.it, bytes, 4) == EXCP_NO_ROOM);
    EXPECT(excp_read_item(site, 0, 0, &item.it, bytes, sizeof bytes) == EXCP_BAD_MEDIUM);
    OK(excp_look_place(site, 1, &place.it));
    EXPECT(place.it.items == 2 && place.it.passed == 0 && place.it.cylinder == 0 && place.it.page == 0 && place.it.line == 0);
    OK(excp_look(site, 2, &state));
    OK(excp_look_place(site, 2, &place.it));
    EXPECT(place.it.page == 1 && place.it.line == state.printed && place.it.items == 0 && place.it.head == 0);
    EXPECT(is_whole(place.guard));
}

/* A channel with the printer as it is. The second command has a count of 140, of which the printer takes 132. */
static void see_channel(excp_site *site)
{
    GUARDED(excp_channel_ran, ran);
    GUARDED(excp_channel_status, status);
    uint8_t storage[0x100], before[0x100];
    uint32_t channel = 9, code = 9;
    size_t length = 0, printed = 0;
    make(storage, 3, 0x01, 0, 140);
    memset(storage + LENGTH, 0, sizeof storage - LENGTH);
    OK(excp_channel_new(site, 2, &channel));
    EXPECT(channel == 0);
    OK(excp_channel_start(site, channel, PROGRAM, 0, 0, 0, &code));
    EXPECT(code == 0);
    OK(excp_channel_start(site, channel, PROGRAM, 0, 0, 0, &code));
    EXPECT(code == 2);
    OK(excp_channel_run(site, channel, 1, BASE, storage, sizeof storage, &ran.it));
    EXPECT(ran.it.commands == 1 && ran.it.pending == 0);
    OK(excp_channel_run(site, channel, 9, BASE, storage, sizeof storage, &ran.it));
    EXPECT(ran.it.commands == 1 && ran.it.pending == 1 && is_whole(ran.guard));
    OK(excp_channel_halt(site, channel, &code));
    EXPECT(code == 1);
    OK(excp_channel_test(site, channel, &status.it));
    EXPECT(status.it.code == 0 && status.it.address == PROGRAM + 16 && status.it.residual == 8 && status.it.sense == 0);
    EXPECT(status.it.unit_status == 0x0C && status.it.channel_status == 0x40);
    OK(excp_channel_test(site, channel, &status.it));
    EXPECT(status.it.code == 1 && status.it.address == 0 && status.it.channel_status == 0 && is_whole(status.guard));
    EXPECT(excp_channel_test(site, 1, &status.it) == EXCP_NOTHING_THERE);
    memcpy(before, storage, sizeof storage);
    EXPECT(excp_channel_run(site, channel, 1, BASE + 4, storage, sizeof storage, &ran.it) == EXCP_AREA_MISALIGNED);
    EXPECT(excp_channel_run(site, channel, 0, BASE, storage, sizeof storage, &ran.it) == EXCP_BAD_NUMBER);
    EXPECT(excp_channel_run(site, 1, 1, BASE, storage, sizeof storage, &ran.it) == EXCP_NOTHING_THERE);
    EXPECT(memcmp(before, storage, sizeof storage) == 0);
    OK(excp_make_image(site, 2, &printed));
    OK(excp_channel_make_image(site, channel, &length));
    EXPECT(length > printed);
    OK(excp_channel_free(site, channel));
    EXPECT(excp_channel_free(site, channel) == EXCP_NOTHING_THERE && excp_channel_halt(site, channel, &code) == EXCP_NOTHING_THERE);
    EXPECT(excp_channel_make_image(site, channel, &length) == EXCP_NOTHING_THERE);
    OK(excp_channel_new(site, 2, &channel));
    EXPECT(channel == 1);
}

/* The other functions, so that each is linked. */
static void call_others(excp_site *site)
{
    GUARDED(excp_answer, answer);
    GUARDED(excp_site, handle);
    size_t length = 0;
    uint8_t text[1];
    OK(excp_make_record(site, 2, 100, &length));
    EXPECT(length > 0);
    OK(excp_copy_out(site, length - 1, text, 1));
    EXPECT(text[0] == '\n');
    EXPECT(excp_copy_out(site, length, text, 1) == EXCP_NO_ROOM);
    OK(excp_drop_made(site));
    OK(excp_made_length(site, &length));
    EXPECT(length == 0 && excp_copy_out(site, 0, text, 1) == EXCP_NO_ROOM);
    OK(excp_clear_medium(site));
    OK(excp_deliver(site, 2, &answer.it));
    EXPECT(answer.it.kind == EXCP_QUIET);
    OK(excp_purge(site, 2, 1, EXCP_HALT, &answer.it));
    OK(excp_purge_task(site, 2, 1, EXCP_QUIESCE, &answer.it));
    OK(excp_reset(site, 2, 1));
    OK(excp_settle(site, 2));
    OK(excp_checkpoint(site, 2));
    EXPECT(strcmp(excp_message(EXCP_OK), excp_message(EXCP_NO_SITE)) != 0 && excp_version()[0] != 0);
    handle.it = (excp_site)EXCP_SITE_INIT;
    OK(excp_site_new(&handle.it, 1, 1));
    EXPECT(handle.it.mark != 0 && handle.it.at != NULL);
    OK(excp_site_free(&handle.it));
    EXPECT(handle.it.mark == 0 && handle.it.at == NULL && is_whole(handle.guard));
}

int main(void)
{
    excp_site site = EXCP_SITE_INIT;
    set_up(&site);
    see_answers_and_states(&site);
    see_posts(&site);
    see_channel_status(&site);
    see_dcbs(&site);
    see_media(&site);
    see_places(&site);
    see_channel(&site);
    call_others(&site);
    OK(excp_site_free(&site));
    return faults != 0;
}
