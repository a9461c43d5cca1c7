/* Each function of excp.h refuses a null pointer, whichever it is, and a handle without a site; and writes nothing then. */
#include <excp.h>
#include <stdio.h>
#include <string.h>

static int faults;

static void expect(int is_so, const char *what)
{
    if (!is_so) {
        fprintf(stderr, "%s\n", what);
        faults++;
    }
}

#define GIVES(status, call) expect((call) == (status), #call " does not give " #status)
#define NO_POINTER(call) GIVES(EXCP_NULL_POINTER, call)

static excp_site site = EXCP_SITE_INIT;
static const uint8_t bytes[16];
static uint8_t buffer[16];
static const excp_room room = { 1, 1 };
static excp_answer answer;
static excp_served served;
static excp_post post;
static excp_unit_state unit_state;
static excp_dcb_state dcb_state;
static excp_record record;
static excp_item item;
static excp_line line;
static excp_active_request active;
static excp_place place;
static excp_channel_ran ran;
static excp_channel_status channel_status;
static uint16_t number16;
static uint32_t number32;
static uint64_t number64;
static size_t length;

static void refuse_null(void)
{
    NO_POINTER(excp_site_new(NULL, 1, 1));
    NO_POINTER(excp_site_free(NULL));
    NO_POINTER(excp_put_record(NULL, 0, 0, 1, bytes, 1, bytes, 1));
    NO_POINTER(excp_put_record(&site, 0, 0, 1, NULL, 1, bytes, 1));
    NO_POINTER(excp_put_record(&site, 0, 0, 1, bytes, 1, NULL, 1));
    NO_POINTER(excp_put_block(NULL, bytes, 1));
    NO_POINTER(excp_put_block(&site, NULL, 1));
    NO_POINTER(excp_put_tape_mark(NULL));
    NO_POINTER(excp_put_fault(NULL, 1, 0x0E, 0, 0));
    NO_POINTER(excp_clear_medium(NULL));
    NO_POINTER(excp_mount_disk(NULL, 1, 1, 40, &room, &number16));
    NO_POINTER(excp_mount_disk(&site, 1, 1, 40, NULL, &number16));
    NO_POINTER(excp_mount_disk(&site, 1, 1, 40, &room, NULL));
    NO_POINTER(excp_mount_tape(NULL, 4, &room, &number16));
    NO_POINTER(excp_mount_tape(&site, 4, NULL, &number16));
    NO_POINTER(excp_mount_tape(&site, 4, &room, NULL));
    NO_POINTER(excp_mount_printer(NULL, 1, 1, &room, &number16));
    NO_POINTER(excp_mount_printer(&site, 1, 1, NULL, &number16));
    NO_POINTER(excp_mount_printer(&site, 1, 1, &room, NULL));
    NO_POINTER(excp_mount_ckd(NULL, bytes, 16, &room, &number16));
    NO_POINTER(excp_mount_ckd(&site, NULL, 16, &room, &number16));
    NO_POINTER(excp_mount_ckd(&site, bytes, 16, NULL, &number16));
    NO_POINTER(excp_mount_ckd(&site, bytes, 16, &room, NULL));
    NO_POINTER(excp_mount_aws(NULL, bytes, 16, 4, &room, &number16));
    NO_POINTER(excp_mount_aws(&site, NULL, 16, 4, &room, &number16));
    NO_POINTER(excp_mount_aws(&site, bytes, 16, 4, NULL, &number16));
    NO_POINTER(excp_mount_aws(&site, bytes, 16, 4, &room, NULL));
    NO_POINTER(excp_open(NULL, 0, EXCP_INPUT, bytes, 16, &number16));
    NO_POINTER(excp_open(&site, 0, EXCP_INPUT, NULL, 16, &number16));
    NO_POINTER(excp_open(&site, 0, EXCP_INPUT, bytes, 16, NULL));
    NO_POINTER(excp_issue(NULL, 0, 0, 1, 0, 0, bytes, 16, &number64));
    NO_POINTER(excp_issue(&site, 0, 0, 1, 0, 0, NULL, 16, &number64));
    NO_POINTER(excp_issue(&site, 0, 0, 1, 0, 0, bytes, 16, NULL));
    NO_POINTER(excp_take(NULL, 0, &answer));
    NO_POINTER(excp_take(&site, 0, NULL));
    NO_POINTER(excp_start(NULL, 0, &answer));
    NO_POINTER(excp_start(&site, 0, NULL));
    NO_POINTER(excp_run(NULL, 0, 1, &answer));
    NO_POINTER(excp_run(&site, 0, 1, NULL));
    NO_POINTER(excp_interrupt(NULL, 0, &answer));
    NO_POINTER(excp_interrupt(&site, 0, NULL));
    NO_POINTER(excp_deliver(NULL, 0, &answer));
    NO_POINTER(excp_deliver(&site, 0, NULL));
    NO_POINTER(excp_serve(NULL, 0, 1, &served));
    NO_POINTER(excp_serve(&site, 0, 1, NULL));
    NO_POINTER(excp_settle(NULL, 0));
    NO_POINTER(excp_peek_post(NULL, 0, &post));
    NO_POINTER(excp_peek_post(&site, 0, NULL));
    NO_POINTER(excp_next_post(NULL, 0, &post, buffer, 16));
    NO_POINTER(excp_next_post(&site, 0, NULL, buffer, 16));
    NO_POINTER(excp_next_post(&site, 0, &post, NULL, 16));
    NO_POINTER(excp_purge(NULL, 0, 1, EXCP_HALT, &answer));
    NO_POINTER(excp_purge(&site, 0, 1, EXCP_HALT, NULL));
    NO_POINTER(excp_purge_task(NULL, 0, 0, EXCP_HALT, &answer));
    NO_POINTER(excp_purge_task(&site, 0, 0, EXCP_HALT, NULL));
    NO_POINTER(excp_close(NULL, 0, 1, &answer));
    NO_POINTER(excp_close(&site, 0, 1, NULL));
    NO_POINTER(excp_reset(NULL, 0, 1));
    NO_POINTER(excp_look(NULL, 0, &unit_state));
    NO_POINTER(excp_look(&site, 0, NULL));
    NO_POINTER(excp_look_active(NULL, 0, &active));
    NO_POINTER(excp_look_active(&site, 0, NULL));
    NO_POINTER(excp_look_place(NULL, 0, &place));
    NO_POINTER(excp_look_place(&site, 0, NULL));
    NO_POINTER(excp_look_dcb(NULL, 0, 1, &dcb_state));
    NO_POINTER(excp_look_dcb(&site, 0, 1, NULL));
    NO_POINTER(excp_waiting(NULL, 0, 0, &number16, &number64));
    NO_POINTER(excp_waiting(&site, 0, 0, NULL, &number64));
    NO_POINTER(excp_waiting(&site, 0, 0, &number16, NULL));
    NO_POINTER(excp_read_record(NULL, 0, 0, 0, 0, &record, buffer, 16));
    NO_POINTER(excp_read_record(&site, 0, 0, 0, 0, NULL, buffer, 16));
    NO_POINTER(excp_read_record(&site, 0, 0, 0, 0, &record, NULL, 16));
    NO_POINTER(excp_read_item(NULL, 0, 0, &item, buffer, 16));
    NO_POINTER(excp_read_item(&site, 0, 0, NULL, buffer, 16));
    NO_POINTER(excp_read_item(&site, 0, 0, &item, NULL, 16));
    NO_POINTER(excp_printed_line(NULL, 0, 0, &line, buffer, 16));
    NO_POINTER(excp_printed_line(&site, 0, 0, NULL, buffer, 16));
    NO_POINTER(excp_printed_line(&site, 0, 0, &line, NULL, 16));
    NO_POINTER(excp_make_record(NULL, 0, 0, &length));
    NO_POINTER(excp_make_record(&site, 0, 0, NULL));
    NO_POINTER(excp_make_image(NULL, 0, &length));
    NO_POINTER(excp_make_image(&site, 0, NULL));
    NO_POINTER(excp_made_length(NULL, &length));
    NO_POINTER(excp_made_length(&site, NULL));
    NO_POINTER(excp_drop_made(NULL));
    NO_POINTER(excp_copy_out(NULL, 0, buffer, 16));
    NO_POINTER(excp_copy_out(&site, 0, NULL, 16));
    NO_POINTER(excp_channel_new(NULL, 0, &number32));
    NO_POINTER(excp_channel_new(&site, 0, NULL));
    NO_POINTER(excp_channel_free(NULL, 0));
    NO_POINTER(excp_channel_make_image(NULL, 0, &length));
    NO_POINTER(excp_channel_make_image(&site, 0, NULL));
    NO_POINTER(excp_channel_start(NULL, 0, 0, 0, 0, 0, &number32));
    NO_POINTER(excp_channel_start(&site, 0, 0, 0, 0, 0, NULL));
    NO_POINTER(excp_channel_run(NULL, 0, 1, 0, buffer, 16, &ran));
    NO_POINTER(excp_channel_run(&site, 0, 1, 0, NULL, 16, &ran));
    NO_POINTER(excp_channel_run(&site, 0, 1, 0, buffer, 16, NULL));
    NO_POINTER(excp_channel_test(NULL, 0, &channel_status));
    NO_POINTER(excp_channel_test(&site, 0, NULL));
    NO_POINTER(excp_channel_halt(NULL, 0, &number32));
    NO_POINTER(excp_channel_halt(&site, 0, NULL));
    NO_POINTER(excp_checkpoint(NULL, 0));
}

/* Bytes of length 0 may have no pointer. With these every function gives the same status on such a handle. */
static void refuse_all(excp_status status)
{
    GIVES(status, excp_put_record(&site, 0, 0, 1, NULL, 0, NULL, 0));
    GIVES(status, excp_put_block(&site, NULL, 0));
    GIVES(status, excp_put_tape_mark(&site));
    GIVES(status, excp_put_fault(&site, 1, 0x0E, 0, 0));
    GIVES(status, excp_clear_medium(&site));
    GIVES(status, excp_mount_disk(&site, 1, 1, 40, &room, &number16));
    GIVES(status, excp_mount_tape(&site, 4, &room, &number16));
    GIVES(status, excp_mount_printer(&site, 1, 1, &room, &number16));
    GIVES(status, excp_mount_ckd(&site, NULL, 0, &room, &number16));
    GIVES(status, excp_mount_aws(&site, NULL, 0, 4, &room, &number16));
    GIVES(status, excp_open(&site, 0, EXCP_INPUT, NULL, 0, &number16));
    GIVES(status, excp_issue(&site, 0, 0, 1, 0, 0, NULL, 0, &number64));
    GIVES(status, excp_take(&site, 0, &answer));
    GIVES(status, excp_start(&site, 0, &answer));
    GIVES(status, excp_run(&site, 0, 1, &answer));
    GIVES(status, excp_interrupt(&site, 0, &answer));
    GIVES(status, excp_deliver(&site, 0, &answer));
    GIVES(status, excp_serve(&site, 0, 1, &served));
    GIVES(status, excp_settle(&site, 0));
    GIVES(status, excp_peek_post(&site, 0, &post));
    GIVES(status, excp_next_post(&site, 0, &post, NULL, 0));
    GIVES(status, excp_purge(&site, 0, 1, EXCP_HALT, &answer));
    GIVES(status, excp_purge_task(&site, 0, 0, EXCP_HALT, &answer));
    GIVES(status, excp_close(&site, 0, 1, &answer));
    GIVES(status, excp_reset(&site, 0, 1));
    GIVES(status, excp_look(&site, 0, &unit_state));
    GIVES(status, excp_look_active(&site, 0, &active));
    GIVES(status, excp_look_place(&site, 0, &place));
    GIVES(status, excp_look_dcb(&site, 0, 1, &dcb_state));
    GIVES(status, excp_waiting(&site, 0, 0, &number16, &number64));
    GIVES(status, excp_read_record(&site, 0, 0, 0, 0, &record, NULL, 0));
    GIVES(status, excp_read_item(&site, 0, 0, &item, NULL, 0));
    GIVES(status, excp_printed_line(&site, 0, 0, &line, NULL, 0));
    GIVES(status, excp_make_record(&site, 0, 1, &length));
    GIVES(status, excp_make_image(&site, 0, &length));
    GIVES(status, excp_made_length(&site, &length));
    GIVES(status, excp_drop_made(&site));
    GIVES(status, excp_copy_out(&site, 0, NULL, 0));
    GIVES(status, excp_channel_new(&site, 0, &number32));
    GIVES(status, excp_channel_free(&site, 0));
    GIVES(status, excp_channel_make_image(&site, 0, &length));
    GIVES(status, excp_channel_start(&site, 0, 0, 0, 0, 0, &number32));
    GIVES(status, excp_channel_run(&site, 0, 1, 0, NULL, 0, &ran));
    GIVES(status, excp_channel_test(&site, 0, &channel_status));
    GIVES(status, excp_channel_halt(&site, 0, &number32));
    GIVES(status, excp_checkpoint(&site, 0));
    GIVES(status, excp_site_free(&site));
}

/* Every status has a text of its own, and no other number has. */
static void tell_statuses(void)
{
    const char *unknown = excp_message((excp_status)(EXCP_IN_ERROR + 1));
    for (int one = EXCP_OK; one <= EXCP_IN_ERROR; one++) {
        expect(strcmp(excp_message((excp_status)one), unknown) != 0, "a status has no text");
        for (int two = EXCP_OK; two < one; two++)
            expect(strcmp(excp_message((excp_status)one), excp_message((excp_status)two)) != 0, "two statuses have one text");
    }
    expect(strcmp(unknown, "unknown status") == 0, "a number that is no status has a text");
    expect(strcmp(excp_message((excp_status)-1), "unknown status") == 0, "-1 has a text");
    expect(strcmp(excp_version(), VERSION) == 0, "the version is another");
}

/* The site says this of the last call. */
static void says(const char *reason)
{
    char text[200] = "";
    GIVES(EXCP_OK, excp_made_length(&site, &length));
    expect(length < sizeof text, "a reason is too long");
    GIVES(EXCP_OK, excp_copy_out(&site, 0, (uint8_t *)text, length));
    if (strcmp(text, reason) != 0) {
        fprintf(stderr, "\"%s\" in place of \"%s\"\n", text, reason);
        faults++;
    }
}

/* Why mounts are refused: by c/excp.h, "Media and units". */
static void tell_media(void)
{
    static const uint8_t many[300];
    GIVES(EXCP_BAD_GEOMETRY, excp_mount_disk(&site, 1, 1, 15, &room, &number16));
    says("a track has 16 to 65,535 bytes, not 15");
    GIVES(EXCP_BAD_GEOMETRY, excp_mount_tape(&site, 3, &room, &number16));
    says("a tape has 4 to 16,777,216 bytes, not 3");
    GIVES(EXCP_BAD_GEOMETRY, excp_mount_printer(&site, 1, 10001, &room, &number16));
    says("a printer has 1 to 10,000 pages, not 10001");
    GIVES(EXCP_OK, excp_put_record(&site, 0, 0, 1, NULL, 0, bytes, 4));
    GIVES(EXCP_OK, excp_put_record(&site, 0, 0, 2, many, 256, bytes, 4));
    GIVES(EXCP_BAD_MEDIUM, excp_mount_disk(&site, 1, 1, 1000, &room, &number16));
    says("record 1: a key has at most 255 bytes, not 256");
    GIVES(EXCP_BAD_MEDIUM, excp_mount_tape(&site, 100, &room, &number16));
    says("records of a disk were put, or items of a tape, which the device does not take");
    GIVES(EXCP_OK, excp_clear_medium(&site));
    GIVES(EXCP_OK, excp_put_block(&site, bytes, 4));
    GIVES(EXCP_OK, excp_put_tape_mark(&site));
    GIVES(EXCP_OK, excp_put_block(&site, bytes, 3));
    GIVES(EXCP_BAD_MEDIUM, excp_mount_tape(&site, 18, &room, &number16));
    says("item 2 does not fit the tape, whose items take 19 bytes of 18");
    GIVES(EXCP_OK, excp_put_fault(&site, 2, 0x0E, 0, 0));
    GIVES(EXCP_OK, excp_put_fault(&site, 2, 0x0E, 0, 0));
    GIVES(EXCP_BAD_MEDIUM, excp_mount_tape(&site, 19, &room, &number16));
    says("fault 1 has no command after that of the fault before it: commands count from 1 and rise");
    GIVES(EXCP_OK, excp_clear_medium(&site));
}

/* Why a DCB is not opened, and why no request is issued, at a disk of 2 cylinders of 3 heads. */
static void tell_requests(void)
{
    uint8_t extent[16] = { [11] = 1, [13] = 2, [15] = 9 }, storage[64] = { 0 };
    GIVES(EXCP_OK, excp_mount_disk(&site, 2, 3, 100, &room, &number16));
    GIVES(EXCP_BAD_EXTENT, excp_open(&site, 0, EXCP_OUTPUT, extent, 15, &number16));
    says("extents have 16 bytes each, and these have 15 in all");
    GIVES(EXCP_BAD_EXTENT, excp_open(&site, 0, EXCP_OUTPUT, extent, 0, &number16));
    says("a DCB of a disk has 1 to 16 extents, not 0");
    GIVES(EXCP_BAD_EXTENT, excp_open(&site, 0, EXCP_OUTPUT, extent, 16, &number16));
    says("extent 0: it says 9 tracks, and has 6");
    extent[11] = 2;
    GIVES(EXCP_BAD_EXTENT, excp_open(&site, 0, EXCP_OUTPUT, extent, 16, &number16));
    says("extent 0: an end of it is not on the disk (cylinders: 2, heads: 3)");
    storage[6] = 0x10;
    storage[7] = 0x2A;
    GIVES(EXCP_AREA_MISALIGNED, excp_issue(&site, 0, 0, 1, 0x1000, 0x1004, storage, sizeof storage, &number64));
    says("the base 001004 of the storage is not a multiple of 8");
    GIVES(EXCP_BAD_IOB, excp_issue(&site, 0, 0, 1, 0x1020, 0x1000, storage, sizeof storage, &number64));
    says("the IOB at 001020 does not lie in the storage at 001000");
    GIVES(EXCP_BAD_ECB, excp_issue(&site, 0, 0, 1, 0x1000, 0x1000, storage, sizeof storage, &number64));
    says("the ECB at 00102A is not on a fullword boundary");
    storage[7] = 0x28;
    GIVES(EXCP_BAD_PROGRAM, excp_issue(&site, 0, 0, 1, 0x1000, 0x1000, storage, sizeof storage, &number64));
    says("the channel program at 000000 does not lie in the storage at 001000");
    storage[18] = 0x10;
    storage[19] = 0x30;
    GIVES(EXCP_WRONG_DCB, excp_issue(&site, 0, 0, 1, 0x1000, 0x1000, storage, sizeof storage, &number64));
    says("the IOB names DCB 0, and the call DCB 1");
    GIVES(EXCP_NO_TASK, excp_issue(&site, 1, 0, 1, 0x1000, 0x1000, storage, sizeof storage, &number64));
    says("the IOB names DCB 0, and the call DCB 1");
    GIVES(EXCP_OK, excp_drop_made(&site));
    says("");
}

int main(void)
{
    refuse_null();
    refuse_all(EXCP_NO_SITE);
    expect(answer.kind == 0 && number16 == 0 && number64 == 0 && length == 0 && post.number == 0, "a refused call wrote something");
    GIVES(EXCP_BAD_NUMBER, excp_site_new(&site, 0, 1));
    GIVES(EXCP_BAD_NUMBER, excp_site_new(&site, 1, 0));
    GIVES(EXCP_OK, excp_site_new(&site, 1, 1));
    GIVES(EXCP_SITE_IN_USE, excp_site_new(&site, 1, 1));
    tell_media();
    tell_requests();
    GIVES(EXCP_OK, excp_site_free(&site));
    refuse_all(EXCP_NO_SITE);
    tell_statuses();
    return faults != 0;
}
