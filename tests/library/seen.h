/* What a caller can see of a site, as one number, for tests: two sites, or a site before and after a call, are told apart by it. */
#ifndef SEEN_H
#define SEEN_H

#include "excp.h"

#include <stdio.h>
#include <stdlib.h>
#include <string.h>

/* FNV-1a over bytes, and over a number. */
static uint64_t mixed(uint64_t sum, const void *bytes, size_t length)
{
    const uint8_t *at = bytes;
    while (length-- > 0)
        sum = (sum ^ *at++) * 1099511628211u;
    return sum;
}

static uint64_t mixed_number(uint64_t sum, uint64_t number)
{
    return mixed(sum, &number, sizeof number);
}

static void *needed(void *block)
{
    if (!block) {
        fprintf(stderr, "no memory for the test itself\n");
        exit(2);
    }
    return block;
}

/* The bytes that the site keeps, as `seen` made them last. */
static uint8_t *kept;
static size_t kept_length;

/* Whether the site still keeps them. */
static int is_kept(excp_site *site)
{
    uint8_t *now = needed(malloc(kept_length + 1));
    int same = excp_copy_out(site, 0, now, kept_length) == EXCP_OK && (!kept_length || memcmp(now, kept, kept_length) == 0);
    free(now);
    return same;
}

/* Takes the bytes that were just made. */
static uint64_t take_made(excp_site *site, size_t length, uint64_t sum)
{
    kept_length = length;
    kept = needed(realloc(kept, length + 1));
    sum = mixed_number(sum, excp_copy_out(site, 0, kept, length));
    return mixed(sum, kept, length);
}

static uint64_t seen_medium(excp_site *site, uint16_t unit, uint64_t sum)
{
    static uint8_t bytes[65535 + 255];
    excp_record record;
    excp_item item;
    excp_line line;
    for (uint16_t track = 0; track < 4; track++)
        for (uint32_t place = 0;
             excp_read_record(site, unit, track / 2, track % 2, place, &record, bytes, sizeof bytes) == EXCP_OK; place++) {
            sum = mixed_number(sum, (uint64_t)record.cylinder << 48 | (uint64_t)record.head << 32 | record.number);
            sum = mixed_number(sum, (uint64_t)record.key_length << 16 | record.data_length);
            sum = mixed(sum, bytes, (size_t)record.key_length + record.data_length);
        }
    for (uint32_t place = 0; excp_read_item(site, unit, place, &item, bytes, sizeof bytes) == EXCP_OK; place++) {
        sum = mixed_number(sum, (uint64_t)item.length << 8 | item.is_mark);
        sum = mixed(sum, bytes, item.length);
    }
    for (uint32_t place = 0; excp_printed_line(site, unit, place, &line, bytes, sizeof bytes) == EXCP_OK; place++) {
        sum = mixed_number(sum, (uint64_t)line.page << 16 | line.line);
        sum = mixed(sum, bytes, line.length);
    }
    return sum;
}

static uint64_t seen_unit(excp_site *site, uint16_t unit, const excp_unit_state *state, int has_record, uint64_t sum)
{
    excp_dcb_state look;
    excp_trace_entry entry;
    excp_active_request active;
    excp_place at;
    size_t length;
    sum = mixed_number(sum, state->active_number);
    sum = mixed_number(sum, (uint64_t)state->in_flight << 32 | state->in_flight_room);
    sum = mixed_number(sum, (uint64_t)state->waiting << 32 | state->out);
    sum = mixed_number(sum, (uint64_t)state->printed << 16 | state->active_task);
    sum = mixed_number(sum, (uint64_t)state->active << 16 | (uint64_t)state->kind << 8 | state->has_room);
    for (uint32_t dcb = 1; dcb <= UINT16_MAX && excp_look_dcb(site, unit, (uint16_t)dcb, &look) == EXCP_OK; dcb++)
        sum = mixed_number(sum, (uint64_t)look.state << 16 | (uint64_t)look.in_error << 8 | look.file_mask);
    for (uint32_t place = 0; place < state->waiting; place++) {
        uint16_t task = 0;
        uint64_t number = 0;
        sum = mixed_number(sum, excp_waiting(site, unit, place, &task, &number));
        sum = mixed_number(mixed_number(sum, task), number);
    }
    for (uint32_t place = 0; has_record && excp_look_entry(site, unit, place, &entry) == EXCP_OK; place++) {
        sum = mixed_number(sum, entry.number);
        sum = mixed_number(sum, (uint64_t)entry.commands << 32 | entry.address);
        sum = mixed_number(sum, (uint64_t)entry.task << 48 | (uint64_t)entry.dcb << 32 | (uint64_t)entry.residual << 16
                                    | entry.sense);
        sum = mixed_number(sum, (uint64_t)entry.kind << 16 | (uint64_t)entry.way << 8 | entry.code);
        sum = mixed_number(sum, (uint64_t)entry.unit_status << 8 | entry.channel_status);
    }
    if (excp_look_active(site, unit, &active) == EXCP_OK) {
        sum = mixed_number(mixed_number(sum, active.number), (uint64_t)active.next << 32 | active.attempt);
        sum = mixed_number(sum, (uint64_t)active.task << 16 | active.dcb);
    }
    if (excp_look_place(site, unit, &at) == EXCP_OK) {
        sum = mixed_number(sum, (uint64_t)at.items << 32 | at.passed);
        sum = mixed_number(sum, (uint64_t)at.cylinder << 48 | (uint64_t)at.head << 32 | (uint64_t)at.page << 16 | at.line);
    }
    sum = seen_medium(site, unit, sum);
    if (has_record && excp_make_record(site, unit, 0, &length) == EXCP_OK)
        sum = take_made(site, length, sum);
    return sum;
}

/* All that can be seen of a site: its units with their media, their entries and records if wanted, and the first post of each of
 * some tasks. */
static uint64_t seen(excp_site *site, int has_record)
{
    uint64_t sum = 14695981039346656037u;
    excp_unit_state state;
    excp_post post;
    kept_length = 0;
    for (uint32_t unit = 0; unit <= UINT16_MAX && excp_look(site, (uint16_t)unit, &state) == EXCP_OK; unit++)
        sum = seen_unit(site, (uint16_t)unit, &state, has_record, sum);
    for (uint16_t task = 0; task < 4; task++) {
        sum = mixed_number(sum, excp_peek_post(site, task, memset(&post, 0, sizeof post)));
        sum = mixed_number(sum, post.number);
        sum = mixed_number(sum, (uint64_t)post.address << 32 | post.base);
        sum = mixed_number(sum, (uint64_t)post.length << 32 | (uint64_t)post.residual << 16 | post.sense);
        sum = mixed_number(sum, (uint64_t)post.unit << 32 | (uint64_t)post.task << 16 | post.dcb);
        sum = mixed_number(sum, (uint64_t)post.code << 16 | (uint64_t)post.unit_status << 8 | post.channel_status);
    }
    return sum;
}

#endif
