/* The records that the header's helpers make, for bench/api: each record of a file is read into the helper's struct, made again, and must
 * come out the same; in a buffer of its own length and in none that is shorter.
 * usage: records FILE ..      load files that can be written as version 2 */
#include "timetable.h"

#include <stdio.h>
#include <stdlib.h>
#include <string.h>

#define MOST (1u << 20)

typedef struct fields {
    const uint8_t *at;
} fields;

static void need(bool test, const char *what)
{
    if (!test) {
        fprintf(stderr, "records: %s\n", what);
        exit(1);
    }
}

static uint64_t number(fields *from, unsigned bytes)
{
    uint64_t found = 0;
    while (bytes > 0) {
        found = found << 8 | *from->at;
        from->at += 1;
        bytes -= 1;
    }
    return found;
}

static const char *text(fields *from, char *to)
{
    const size_t length = (size_t)number(from, 1);
    memcpy(to, from->at, length);
    to[length] = 0;
    from->at += length;
    return to;
}

static double degrees(fields *from)
{
    const uint64_t bits = number(from, 8);
    double found;
    memcpy(&found, &bits, sizeof found);
    return found;
}

static size_t settings_again(fields from, uint8_t *to, size_t room)
{
    timetable_settings given;
    unsigned at;
    memset(&given, 0, sizeof given);
    given.origins = (uint8_t)number(&from, 1);
    given.targets = (uint8_t)number(&from, 1);
    for (at = 0; at < given.origins; at += 1) {
        given.origin_walk[at] = (uint8_t)number(&from, 1);
    }
    for (at = 0; at < given.targets; at += 1) {
        given.target_walk[at] = (uint8_t)number(&from, 1);
    }
    given.change_time = (uint16_t)number(&from, 2);
    given.max_transfers = (uint8_t)number(&from, 1);
    given.now = (int64_t)number(&from, 8);
    for (at = 0; at < 3; at += 1) {
        given.epoch[at] = (int64_t)number(&from, 8);
    }
    return timetable_settings_record(to, room, &given);
}

static size_t stop_again(fields from, uint8_t *to, size_t room)
{
    static char texts[3][256];
    timetable_stop given;
    memset(&given, 0, sizeof given);
    given.id = text(&from, texts[0]);
    given.name = number(&from, 1) ? text(&from, texts[1]) : NULL;
    given.parent = number(&from, 1) ? text(&from, texts[2]) : NULL;
    given.type = (uint8_t)number(&from, 1);
    given.has_position = number(&from, 1) != 0;
    if (given.has_position) {
        given.latitude = degrees(&from);
        given.longitude = degrees(&from);
    }
    given.members = (uint8_t)number(&from, 1);
    return timetable_stop_record(to, room, &given);
}

static size_t call_again(fields from, uint8_t *to, size_t room)
{
    timetable_call given;
    memset(&given, 0, sizeof given);
    given.trip = (uint16_t)number(&from, 2);
    given.day = (uint8_t)number(&from, 1);
    given.sequence = (uint32_t)number(&from, 4);
    given.stop = (uint16_t)number(&from, 2);
    given.no_arrival = number(&from, 1) == 0;
    given.arrival = given.no_arrival ? 0 : (uint32_t)number(&from, 4);
    given.no_departure = number(&from, 1) == 0;
    given.departure = given.no_departure ? 0 : (uint32_t)number(&from, 4);
    given.pickup = (uint8_t)number(&from, 1);
    given.drop_off = (uint8_t)number(&from, 1);
    return timetable_call_record(to, room, &given);
}

static size_t rule_again(fields from, uint8_t *to, size_t room)
{
    timetable_rule given;
    memset(&given, 0, sizeof given);
    given.from = (uint16_t)number(&from, 2);
    given.to = (uint16_t)number(&from, 2);
    given.type = (uint8_t)number(&from, 1);
    given.has_seconds = number(&from, 1) != 0;
    given.seconds = given.has_seconds ? (uint16_t)number(&from, 2) : 0;
    return timetable_rule_record(to, room, &given);
}

static size_t again(const uint8_t *record, uint8_t *to, size_t room)
{
    fields from;
    from.at = record + 1;
    switch (record[0]) {
    case 1:
        return settings_again(from, to, room);
    case 2:
        return stop_again(from, to, room);
    case 3:
        return call_again(from, to, room);
    case 4:
        return rule_again(from, to, room);
    default:
        return timetable_search_record(to, room);
    }
}

/* In memory of its own for each size, so that a sanitizer sees what is written behind it. */
static void same_record(const uint8_t *record, size_t length)
{
    size_t room;
    for (room = 0; room <= length + 1; room += 1) {
        uint8_t *to = (uint8_t *)malloc(room);
        const size_t found = again(record, to, room);
        need(found == (room < length ? 0 : length), "another length");
        need(found == 0 || memcmp(to, record, length) == 0, "other bytes");
        free(to);
    }
}

static unsigned file_again(const char *name)
{
    static uint8_t file[MOST], written[TIMETABLE_FILE];
    size_t length, at = 1;
    unsigned records = 0;
    FILE *in = fopen(name, "rb");
    need(in != NULL, name);
    length = fread(file, 1, sizeof file, in);
    fclose(in);
    if (timetable_write(file, length, written, sizeof written, &length) != TIMETABLE_OK) {
        return 0;
    }
    while (at < length) {
        const size_t size = (size_t)written[at] << 8 | written[at + 1];
        same_record(written + at + 2, size);
        at += 2 + size;
        records += 1;
    }
    return records;
}

/* Texts and counts that are too long fit into the longest record, and the load is refused for what they are. */
static void too_long(void)
{
    static char many[301];
    static uint8_t buffer[TIMETABLE_FILE];
    uint8_t record[TIMETABLE_RECORD];
    timetable_settings settings;
    timetable_stop stop;
    timetable_load load;
    memset(many, 'x', 300);
    memset(&settings, 0, sizeof settings);
    memset(&stop, 0, sizeof stop);
    stop.id = stop.name = stop.parent = many;
    stop.has_position = true;
    need(timetable_stop_record(record, sizeof record, &stop) == TIMETABLE_RECORD, "the longest record");
    need(timetable_stop_record(record, sizeof record - 1, &stop) == 0, "a byte less");
    need(timetable_open(&load, buffer, sizeof buffer, &settings) == TIMETABLE_OK, "opened");
    need(timetable_add_stop(&load, &stop) == 3, "an id that is too long");
    stop.id = "x";
    stop.parent = NULL;
    need(timetable_add_stop(&load, &stop) == 8, "a name that is too long");
    stop.name = NULL;
    need(timetable_add_stop(&load, &stop) == TIMETABLE_OK, "a stop");
    need(timetable_add_search(&load) == TIMETABLE_OK && timetable_add_search(&load) == 15, "one search");
    settings.origins = 255;
    need(timetable_open(&load, buffer, sizeof buffer, &settings) == 1, "too many origins");
    need(timetable_add_stop(&load, &stop) == 19 && load.length == 1, "no load");
    need(timetable_open(&load, buffer, 0, &settings) == TIMETABLE_ROOM, "no room");
}

int main(int count, char **words)
{
    unsigned records = 0;
    int at;
    too_long();
    for (at = 1; at < count; at += 1) {
        records += file_again(words[at]);
    }
    printf("%u records made again\n", records);
    return 0;
}
