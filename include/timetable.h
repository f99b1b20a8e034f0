/* timetable.h: the journeys of a display, for C11 and C++11 programs. docs/API.md says what each function promises, and how much of it is
 * proved. Link target/staticlib/libtimetable.a, which tools/make timetable makes.
 *
 * A paper or a display's data is a load file (docs/RULES.md 13): a version byte, then records. The second part of this header writes such
 * records, so nobody needs to know their bytes. A list is what a file's search found: plain numbers that the caller owns and may copy.
 *
 * No function allocates, keeps a pointer, has a state of its own or writes anything but what it is lent; each may be called from any
 * thread, on different memory at once. Pointers must be valid and not null; a length of 0 is allowed. No two of a call may overlap where
 * one of them isn't const: so `missed` and `journey` are two structs, and a record doesn't lie in the file that it is put behind. A
 * `bool` in a struct that is handed in must be 0 or 1. The calls need stack: docs/API.md says how much. */
#ifndef TIMETABLE_H
#define TIMETABLE_H

#include <stdbool.h>
#include <stddef.h>
#include <stdint.h>

#ifdef __cplusplus
extern "C" {
#define TIMETABLE_ASSERT(test) static_assert(test, #test)
#else
#define TIMETABLE_ASSERT(test) _Static_assert(test, #test)
#endif

#define TIMETABLE_VERSION 1u      /* of these declarations; timetable_version() is the library's */
#define TIMETABLE_JOURNEYS 64     /* the most that a list holds */
#define TIMETABLE_GROUPS 4        /* the most that a display holds */

/* What a function answers where it isn't said otherwise: 0, or the number of a refusal, 1 to 26 (docs/RULES.md 16). */
#define TIMETABLE_OK 0
#define TIMETABLE_ROOM 26         /* a buffer is too short; it is as it was */
#define TIMETABLE_OUTSIDE 255     /* timetable_append: the call lies outside the window. Not a refusal: its record is put all the same */

/* What a query answers. Refused, none and found are three answers. */
#define TIMETABLE_NONE 0
#define TIMETABLE_FOUND 1
#define TIMETABLE_NO_LIST 2       /* the file was refused, or isn't searched */

/* The state of a list. */
#define TIMETABLE_REFUSED 0       /* nothing in it counts but `refusal` */
#define TIMETABLE_UNSEARCHED 1
#define TIMETABLE_STOPPED 2       /* its search was stopped at a limit: no verdict */
#define TIMETABLE_FINISHED 3

/* Margins that are not known. */
#define TIMETABLE_NO_MARGIN 65535

typedef struct timetable_ride {
    uint16_t trip;
    uint16_t from, to;            /* numbers of stops, from 0 in the order of the file */
    uint16_t departure, arrival;  /* seconds from the start of the window */
    uint8_t day;
    bool board_request, alight_request;  /* on request there */
} timetable_ride;

typedef struct timetable_journey {
    uint16_t leave, arrival;      /* seconds from the start of the window, walks included */
    uint8_t rides;                /* 1 to 3: so many of `ride` count, in order */
    uint8_t walk;                 /* minutes to the first stop */
    uint8_t origin, target;
    timetable_ride ride[3];       /* those that don't count are all 0 */
} timetable_journey;

typedef struct timetable_list {
    int64_t now;                  /* the start of the window, in seconds of the file's clock */
    uint64_t joins;               /* tested by timetable_read_within, else 0 */
    uint16_t horizon;             /* nothing is claimed of what arrives later */
    uint16_t margin;              /* of a stopped list: how much earlier the best at second 0 may still become; else TIMETABLE_NO_MARGIN */
    uint8_t refusal;              /* 0, or its number */
    uint8_t state;
    uint8_t limits;               /* 1 if something was cut to fit */
    uint8_t count;                /* how many journeys */
    timetable_journey journey[TIMETABLE_JOURNEYS];  /* the first `count`, best first in the order of docs/RULES.md 8.7; then all 0 */
} timetable_list;

/* A connection that someone names. The first `rides` legs count. */
typedef struct timetable_leg {
    uint32_t board, alight;       /* the sequences of the calls */
    uint16_t trip;
    uint8_t day;
} timetable_leg;

typedef struct timetable_connection {
    timetable_leg leg[3];
    uint8_t origin, target, rides;
} timetable_connection;

/* What is said of it: `kind` is one of the first seven; an impossible one has a cause; `at` is the place of the listed journey meant, or
 * the number of the leg or change, from 0; `a`, `b` and `c` are further numbers, named behind the causes. What isn't named is 0. */
#define TIMETABLE_NOT_FINISHED 0  /* no finished search: nothing is said */
#define TIMETABLE_LATE 1          /* due after the horizon: nothing is said */
#define TIMETABLE_LISTED 2        /* journey `at` of the list */
#define TIMETABLE_AS_GOOD 3       /* another with the leave, arrival, rides and walk of journey `at` */
#define TIMETABLE_BEATEN 4        /* journey `at` beats it, and is the first that does */
#define TIMETABLE_UNCOVERED 5     /* of no file: proved never to be answered */
#define TIMETABLE_IMPOSSIBLE 6    /* it can't be made, for the first cause that holds: */

#define TIMETABLE_RIDE_COUNT 1        /* a rides: none, or more than three */
#define TIMETABLE_NO_CALL 2           /* leg `at` has no call of sequence a */
#define TIMETABLE_BOARDING_BARRED 3   /* where leg `at` boards */
#define TIMETABLE_ALIGHTING_BARRED 4  /* where leg `at` alights */
#define TIMETABLE_NOT_LATER 5         /* leg `at` doesn't alight at a later call */
#define TIMETABLE_NOT_ORIGIN 6        /* the first stop isn't of the origin */
#define TIMETABLE_NOT_TARGET 7        /* the last stop isn't of the target */
#define TIMETABLE_TOO_EARLY 8         /* the first ride departs at b, before a walk of a seconds is done */
#define TIMETABLE_TOO_MANY_CHANGES 9  /* more than a */
#define TIMETABLE_SAME_RUN 10         /* change `at` is to the trip and day that one comes by */
#define TIMETABLE_FORBIDDEN 11        /* change `at`, by rule a */
#define TIMETABLE_NO_CHANGE 12        /* change `at`: no rule, and neither one stop, one station nor one place */
#define TIMETABLE_TOO_SHORT 13        /* change `at` takes a seconds; one arrives at b, and the next departs at c */

typedef struct timetable_verdict {
    uint32_t a, b, c;
    uint8_t kind, cause, at;
} timetable_verdict;

/* A display of up to four groups: what is shown of each, which is the first `share` journeys of its list, due by `window`. */
typedef struct timetable_part {
    uint16_t window;
    uint8_t refusal;              /* 0, or 11: where one doesn't fit */
    uint8_t share;
    bool present;
} timetable_part;

typedef struct timetable_display {
    timetable_part part[TIMETABLE_GROUPS];  /* by the group's number */
    uint8_t refusal;              /* 0, or 23 */
} timetable_display;

/* The library lays these out so; a compiler that doesn't is told here. */
TIMETABLE_ASSERT(sizeof(bool) == 1);
TIMETABLE_ASSERT(sizeof(timetable_ride) == 14 && offsetof(timetable_ride, trip) == 0 && offsetof(timetable_ride, from) == 2);
TIMETABLE_ASSERT(offsetof(timetable_ride, to) == 4 && offsetof(timetable_ride, departure) == 6 && offsetof(timetable_ride, arrival) == 8);
TIMETABLE_ASSERT(offsetof(timetable_ride, day) == 10 && offsetof(timetable_ride, board_request) == 11);
TIMETABLE_ASSERT(offsetof(timetable_ride, alight_request) == 12);
TIMETABLE_ASSERT(sizeof(timetable_journey) == 50 && offsetof(timetable_journey, leave) == 0 && offsetof(timetable_journey, arrival) == 2);
TIMETABLE_ASSERT(offsetof(timetable_journey, rides) == 4 && offsetof(timetable_journey, walk) == 5);
TIMETABLE_ASSERT(offsetof(timetable_journey, origin) == 6 && offsetof(timetable_journey, target) == 7);
TIMETABLE_ASSERT(offsetof(timetable_journey, ride) == 8);
TIMETABLE_ASSERT(sizeof(timetable_list) == 3224 && offsetof(timetable_list, now) == 0 && offsetof(timetable_list, joins) == 8);
TIMETABLE_ASSERT(offsetof(timetable_list, horizon) == 16 && offsetof(timetable_list, margin) == 18);
TIMETABLE_ASSERT(offsetof(timetable_list, refusal) == 20 && offsetof(timetable_list, state) == 21);
TIMETABLE_ASSERT(offsetof(timetable_list, limits) == 22 && offsetof(timetable_list, count) == 23);
TIMETABLE_ASSERT(offsetof(timetable_list, journey) == 24);
TIMETABLE_ASSERT(sizeof(timetable_leg) == 12 && offsetof(timetable_leg, board) == 0 && offsetof(timetable_leg, alight) == 4);
TIMETABLE_ASSERT(offsetof(timetable_leg, trip) == 8 && offsetof(timetable_leg, day) == 10);
TIMETABLE_ASSERT(sizeof(timetable_connection) == 40 && offsetof(timetable_connection, leg) == 0);
TIMETABLE_ASSERT(offsetof(timetable_connection, origin) == 36 && offsetof(timetable_connection, target) == 37);
TIMETABLE_ASSERT(offsetof(timetable_connection, rides) == 38);
TIMETABLE_ASSERT(sizeof(timetable_verdict) == 16 && offsetof(timetable_verdict, a) == 0 && offsetof(timetable_verdict, b) == 4);
TIMETABLE_ASSERT(offsetof(timetable_verdict, c) == 8 && offsetof(timetable_verdict, kind) == 12);
TIMETABLE_ASSERT(offsetof(timetable_verdict, cause) == 13 && offsetof(timetable_verdict, at) == 14);
TIMETABLE_ASSERT(sizeof(timetable_part) == 6 && offsetof(timetable_part, window) == 0 && offsetof(timetable_part, refusal) == 2);
TIMETABLE_ASSERT(offsetof(timetable_part, share) == 3 && offsetof(timetable_part, present) == 4);
TIMETABLE_ASSERT(sizeof(timetable_display) == 26 && offsetof(timetable_display, part) == 0 && offsetof(timetable_display, refusal) == 24);

/* The version of the library: these declarations are right if it is TIMETABLE_VERSION. */
uint32_t timetable_version(void);

/* Reads a load file of version 1 or 2, which may end with its search. The answer is the list's `refusal`. */
uint8_t timetable_read(const uint8_t *file, size_t length, timetable_list *list);

/* Reads a load file without a search, and searches it within a limit on joins. */
uint8_t timetable_read_within(const uint8_t *file, size_t length, uint64_t limit, timetable_list *list);

/* The best journey that leaves at or after the second. Unless the answer is TIMETABLE_FOUND the journey is as it was: it is read and put
 * back, so give it a value first. */
uint8_t timetable_best(const timetable_list *list, int64_t second, timetable_journey *journey);

/* The best one after `missed` has been missed: only its leave counts. */
uint8_t timetable_next_after(const timetable_list *list, int64_t second, const timetable_journey *missed, timetable_journey *journey);

/* The verdict on a connection, by a file with its search. The answer is the file's refusal. */
uint8_t timetable_judge(const uint8_t *file, size_t length, const timetable_connection *connection, timetable_verdict *verdict);

/* The load of a file written as a file of version 2; `*written` is its length, 0 where it is refused: by the file's refusal, 25 or 26. */
uint8_t timetable_write(const uint8_t *file, size_t length, uint8_t *out, size_t room, size_t *written);

/* One step: the record is put behind the file unless the file's load refuses it; 0, or 255 for a call outside, as a full table may be cut
 * by it. After any other answer the file and its length are as they were. The file stands in the first `*length` of `room` bytes, and
 * begins with the version byte alone. A record is handed in without its length; the functions below make them. */
uint8_t timetable_append(uint8_t *file, size_t room, size_t *length, const uint8_t *record, size_t record_length);

/* A display of up to four lists, each given for the group of the number at its place; of lists and numbers the fewer count. */
uint8_t timetable_deal(const timetable_list *lists, size_t count, const uint8_t *numbers, size_t number_count, timetable_display *display);

/* Best and next after among what the display shows of a list; TIMETABLE_NONE of a part that isn't there or is refused. */
uint8_t timetable_shown_best(const timetable_list *list, const timetable_part *part, int64_t second, timetable_journey *journey);
uint8_t timetable_shown_next(const timetable_list *list, const timetable_part *part, int64_t second, const timetable_journey *missed,
                             timetable_journey *journey);

/* ---- A load built step by step. None of what follows is in the library, and none of it is proved: it writes bytes, and
 * timetable_append judges them.
 *
 *     uint8_t file[TIMETABLE_FILE];
 *     timetable_load load;
 *     uint8_t said = timetable_open(&load, file, sizeof file, &settings);
 *     if (said == TIMETABLE_OK) said = timetable_add_stop(&load, &stop);
 *     ..
 *     said = timetable_add_search(&load);
 *     timetable_read(load.file, load.length, &list);
 *
 * Set what isn't used to 0: `timetable_stop stop = {0};`. */

#define TIMETABLE_FILE 34000      /* bytes: room for any load that can be held, with its search; 24 more for each call that isn't */
#define TIMETABLE_RECORD 790      /* bytes: room for any record that is made here */

typedef struct timetable_settings {
    int64_t now;                  /* the start of the window, in seconds of a clock of your own */
    int64_t epoch[3];             /* the starts of days 0, 1 and 2 by that clock */
    uint16_t change_time;         /* seconds */
    uint8_t max_transfers;        /* 0, 1 or 2 */
    uint8_t origins, targets;     /* how many there are, at most 4 */
    uint8_t origin_walk[4], target_walk[4];  /* minutes on foot */
} timetable_settings;

/* Texts end with a byte 0. A text of more than 255 bytes is written as its first 255, which are refused as well: 32 are the most of an
 * id, 64 of a name. */
typedef struct timetable_stop {
    const char *id;
    const char *name;             /* or null */
    const char *parent;           /* the id of a station, or null */
    double latitude, longitude;   /* degrees, read if there is a position */
    uint8_t type;                 /* 0 stop, 1 station */
    uint8_t members;              /* bit i: of origin i; bit 4 + i: of target i */
    bool has_position;
} timetable_stop;

typedef struct timetable_rule {
    uint16_t from, to;            /* numbers of stops */
    uint16_t seconds;             /* read if there are any */
    uint8_t type;                 /* 0 to 3 */
    bool has_seconds;
} timetable_rule;

typedef struct timetable_call {
    uint32_t sequence;
    uint32_t arrival, departure;  /* seconds from the start of the day */
    uint16_t trip;
    uint16_t stop;                /* its number */
    uint8_t day;
    uint8_t pickup, drop_off;     /* 0 as usual, 1 not at all, 2 or 3 on request */
    bool no_arrival, no_departure;  /* a call that lacks a time is outside */
} timetable_call;

/* Bytes put one after the other; once some don't fit, nothing more is put. */
typedef struct timetable_bytes {
    uint8_t *to;
    size_t room, length;
    bool full;
} timetable_bytes;

static inline timetable_bytes timetable_bytes_of(uint8_t *to, size_t room)
{
    timetable_bytes out;
    out.to = to;
    out.room = room;
    out.length = 0;
    out.full = false;
    return out;
}

/* The lowest bytes of a number, the highest of them first. */
static inline void timetable_put(timetable_bytes *out, uint64_t number, unsigned bytes)
{
    if (out->full || out->room - out->length < bytes) {
        out->full = true;
        return;
    }
    while (bytes > 0) {
        bytes -= 1;
        out->to[out->length] = (uint8_t)(number >> (8 * bytes));
        out->length += 1;
    }
}

/* A byte 1, then the number; or a byte 0. */
static inline void timetable_put_option(timetable_bytes *out, bool some, uint64_t number, unsigned bytes)
{
    timetable_put(out, some ? 1 : 0, 1);
    if (some) {
        timetable_put(out, number, bytes);
    }
}

static inline void timetable_put_text(timetable_bytes *out, const char *text)
{
    size_t length = 0;
    size_t at;
    while (length < 255 && text[length] != 0) {
        length += 1;
    }
    timetable_put(out, length, 1);
    for (at = 0; at < length; at += 1) {
        timetable_put(out, (uint8_t)text[at], 1);
    }
}

static inline void timetable_put_text_option(timetable_bytes *out, const char *text)
{
    timetable_put(out, text ? 1 : 0, 1);
    if (text) {
        timetable_put_text(out, text);
    }
}

static inline void timetable_put_double(timetable_bytes *out, double number)
{
    uint64_t bits = 0;
    size_t at;
    TIMETABLE_ASSERT(sizeof(double) == 8);
    for (at = 0; at < 8; at += 1) {
        ((unsigned char *)&bits)[at] = ((const unsigned char *)&number)[at];
    }
    timetable_put(out, bits, 8);
}

/* Of more than four the first four walks, then 0: the load is refused with 1 whatever they are. */
static inline void timetable_put_walks(timetable_bytes *out, uint8_t count, const uint8_t *walks)
{
    unsigned at;
    for (at = 0; at < count; at += 1) {
        timetable_put(out, at < 4 ? walks[at] : 0, 1);
    }
}

static inline size_t timetable_put_length(const timetable_bytes *out)
{
    return out->full ? 0 : out->length;
}

/* Each writes a record without its length into a buffer and answers how many bytes it is, or 0 if it doesn't fit; TIMETABLE_RECORD are
 * always enough. No record has length 0, and timetable_append refuses one. */
static inline size_t timetable_settings_record(uint8_t *record, size_t room, const timetable_settings *settings)
{
    timetable_bytes out = timetable_bytes_of(record, room);
    unsigned day;
    timetable_put(&out, 1, 1);
    timetable_put(&out, settings->origins, 1);
    timetable_put(&out, settings->targets, 1);
    timetable_put_walks(&out, settings->origins, settings->origin_walk);
    timetable_put_walks(&out, settings->targets, settings->target_walk);
    timetable_put(&out, settings->change_time, 2);
    timetable_put(&out, settings->max_transfers, 1);
    timetable_put(&out, (uint64_t)settings->now, 8);
    for (day = 0; day < 3; day += 1) {
        timetable_put(&out, (uint64_t)settings->epoch[day], 8);
    }
    return timetable_put_length(&out);
}

static inline size_t timetable_stop_record(uint8_t *record, size_t room, const timetable_stop *stop)
{
    timetable_bytes out = timetable_bytes_of(record, room);
    timetable_put(&out, 2, 1);
    timetable_put_text(&out, stop->id);
    timetable_put_text_option(&out, stop->name);
    timetable_put_text_option(&out, stop->parent);
    timetable_put(&out, stop->type, 1);
    timetable_put(&out, stop->has_position ? 1 : 0, 1);
    if (stop->has_position) {
        timetable_put_double(&out, stop->latitude);
        timetable_put_double(&out, stop->longitude);
    }
    timetable_put(&out, stop->members, 1);
    return timetable_put_length(&out);
}

static inline size_t timetable_rule_record(uint8_t *record, size_t room, const timetable_rule *rule)
{
    timetable_bytes out = timetable_bytes_of(record, room);
    timetable_put(&out, 4, 1);
    timetable_put(&out, rule->from, 2);
    timetable_put(&out, rule->to, 2);
    timetable_put(&out, rule->type, 1);
    timetable_put_option(&out, rule->has_seconds, rule->seconds, 2);
    return timetable_put_length(&out);
}

static inline size_t timetable_call_record(uint8_t *record, size_t room, const timetable_call *call)
{
    timetable_bytes out = timetable_bytes_of(record, room);
    timetable_put(&out, 3, 1);
    timetable_put(&out, call->trip, 2);
    timetable_put(&out, call->day, 1);
    timetable_put(&out, call->sequence, 4);
    timetable_put(&out, call->stop, 2);
    timetable_put_option(&out, !call->no_arrival, call->arrival, 4);
    timetable_put_option(&out, !call->no_departure, call->departure, 4);
    timetable_put(&out, call->pickup, 1);
    timetable_put(&out, call->drop_off, 1);
    return timetable_put_length(&out);
}

static inline size_t timetable_search_record(uint8_t *record, size_t room)
{
    timetable_bytes out = timetable_bytes_of(record, room);
    timetable_put(&out, 5, 1);
    return timetable_put_length(&out);
}

/* A load file that is being built, in a buffer that the caller lends. */
typedef struct timetable_load {
    uint8_t *file;
    size_t room, length;
} timetable_load;

/* Each answers as timetable_append does, and leaves a load that refuses the step as it was. */
static inline uint8_t timetable_add(timetable_load *load, const uint8_t *record, size_t length)
{
    return timetable_append(load->file, load->room, &load->length, record, length);
}

/* An empty load. After a refusal there is none, and each later step is refused with 19. */
static inline uint8_t timetable_open(timetable_load *load, uint8_t *file, size_t room, const timetable_settings *settings)
{
    uint8_t record[TIMETABLE_RECORD];
    size_t length = timetable_settings_record(record, sizeof record, settings);
    load->file = file;
    load->room = room;
    load->length = 0;
    if (room == 0) {
        return TIMETABLE_ROOM;
    }
    file[0] = 2;
    load->length = 1;
    return timetable_add(load, record, length);
}

/* Stops are numbered from 0 as they are taken. */
static inline uint8_t timetable_add_stop(timetable_load *load, const timetable_stop *stop)
{
    uint8_t record[TIMETABLE_RECORD];
    return timetable_add(load, record, timetable_stop_record(record, sizeof record, stop));
}

static inline uint8_t timetable_add_rule(timetable_load *load, const timetable_rule *rule)
{
    uint8_t record[TIMETABLE_RECORD];
    return timetable_add(load, record, timetable_rule_record(record, sizeof record, rule));
}

/* After the search too: then the load is searched again. TIMETABLE_OUTSIDE where it lies outside the window. */
static inline uint8_t timetable_add_call(timetable_load *load, const timetable_call *call)
{
    uint8_t record[TIMETABLE_RECORD];
    return timetable_add(load, record, timetable_call_record(record, sizeof record, call));
}

static inline uint8_t timetable_add_search(timetable_load *load)
{
    uint8_t record[TIMETABLE_RECORD];
    return timetable_add(load, record, timetable_search_record(record, sizeof record));
}

#ifdef __cplusplus
}
#endif

#endif
