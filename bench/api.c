/* Calls of the library from C, for bench/api.
 *   api stack CALL BYTES FILE ..   one call for each file, in a thread with a stack of so many bytes and a wide guard below it. CALL is
 *                                  read, within, best, next, judge, write, append, deal or shown
 *   api fences FILE ..             every call on each file and on its beginnings, with each buffer flush against a page that can't be
 *                                  touched */
#define _DEFAULT_SOURCE
#include "timetable.h"

#include <pthread.h>
#include <stdio.h>
#include <stdlib.h>
#include <string.h>
#include <sys/mman.h>

#define MOST (1u << 20)

typedef struct part {
    uint8_t *bytes;
    size_t length;
} part;

typedef struct buffers {
    timetable_list *lists;          /* four */
    timetable_journey *journey;
    timetable_connection *connection;
    timetable_verdict *verdict;
    timetable_display *display;
    uint8_t *out, *numbers;
    size_t room;
} buffers;

static void need(bool test, const char *what)
{
    if (!test) {
        fprintf(stderr, "api: %s\n", what);
        exit(1);
    }
}

/* So many bytes that end where a page begins that can't be touched; another stands before them. */
static void *fenced(size_t bytes)
{
    const size_t page = 4096;
    const size_t whole = (bytes + page - 1) / page * page;
    uint8_t *at = (uint8_t *)mmap(NULL, whole + 2 * page, PROT_NONE, MAP_PRIVATE | MAP_ANONYMOUS, -1, 0);
    need(at != MAP_FAILED && mprotect(at + page, whole, PROT_READ | PROT_WRITE) == 0, "no memory");
    return at + page + whole - bytes;
}

static part read_file(const char *name)
{
    static uint8_t all[MOST];
    part file;
    FILE *in = fopen(name, "rb");
    need(in != NULL, name);
    file.length = fread(all, 1, sizeof all, in);
    need(feof(in) && !ferror(in), name);
    fclose(in);
    file.bytes = (uint8_t *)fenced(file.length);
    memcpy(file.bytes, all, file.length);
    return file;
}

static size_t number(const uint8_t *at, size_t bytes)
{
    size_t found = 0;
    while (bytes-- > 0) {
        found = found << 8 | *at++;
    }
    return found;
}

/* Where the last record begins, its length included. */
static size_t last_record(part file)
{
    size_t at = 1, last = 1;
    while (at + 2 <= file.length) {
        last = at;
        at += 2 + number(file.bytes + at, 2);
    }
    return last;
}

/* The file's first calls of a trip as legs, each to the call behind it. */
static void name_legs(part file, timetable_connection *connection)
{
    size_t at = 1, before = 0;
    memset(connection, 0, sizeof *connection);
    while (at + 2 <= file.length && connection->rides < 3) {
        const uint8_t *record = file.bytes + at + 2;
        const size_t length = number(file.bytes + at, 2);
        if (length >= 8 && at + 2 + length <= file.length && record[0] == 3) {
            if (before != 0 && memcmp(record + 1, file.bytes + before + 1, 3) == 0) {
                timetable_leg *leg = &connection->leg[connection->rides];
                leg->trip = (uint16_t)number(record + 1, 2);
                leg->day = record[3];
                leg->board = (uint32_t)number(file.bytes + before + 4, 4);
                leg->alight = (uint32_t)number(record + 4, 4);
                connection->rides += 1;
            }
            before = at + 2;
        }
        at += 2 + length;
    }
}

static uint8_t append(part file, buffers *to)
{
    const size_t end = last_record(file);
    size_t length = end;
    if (end + 2 > file.length || file.length > to->room) {
        return TIMETABLE_ROOM;
    }
    memcpy(to->out, file.bytes, end);
    return timetable_append(to->out, to->room, &length, file.bytes + end + 2, file.length - end - 2);
}

static bool call(const char *what, part file, buffers *to)
{
    size_t written;
    if (strcmp(what, "read") == 0) {
        timetable_read(file.bytes, file.length, to->lists);
    } else if (strcmp(what, "within") == 0) {
        /* without its search, if that stands last */
        const size_t end = last_record(file);
        const bool searched = end + 3 == file.length && file.bytes[end + 2] == 5;
        timetable_read_within(file.bytes, searched ? end : file.length, 1000000, to->lists);
    } else if (strcmp(what, "best") == 0) {
        timetable_best(to->lists, 0, to->journey);
    } else if (strcmp(what, "next") == 0) {
        timetable_next_after(to->lists, 0, to->journey, to->journey + 1);
    } else if (strcmp(what, "judge") == 0) {
        timetable_judge(file.bytes, file.length, to->connection, to->verdict);
    } else if (strcmp(what, "write") == 0) {
        timetable_write(file.bytes, file.length, to->out, to->room, &written);
        need(written <= to->room, "more is written than there is room");
    } else if (strcmp(what, "append") == 0) {
        append(file, to);
    } else if (strcmp(what, "deal") == 0) {
        timetable_deal(to->lists, 4, to->numbers, 4, to->display);
    } else if (strcmp(what, "shown") == 0) {
        timetable_shown_best(to->lists, &to->display->part[0], 0, to->journey);
        timetable_shown_next(to->lists, &to->display->part[0], 0, to->journey, to->journey + 1);
    } else {
        return false;
    }
    return true;
}

/* What the calls before it would have left, and room for what it puts. */
static buffers prepared(part file, size_t room)
{
    buffers to;
    size_t at;
    to.lists = (timetable_list *)fenced(4 * sizeof *to.lists);
    to.journey = (timetable_journey *)fenced(2 * sizeof *to.journey);
    to.connection = (timetable_connection *)fenced(sizeof *to.connection);
    to.verdict = (timetable_verdict *)fenced(sizeof *to.verdict);
    to.display = (timetable_display *)fenced(sizeof *to.display);
    to.out = (uint8_t *)fenced(room);
    to.numbers = (uint8_t *)fenced(4);
    to.room = room;
    for (at = 0; at < 4; at += 1) {
        timetable_read(file.bytes, file.length, &to.lists[at]);
        to.numbers[at] = (uint8_t)at;
    }
    name_legs(file, to.connection);
    return to;
}

typedef struct job {
    const char *what;
    part file;
    buffers to;
} job;

static void *run(void *given)
{
    job *one = (job *)given;
    need(call(one->what, one->file, &one->to), "no such call");
    return NULL;
}

static int stack(const char *what, const char *bytes, char **names)
{
    pthread_attr_t attributes;
    const size_t size = (size_t)strtoull(bytes, NULL, 10);
    need(pthread_attr_init(&attributes) == 0 && pthread_attr_setstacksize(&attributes, size) == 0, "no such stack");
    need(pthread_attr_setguardsize(&attributes, (size_t)64 << 20) == 0, "no guard");
    for (; *names; names += 1) {
        pthread_t thread;
        job one;
        one.what = what;
        one.file = read_file(*names);
        one.to = prepared(one.file, TIMETABLE_FILE);
        need(pthread_create(&thread, &attributes, run, &one) == 0 && pthread_join(thread, NULL) == 0, "no thread");
    }
    return 0;
}

/* All calls, in this order: each finds what those before it have left. */
static void every_call(part file, buffers *to)
{
    static const char *const calls[] = {"within", "read", "best", "next", "judge", "write", "append", "deal", "shown"};
    size_t at;
    for (at = 0; at < sizeof calls / sizeof *calls; at += 1) {
        call(calls[at], file, to);
    }
}

/* The file whole, in an `out` of its own length and of two bytes less; then cut in 64 places. */
static int fences(char **names)
{
    unsigned files = 0, cuts = 0;
    for (; *names; names += 1) {
        const part file = read_file(*names);
        const size_t step = file.length / 64 + 1;
        size_t length;
        buffers whole = prepared(file, file.length);
        buffers less = prepared(file, file.length < 2 ? 0 : file.length - 2);
        every_call(file, &whole);
        every_call(file, &less);
        for (length = 0; length < file.length; length += step) {
            part cut;
            cut.length = length;
            cut.bytes = (uint8_t *)fenced(length);
            memcpy(cut.bytes, file.bytes, length);
            every_call(cut, &whole);
            cuts += 1;
        }
        files += 1;
    }
    printf("%u files and %u beginnings of them, each buffer between pages that can't be touched\n", files, cuts);
    return 0;
}

int main(int count, char **words)
{
    need(timetable_version() == TIMETABLE_VERSION, "another version of the library");
    if (count > 4 && strcmp(words[1], "stack") == 0) {
        return stack(words[2], words[3], words + 4);
    }
    if (count > 2 && strcmp(words[1], "fences") == 0) {
        return fences(words + 2);
    }
    fprintf(stderr, "usage: api stack CALL BYTES FILE ..   api fences FILE ..\n");
    return 2;
}
