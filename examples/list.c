/* Prints the journeys of a load file as `show` does, and the best at a second if one is given.
 * usage: list FILE [SECOND]      the exit status is 1 if the file is refused, 2 if it can't be read */
#include "timetable.h"

#include <inttypes.h>
#include <stdio.h>
#include <stdlib.h>

static uint8_t file[1 << 20];
static timetable_list list;

static void print_journey(const timetable_journey *journey)
{
    printf("journey %u %u %u %u %u %u\n", (unsigned)journey->leave, (unsigned)journey->arrival, (unsigned)journey->rides,
           (unsigned)journey->walk, (unsigned)journey->origin, (unsigned)journey->target);
}

static void print_list(void)
{
    unsigned at;
    for (at = 0; at < list.count; at += 1) {
        print_journey(&list.journey[at]);
    }
    printf("horizon %u limits %u\n", (unsigned)list.horizon, (unsigned)list.limits);
}

static void print_best(int64_t second)
{
    timetable_journey best = list.journey[0];
    unsigned at;
    switch (timetable_best(&list, second, &best)) {
    case TIMETABLE_FOUND:
        printf("best from %" PRId64 ":\n", second);
        print_journey(&best);
        for (at = 0; at < best.rides; at += 1) {
            const timetable_ride *ride = &best.ride[at];
            printf("  trip %u day %u: stop %u at %u > stop %u at %u\n", (unsigned)ride->trip, (unsigned)ride->day,
                   (unsigned)ride->from, (unsigned)ride->departure, (unsigned)ride->to, (unsigned)ride->arrival);
        }
        break;
    case TIMETABLE_NONE:
        printf("best from %" PRId64 ": none\n", second);
        break;
    default: /* TIMETABLE_NO_LIST */
        printf("best from %" PRId64 ": the file isn't searched\n", second);
    }
}

int main(int count, char **words)
{
    FILE *in;
    size_t length;
    uint8_t refusal;
    if (count != 2 && count != 3) {
        fprintf(stderr, "usage: list FILE [SECOND]\n");
        return 2;
    }
    in = fopen(words[1], "rb");
    if (!in) {
        perror(words[1]);
        return 2;
    }
    length = fread(file, 1, sizeof file, in);
    if (ferror(in) || !feof(in)) {
        fprintf(stderr, "list: %s can't be read, or is too long\n", words[1]);
        fclose(in);
        return 2;
    }
    fclose(in);
    refusal = timetable_read(file, length, &list);
    if (refusal != TIMETABLE_OK) {
        printf("refused %u\n", (unsigned)refusal);
        return 1;
    }
    print_list();
    if (count == 3) {
        print_best((int64_t)strtoll(words[2], NULL, 10));
    }
    return 0;
}
