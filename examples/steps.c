/* Builds a small load step by step, and asks for verdicts on two connections.
 * Bus 1 goes from the mill to the market, tram 2 from the square, three minutes away by a rule, to the college.
 * usage: steps */
#include "timetable.h"

#include <stdio.h>
#include <string.h>

enum { MILL, MARKET, SQUARE, COLLEGE };
#define AT_ORIGIN 0x01
#define AT_TARGET 0x10

static uint8_t file[TIMETABLE_FILE];

static timetable_settings settings(void)
{
    timetable_settings given;
    memset(&given, 0, sizeof given);
    given.origins = 1;
    given.origin_walk[0] = 5;
    given.targets = 1;
    given.target_walk[0] = 2;
    given.change_time = 120;
    given.max_transfers = 1;
    return given;
}

static timetable_stop stop(const char *id, uint8_t members)
{
    timetable_stop given;
    memset(&given, 0, sizeof given);
    given.id = id;
    given.members = members;
    return given;
}

static timetable_call call(uint16_t trip, uint32_t sequence, uint16_t at, uint32_t second)
{
    timetable_call given;
    memset(&given, 0, sizeof given);
    given.trip = trip;
    given.sequence = sequence;
    given.stop = at;
    given.arrival = second;
    given.departure = second;
    return given;
}

/* Takes the steps up to the first that is refused. */
static uint8_t build(timetable_load *load)
{
    const timetable_settings given = settings();
    const timetable_stop stops[] = {stop("mill", AT_ORIGIN), stop("market", 0), stop("square", 0), stop("college", AT_TARGET)};
    const timetable_rule rule = {MARKET, SQUARE, 180, 2, true};
    const timetable_call calls[] = {call(1, 1, MILL, 600),    call(1, 2, MARKET, 1200), call(2, 1, SQUARE, 1380),
                                    call(2, 2, COLLEGE, 1800), call(3, 1, SQUARE, 1320), call(3, 2, COLLEGE, 1740)};
    size_t at;
    uint8_t said = timetable_open(load, file, sizeof file, &given);
    for (at = 0; said == TIMETABLE_OK && at < sizeof stops / sizeof *stops; at += 1) {
        said = timetable_add_stop(load, &stops[at]);
    }
    if (said == TIMETABLE_OK) {
        said = timetable_add_rule(load, &rule);
    }
    for (at = 0; said == TIMETABLE_OK && at < sizeof calls / sizeof *calls; at += 1) {
        said = timetable_add_call(load, &calls[at]);
    }
    return said == TIMETABLE_OK ? timetable_add_search(load) : said;
}

/* The bus, then a tram of a number. */
static timetable_connection with_tram(uint16_t trip)
{
    timetable_connection asked;
    memset(&asked, 0, sizeof asked);
    asked.rides = 2;
    asked.leg[0].trip = 1;
    asked.leg[0].board = 1;
    asked.leg[0].alight = 2;
    asked.leg[1].trip = trip;
    asked.leg[1].board = 1;
    asked.leg[1].alight = 2;
    return asked;
}

static void print_verdict(const timetable_verdict *verdict)
{
    switch (verdict->kind) {
    case TIMETABLE_LISTED:
        printf("journey %u of the list\n", (unsigned)verdict->at);
        break;
    case TIMETABLE_IMPOSSIBLE:
        if (verdict->cause == TIMETABLE_TOO_SHORT) {
            printf("impossible: change %u takes %u seconds, from %u to %u there are fewer\n", (unsigned)verdict->at,
                   (unsigned)verdict->a, (unsigned)verdict->b, (unsigned)verdict->c);
        } else {
            printf("impossible, for cause %u\n", (unsigned)verdict->cause);
        }
        break;
    default:
        printf("verdict %u\n", (unsigned)verdict->kind);
    }
}

int main(void)
{
    timetable_load load;
    uint16_t tram;
    uint8_t said = build(&load);
    if (said != TIMETABLE_OK) {
        printf("refused %u\n", (unsigned)said);
        return 1;
    }
    for (tram = 2; tram <= 3; tram += 1) {
        const timetable_connection asked = with_tram(tram);
        timetable_verdict verdict;
        said = timetable_judge(load.file, load.length, &asked, &verdict);
        if (said != TIMETABLE_OK) {
            printf("refused %u\n", (unsigned)said);
            return 1;
        }
        printf("tram %u: ", (unsigned)tram);
        print_verdict(&verdict);
    }
    return 0;
}
