/* The changes of a week through the exported call argo_hours: the timetable (a word with its length, then its words) comes on standard
   input. Each change is asked from the one before it, round the week, and printed as a line, from Monday on. Returns 1 where the call is
   refused. */
#include "argo.h"
#include <stdio.h>
#include <stdlib.h>

/* One word more than the longest timetable has: the call says what is wrong with it. */
enum { TIMETABLE = 3 * 64 + 1, DAY = 24 * 60, WEEK = 7 * DAY };
enum { SCHEDULE = 0, CHANGES = 1, NEXT = 2 };

static uint32_t timetable[TIMETABLE], words;

static void one_line(const char *line) {
    printf("%s\n", line);
    exit(1);
}

/* A longer timetable is cut behind its first words, which are refused as it would be. */
static void read_timetable(void) {
    if (fread(&words, 4, 1, stdin) != 1) one_line("input ends");
    if (words > TIMETABLE) words = TIMETABLE;
    if (fread(timetable, 4, words, stdin) != words) one_line("input ends");
}

static uint32_t asked(uint32_t minute, uint32_t field) {
    const uint64_t answer = argo_hours(timetable, words, minute, field);
    const uint32_t number = answer >> 32;
    if (number != 0) {
        printf("refused %u\n", number);
        exit(1);
    }
    return (uint32_t)answer;
}

static void print_from(uint32_t minute) {
    static const char *const days[] = {"Mo", "Tu", "We", "Th", "Fr", "Sa", "Su"};
    printf("%s %02u:%02u %6u %8u\n", days[minute / DAY], minute % DAY / 60, minute % 60, minute, asked(minute, SCHEDULE));
}

int main(void) {
    read_timetable();
    /* The minute before Monday 00:00: the change that comes next is the first of the week. */
    if (!asked(WEEK - 1, CHANGES)) {
        printf("schedule %u always\n", asked(0, SCHEDULE));
        return 0;
    }
    const uint32_t first = asked(WEEK - 1, NEXT);
    printf("from      minute schedule\n");
    print_from(first);
    for (uint32_t minute = asked(first, NEXT); minute > first; minute = asked(minute, NEXT)) print_from(minute);
    return 0;
}
