/*
 * Prints the session of the requirements through the library, arrival by arrival, and has its own
 * list of corners marked.
 *
 *     cc -std=c11 -Wall -Wextra -o example example.c ../../target/staticlib/libreach.a && ./example
 */
#include "reach.h"

#include <inttypes.h>
#include <stdio.h>
#include <string.h>

static const char *const arrival_words[] = {"first", "second", "inside", "outside"};
static const char *const refusal_words[] = REACH_REFUSAL_WORDS;

/* Whether a call is served; where it is not, the words of its number are printed. */
static int is_served(const char *call, uint32_t number) {
    if (number != 0) {
        fprintf(stderr, "%s: %s\n", call,
                refusal_words[number < REACH_UNKNOWN ? number : REACH_UNKNOWN]);
    }
    return number == 0;
}

int main(void) {
    /* x and y in turn: twice as many numbers as points */
    static const int64_t session[] = {0, 0, 4, 0, 1, 3, 5, 4, 2, 1, 6, 7};
    const size_t numbers = sizeof session / sizeof session[0], points = numbers / 2;
    uint8_t map[REACH_MAP_BYTES], next[REACH_MAP_BYTES];
    size_t n = 0;
    uint64_t arrival[4], corners[REACH_POINTS], written[1], counts[5], mark[1];

    if (!is_served("reach_empty", reach_empty(map, sizeof map))) {
        return 1;
    }
    puts("OUTLINE 1");
    for (size_t i = 0; i < points; i++) {
        uint32_t refusal = reach_offer(map, REACH_BYTES(n), session[2 * i], session[2 * i + 1],
                                       next, sizeof next, arrival, 4);
        if (!is_served("reach_offer", refusal)) {
            printf("%zu refused %" PRIu32 "\n", i, refusal);
            continue;
        }
        /* not map_bytes + REACH_POINT_BYTES: a map of version 1 grows by more */
        memcpy(map, next, REACH_BYTES(n + 1));
        n++;
        printf("%zu %s", i, arrival_words[arrival[0]]);
        if (arrival[0] == REACH_OUTSIDE) {
            printf(" %" PRIu64 " %" PRIu64 " %" PRIu64, arrival[1], arrival[2], arrival[3]);
        }
        putchar('\n');
    }
    /* the lengths count numbers, so that sizeof would be eight times too many */
    if (!is_served("reach_corners",
                   reach_corners(map, REACH_BYTES(n), corners, REACH_POINTS, written, 1)) ||
        !is_served("reach_counts", reach_counts(map, REACH_BYTES(n), counts, 5)) ||
        !is_served("reach_mark",
                   reach_mark(session, numbers, corners, (size_t)written[0], mark, 1))) {
        return 1;
    }
    printf("corners");
    for (uint64_t i = 0; i < written[0]; i++) {
        printf(" %" PRIu64, corners[i]);
    }
    printf("\ncounts");
    for (size_t i = 0; i < 5; i++) {
        printf(" %" PRIu64, counts[i]);
    }
    putchar('\n');
    if (mark[0] != REACH_RIGHT) {
        fputs("reach_mark: the session's own corners are marked wrong\n", stderr);
        return 1;
    }
    return 0;
}
