/*
 * Calls every function of reach.h, on as little stack as the header names, and holds what it
 * returns and writes to the header's numbers and places. It is C11 and C++11 alike; `run` compiles
 * it as both.
 *
 *     cc -std=c11 -Wall -Wextra -pthread -o every every.c ../../target/staticlib/libreach.a
 */
#include "reach.h"

#include <assert.h>
#include <inttypes.h>
#include <pthread.h>
#include <stdio.h>
#include <string.h>

#if REACH_HEADER_VERSION != 7
#error "this program is for version 7 of reach.h"
#endif

static int values, differences;

/* Holds a value to what it should be. */
#define IS(got, expected) is(__LINE__, #got, (int64_t)(got), (int64_t)(expected))

static void is(int line, const char *what, int64_t got, int64_t expected) {
    values++;
    if (got != expected) {
        differences++;
        printf("every.c:%d: %s is %" PRId64 ", not %" PRId64 "\n", line, what, got, expected);
    }
}

/* The map that the calls read, and how many bytes it has; the map after an offer, or a loaded one;
   the map in version 1. */
static uint8_t map[REACH_MAP_BYTES], next[REACH_MAP_BYTES], former[REACH_MAP_BYTES];
static size_t bytes;

/* What the calls write. */
static uint64_t out[REACH_POINTS], length[1];
static int64_t number[2 * REACH_POINTS];
static uint8_t text[REACH_TEXT_LIMIT + 1], printed[REACH_REPORT_BYTES(REACH_TEXT_LIMIT)];
static uint8_t outline[REACH_OUTLINE_BYTES];

/* Points that claims are made on: the session's at first, with room for more than are accepted. */
static int64_t points[2 * REACH_POINTS + 3] = {0, 0, 4, 0, 1, 3, 5, 4, 2, 1, 6, 7};

/* The words of the numbers, and of those that are not there. */
static const char *const words[] = REACH_REFUSAL_WORDS;
static_assert(sizeof words / sizeof words[0] == REACH_UNKNOWN + 1, "each number has words");

/* The number in so many bytes from a place of the map on. */
static uint32_t at(size_t place, size_t width) {
    uint32_t value = 0;
    for (size_t i = 0; i < width; i++) {
        value = value << 8 | map[place + i];
    }
    return value;
}

/* The coordinate at a place of the map. */
static int64_t coordinate(size_t place) {
    int64_t value = at(place, 4);
    return value < INT64_C(1) << 31 ? value : value - (INT64_C(1) << 32);
}

/* Offers a point; the map is then the one after it. Its arrival is in out. */
static uint32_t offer(int64_t x, int64_t y) {
    const size_t n = at(REACH_COUNT_PLACE, 2);
    uint32_t refusal = reach_offer(map, bytes, x, y, next, sizeof next, out, 4);
    if (refusal == 0) {
        bytes = REACH_BYTES(n + 1);
        memcpy(map, next, bytes);
    }
    return refusal;
}

/* Puts the map into version 1, and answers how many bytes it then has. */
static size_t in_version_1(void) {
    const size_t length_of_all = REACH_FORMER_BYTES(at(REACH_COUNT_PLACE, 2));
    memcpy(former, map, length_of_all);
    for (size_t i = 0; i < 4; i++) {
        former[REACH_LENGTH_PLACE + i] = (uint8_t)((length_of_all - 4) >> (24 - 8 * i));
    }
    former[REACH_VERSION_PLACE] = REACH_FORMER_FILE_VERSION;
    return length_of_all;
}

/* Loads a file: it is the map, and the tail of the list stays. */
static void loads(const uint8_t *file, size_t file_bytes) {
    next[bytes - 1] = next[bytes] = 99;
    length[0] = 0;
    IS(reach_check(file, file_bytes), 0);
    IS(reach_load(file, file_bytes, next, bytes - 1, length, 1), REACH_SHORT_LIST);
    IS(reach_load(file, file_bytes, next, bytes + 1, NULL, 0), REACH_SHORT_LIST);
    IS(next[bytes - 1], 99);
    IS(length[0], 0);
    IS(reach_load(file, file_bytes, next, bytes + 1, length, 1), 0);
    IS(length[0], bytes);
    IS(memcmp(next, map, bytes), 0);
    IS(next[bytes], 99);
}

/* The map is not loaded: the lists stay. */
static void loads_not(uint32_t refusal) {
    next[0] = 99;
    length[0] = 99;
    IS(reach_check(map, bytes), refusal);
    IS(reach_load(map, bytes, next, sizeof next, length, 1), refusal);
    IS(reach_load(map, bytes, NULL, 0, NULL, 0), refusal);
    IS(next[0], 99);
    IS(length[0], 99);
}

/* Changes a byte of the map to another one, which is refused, and puts it back. */
static void refuses(size_t place, uint8_t byte, uint32_t refusal) {
    const uint8_t before = map[place];
    map[place] = byte;
    loads_not(refusal);
    map[place] = before;
}

/* The map's outline as text: it is this one. */
static void writes(const char *expected) {
    IS(reach_write_outline(map, bytes, outline, sizeof outline, length, 1), 0);
    IS(length[0], strlen(expected));
    IS(memcmp(outline, expected, strlen(expected)), 0);
    IS(reach_write_outline(map, bytes, outline, strlen(expected) - 1, length, 1), REACH_SHORT_LIST);
    IS(reach_write_outline(map, bytes, outline, sizeof outline, NULL, 0), REACH_SHORT_LIST);
}

/* Twice the outline's area from a place: it is this, and the tail of the list stays. */
static void measures(uint64_t place, int64_t expected) {
    number[0] = number[1] = -1;
    IS(reach_area(map, bytes, place, number, 1), 0);
    IS(number[0], expected);
    number[0] = -1;
    IS(reach_area(map, bytes, place, number, 2), 0);
    IS(number[0], expected);
    IS(number[1], -1);
    number[0] = -1;
    IS(reach_area(map, bytes, place, number, 0), REACH_SHORT_LIST);
    IS(reach_area(map, bytes, place, NULL, 0), REACH_SHORT_LIST);
    IS(number[0], -1);
}

/* A place from which no area is given, of the map in so many bytes: the list stays. */
static void measures_not(size_t map_bytes, uint64_t place, uint32_t refusal) {
    number[0] = number[1] = -1;
    for (size_t out_length = 0; out_length <= 2; out_length++) {
        IS(reach_area(map, map_bytes, place, number, out_length), refusal);
    }
    IS(number[0], -1);
    IS(number[1], -1);
}

/* A claim on the points of the first so many numbers: it is marked so, and the tail of the list
   stays. */
static void marks(size_t numbers, const uint64_t *claim, size_t claim_length, uint64_t expected) {
    out[0] = out[1] = 9;
    IS(reach_mark(points, numbers, claim, claim_length, out, 1), 0);
    IS(out[0], expected);
    out[0] = 9;
    IS(reach_mark(points, numbers, claim, claim_length, out, 2), 0);
    IS(out[0], expected);
    IS(out[1], 9);
    out[0] = 9;
    IS(reach_mark(points, numbers, claim, claim_length, out, 0), REACH_SHORT_LIST);
    IS(reach_mark(points, numbers, claim, claim_length, NULL, 0), REACH_SHORT_LIST);
    IS(out[0], 9);
}

/* The points of the first so many numbers are refused, whatever is claimed: the list stays. */
static void marks_not(size_t numbers, uint32_t refusal) {
    static const uint64_t claim[] = {0, UINT64_MAX};
    out[0] = out[1] = 9;
    for (size_t claim_length = 0; claim_length <= 2; claim_length++) {
        for (size_t out_length = 0; out_length <= 2; out_length++) {
            IS(reach_mark(points, numbers, claim, claim_length, out, out_length), refusal);
        }
    }
    IS(out[0], 9);
    IS(out[1], 9);
}

/* A number has these words. */
static void says(uint32_t number, const char *expected) {
    const char *got = words[number < REACH_UNKNOWN ? number : REACH_UNKNOWN];
    values++;
    if (strcmp(got, expected) != 0) {
        differences++;
        printf("every.c: number %" PRIu32 " says \"%s\", not \"%s\"\n", number, got, expected);
    }
}

/* Each number has words, and no other number has the same. */
static void refusals(void) {
    for (size_t i = 0; i <= REACH_UNKNOWN; i++) {
        IS(strlen(words[i]) > 0, 1);
        for (size_t j = 0; j < i; j++) {
            IS(strcmp(words[i], words[j]) == 0, 0);
        }
    }
    says(0, "served");
    says(REACH_NOT_SOUND, "the map is not sound");
    says(REACH_FULL, "the map is full");
    says(REACH_OUT_OF_RANGE, "a coordinate is out of range");
    says(REACH_REPEATED, "the point is equal to an accepted point");
    says(5, "withdrawn");
    says(REACH_NO_DART, "there is no such dart, or no such place of the listing");
    says(REACH_BAD_FILE, "the file is not in form");
    says(REACH_BAD_LINE, "the line is not in form");
    says(REACH_LONG_TEXT, "the text is too long");
    says(REACH_SHORT_LIST, "the lent list is too short");
    says(REACH_BAD_OUTLINE, "the outline's text is not in form");
    says(REACH_NO_SURVEY, "no survey lists these corners in this order");
    says(REACH_NO_SURVEY + 1, "a number that this header does not have");
    says(UINT32_MAX, "a number that this header does not have");
}

static void without_points(void) {
    bytes = REACH_EMPTY_BYTES;
    IS(reach_empty(map, bytes - 1), REACH_SHORT_LIST);
    IS(reach_empty(map, sizeof map), 0);
    IS(at(REACH_REFERENCE_PLACE, 2), REACH_NO_REFERENCE);
    IS(at(REACH_COUNT_PLACE, 2), 0);
    loads(map, bytes);
    loads(former, in_version_1());
    IS(reach_place(map, bytes, 0, 0, out, 3), 0);
    IS(out[0], REACH_PLACED_NONE);
    IS(reach_corners(map, bytes, NULL, 0, length, 1), 0);
    IS(length[0], 0);
    writes("POLYGON EMPTY");
    measures(0, 0);
    measures(UINT64_MAX, 0);
}

static void arrivals(void) {
    IS(offer(0, 0), 0);
    IS(out[0], REACH_FIRST);
    writes("POINT (0 0)");
    measures(1, 0);
    IS(offer(4, 0), 0);
    IS(out[0], REACH_SECOND);
    writes("LINESTRING (0 0, 4 0)");
    measures(1, 0);
    measures(2, 0);
    IS(offer(1, 3), 0);
    measures(2, 12);
    measures_not(bytes, 3, REACH_NO_DART);
    IS(offer(5, 4), 0);
    measures(3, 27);
    IS(offer(4, 0), REACH_REPEATED);
    IS(offer(REACH_COORDINATE_LIMIT + 1, 0), REACH_OUT_OF_RANGE);
    IS(offer(2, 1), 0);
    IS(out[0], REACH_INSIDE);
    measures(0, 27);
    IS(offer(6, 7), 0);
    IS(out[0], REACH_OUTSIDE);
    IS(out[1], 1);
    IS(out[2], 2);
    IS(out[3], 2);
}

static void saved_form(void) {
    static const int64_t session[][2] = {{0, 0}, {4, 0}, {1, 3}, {5, 4}, {2, 1}, {6, 7}};
    static const uint32_t links[][2] = {{2, 11}, {11, 2}, {10, 5}, {5, 10}, {6, 6}, {7, 7}};
    static const uint32_t records[][3] = {{REACH_FIRST, REACH_NONE_FREED, REACH_NONE_FREED},
                                          {REACH_SECOND, REACH_NONE_FREED, REACH_NONE_FREED},
                                          {REACH_OUTSIDE, REACH_NONE_FREED, REACH_NONE_FREED},
                                          {REACH_OUTSIDE, REACH_NONE_FREED, REACH_NONE_FREED},
                                          {REACH_INSIDE, REACH_NONE_FREED, REACH_NONE_FREED},
                                          {REACH_OUTSIDE, 7, 6}};
    const size_t n = sizeof session / sizeof session[0];
    IS(bytes, REACH_BYTES(n));
    IS(at(REACH_LENGTH_PLACE, 4), bytes - 4);
    IS(at(REACH_VERSION_PLACE, 1), REACH_FILE_VERSION);
    IS(at(REACH_COUNT_PLACE, 2), n);
    IS(at(REACH_REFERENCE_PLACE, 2), 10);
    for (size_t k = 0; k < n; k++) {
        IS(coordinate(REACH_X_PLACE(k)), session[k][0]);
        IS(coordinate(REACH_Y_PLACE(k)), session[k][1]);
        IS(at(REACH_HELPER_PLACE(n, k), 1), k != 4);
    }
    for (size_t i = 0; i < sizeof links / sizeof links[0]; i++) {
        IS(at(REACH_EDGE_PLACE(n, links[i][0]), 2), links[i][1]);
    }
    IS(REACH_EDGE_PLACE(n, 2 * n), REACH_FORMER_BYTES(n));
    IS(REACH_EDGE_PLACE(n, 2 * n), REACH_ARRIVAL_PLACE(n, 0));
    for (size_t k = 0; k < n; k++) {
        IS(at(REACH_ARRIVAL_PLACE(n, k), 1), records[k][0]);
        IS(at(REACH_FREED_LEFT_PLACE(n, k), 2), records[k][1]);
        IS(at(REACH_FREED_RIGHT_PLACE(n, k), 2), records[k][2]);
    }
    IS(REACH_ARRIVAL_PLACE(n, n), bytes);
    IS(reach_check(map, sizeof map), REACH_BAD_FILE);
    loads(map, bytes);
}

/* The session in both versions, and with a byte changed. */
static void versions(void) {
    const size_t n = at(REACH_COUNT_PLACE, 2), few = in_version_1();
    IS(few, REACH_FORMER_BYTES(n));
    IS(few, REACH_EMPTY_BYTES + REACH_FORMER_POINT_BYTES * n);
    loads(former, few);
    IS(reach_check(former, bytes), REACH_BAD_FILE);
    IS(reach_check(map, few), REACH_BAD_FILE);
    IS(reach_offer(map, few, INT64_MAX, 0, next, sizeof next, out, 4), REACH_BAD_FILE);
    IS(reach_place(map, few, INT64_MAX, 0, out, 3), REACH_BAD_FILE);
    IS(reach_counts(former, few, out, 5), 0);
    IS(out[0], 11);
    IS(reach_offer(former, few, 0, 9, next, REACH_BYTES(n + 1) - 1, out, 4), REACH_SHORT_LIST);
    IS(reach_offer(former, few, 0, 9, next, REACH_BYTES(n + 1), out, 4), 0);
    IS(next[REACH_VERSION_PLACE], REACH_FILE_VERSION);
    IS(reach_check(next, REACH_BYTES(n + 1)), 0);
    former[REACH_REFERENCE_PLACE + 1] = 2;
    IS(reach_check(former, few), REACH_NOT_SOUND);

    refuses(REACH_LENGTH_PLACE + 3, (uint8_t)(few - 4), REACH_BAD_FILE);
    refuses(REACH_VERSION_PLACE, REACH_FORMER_FILE_VERSION, REACH_BAD_FILE);
    refuses(REACH_VERSION_PLACE, REACH_FILE_VERSION + 1, REACH_BAD_FILE);
    refuses(REACH_VERSION_PLACE, 0, REACH_BAD_FILE);
    refuses(REACH_REFERENCE_PLACE + 1, 2, REACH_NOT_SOUND);
    refuses(REACH_REFERENCE_PLACE + 1, 6, REACH_NOT_SOUND);
    refuses(REACH_HELPER_PLACE(n, 4), 1, REACH_NOT_SOUND);
    refuses(REACH_HELPER_PLACE(n, 4), 2, REACH_BAD_FILE);
    refuses(REACH_EDGE_PLACE(n, 6) + 1, 3, REACH_NOT_SOUND);
    for (size_t k = 0; k < n; k++) {
        refuses(REACH_ARRIVAL_PLACE(n, k), REACH_OUTSIDE + 1, REACH_BAD_FILE);
        refuses(REACH_ARRIVAL_PLACE(n, k), k == 4 ? REACH_FIRST : REACH_INSIDE, REACH_NOT_SOUND);
        refuses(REACH_FREED_LEFT_PLACE(n, k) + 1, 1, REACH_NOT_SOUND);
        refuses(REACH_FREED_RIGHT_PLACE(n, k), 255, REACH_NOT_SOUND);
    }
    refuses(REACH_FREED_LEFT_PLACE(n, 5) + 1, 6, REACH_NOT_SOUND);
    refuses(REACH_FREED_RIGHT_PLACE(n, 5), 4, REACH_NOT_SOUND);
    loads(map, bytes);
}

/* The session, each point offered to the map in version 1: the map after it is of version 2, and
   has not the bytes of that one and of a point more. */
static void offers_to_version_1(void) {
    bytes = REACH_EMPTY_BYTES;
    IS(reach_empty(map, sizeof map), 0);
    for (size_t n = 0; n < 6; n++) {
        const size_t few = in_version_1();
        memcpy(map, former, few);
        bytes = few;
        IS(offer(points[2 * n], points[2 * n + 1]), 0);
        IS(bytes, REACH_BYTES(n + 1));
        IS(at(REACH_VERSION_PLACE, 1), REACH_FILE_VERSION);
        IS(reach_check(map, bytes), 0);
        if (n > 0) {
            IS(reach_check(map, few + REACH_POINT_BYTES), REACH_BAD_FILE);
        }
    }
}

static void orbits(void) {
    static const uint64_t counts[] = {11, 6, 7, 4, 3};
    IS(reach_edge_orbit(map, bytes, 2, out, REACH_ORBIT_WORDS - 1), REACH_SHORT_LIST);
    IS(reach_edge_orbit(map, bytes, 2, out, REACH_ORBIT_WORDS), 0);
    IS(out[0], 1 << 2 | 1 << 11);
    IS(out[REACH_ORBIT_WORDS - 1], 2);
    IS(reach_vertex_orbit(map, bytes, 2, out, REACH_ORBIT_WORDS), 0);
    IS(out[0], 1 << 2 | 1 << 3);
    IS(out[REACH_ORBIT_WORDS - 1], 2);
    IS(reach_face_orbit(map, bytes, 0, out, REACH_ORBIT_WORDS), 0);
    IS(out[0], 1 << 0 | 1 << 2 | 1 << 4 | 1 << 10);
    IS(out[REACH_ORBIT_WORDS - 1], 4);
    IS(reach_part_orbit(map, bytes, 8, out, REACH_ORBIT_WORDS), 0);
    IS(out[0], 1 << 8);
    IS(out[REACH_ORBIT_WORDS - 1], 1);
    IS(reach_part_orbit(map, bytes, 9, out, REACH_ORBIT_WORDS), REACH_NO_DART);
    IS(reach_counts(map, bytes, out, 5), 0);
    for (size_t i = 0; i < 5; i++) {
        IS(out[i], counts[i]);
    }
}

static void walks(void) {
    IS(reach_walk(map, bytes, 0, out, 3), 0);
    IS(out[0], 0);
    IS(out[1], REACH_HOME);
    IS(out[2], 8);
    IS(reach_walk(map, bytes, 6, out, 3), 0);
    IS(out[0], 6);
    IS(out[1], REACH_LOOSE);
    IS(out[2], 0);
    IS(reach_walker(map, bytes, 2, out, 1), 0);
    IS(out[0], 2);
    IS(reach_walker_edge(map, bytes, 2, out, 1), 0);
    IS(out[0], 11);
    IS(reach_walker_point(map, bytes, 2, out, 1), 0);
    IS(out[0], 3);
}

static void places(void) {
    static const uint64_t corners[] = {0, 1, 5, 2};
    IS(reach_place(map, bytes, 4, 0, out, 3), 0);
    IS(out[0], REACH_PLACED_CORNER);
    IS(out[1], 1);
    IS(reach_place(map, bytes, 2, 0, out, 3), 0);
    IS(out[0], REACH_PLACED_EDGE);
    IS(out[1], 0);
    IS(out[2], 1);
    IS(reach_place(map, bytes, 2, 1, out, 3), 0);
    IS(out[0], REACH_PLACED_INSIDE);
    IS(reach_place(map, bytes, 5, 0, out, 3), 0);
    IS(out[0], REACH_PLACED_OUTSIDE);
    IS(out[1], 1);
    IS(reach_corners(map, bytes, out, REACH_POINTS, length, 1), 0);
    IS(length[0], 4);
    for (size_t i = 0; i < 4; i++) {
        IS(out[i], corners[i]);
    }
}

static void numbers(void) {
    const int64_t most = REACH_COORDINATE_LIMIT;
    IS(reach_orientation(0, 0, 4, 0, 1, 3, number, 1), 0);
    IS(number[0], 12);
    IS(reach_orientation(-most, -most, most, -most, most, most, number, 1), 0);
    IS(number[0], 4 * most * most);
    IS(reach_orientation(most, -most, -most, -most, most, most, number, 1), 0);
    IS(number[0], -4 * most * most);
    IS(reach_orientation(0, 0, 4, 0, 0, -most - 1, number, 1), REACH_OUT_OF_RANGE);
    IS(reach_line((const uint8_t *)"-3 40", 5, number, 2), 0);
    IS(number[0], -3);
    IS(number[1], 40);
    IS(reach_line((const uint8_t *)"-3  40", 6, number, 2), REACH_BAD_LINE);
    IS(reach_line((const uint8_t *)"-9999999999 1000000000", 22, number, 2), 0);
    IS(number[0], -9999999999);
    IS(number[1], REACH_COORDINATE_LIMIT);
    IS(reach_line((const uint8_t *)"10000000000 0", 13, number, 2), REACH_BAD_LINE);
}

static void reports(void) {
    static const char report[] = "OUTLINE 1\n0 first\ncorners 0\ncounts 1 1 1 1 1\n";
    IS(reach_report((const uint8_t *)"7 7", 3, printed, sizeof printed, length, 1), 0);
    IS(length[0], sizeof report - 1);
    IS(memcmp(printed, report, sizeof report - 1), 0);
    memset(text, '\n', sizeof text);
    IS(reach_report(text, REACH_TEXT_LIMIT, printed, sizeof printed, length, 1), 0);
    IS(length[0] <= REACH_REPORT_BYTES(REACH_TEXT_LIMIT), 1);
    IS(reach_report(text, REACH_TEXT_LIMIT, printed, length[0] - 1, length, 1), REACH_SHORT_LIST);
    IS(reach_report(text, sizeof text, printed, sizeof printed, length, 1), REACH_LONG_TEXT);
}

/* Reads an outline's text. */
static uint32_t reads(const char *spelling) {
    return reach_read_outline((const uint8_t *)spelling, strlen(spelling), number,
                              2 * REACH_POINTS, length, 1);
}

/* The session's outline, as text and as its corners. */
static void outlines(void) {
    static const char session[] = "POLYGON ((0 0, 4 0, 6 7, 1 3, 0 0))";
    static const int64_t corners[] = {0, 0, 4, 0, 6, 7, 1, 3};
    writes(session);
    IS(reads(session), 0);
    IS(length[0], 8);
    for (size_t i = 0; i < 8; i++) {
        IS(number[i], corners[i]);
    }
    IS(reach_read_outline((const uint8_t *)session, strlen(session), number, 7, length, 1),
       REACH_SHORT_LIST);
    IS(reads("POLYGON EMPTY"), 0);
    IS(length[0], 0);
    IS(reads("POINT (-1000000000 1000000000)"), 0);
    IS(length[0], 2);
    IS(number[0], -REACH_COORDINATE_LIMIT);
    IS(number[1], REACH_COORDINATE_LIMIT);
    IS(reads("POINT (0 1000000001)"), REACH_OUT_OF_RANGE);
    IS(reads("LINESTRING (0 0, 4 0)"), 0);
    IS(length[0], 4);
    IS(reads("LINESTRING (4 0, 0 0)"), REACH_NO_SURVEY);
    IS(reads("LINESTRING (0 0,4 0)"), REACH_BAD_OUTLINE);
    IS(reads("POLYGON ((0 0, 4 0, 6 7, 1 3))"), REACH_BAD_OUTLINE);
    IS(reads("POLYGON ((0 0, 4 0, 0 0))"), REACH_BAD_OUTLINE);
    IS(reads("POLYGON ((0 0, 2 5, -3 2, 3 2, -2 5, 0 0))"), REACH_NO_SURVEY);
    memset(text, '0', sizeof text);
    IS(reach_read_outline(text, REACH_TEXT_LIMIT, number, 0, length, 1), REACH_BAD_OUTLINE);
    IS(reach_read_outline(text, sizeof text, number, 0, length, 1), REACH_LONG_TEXT);
}

/* The session's area, from each corner; then that of the whole range. */
static void areas(void) {
    const int64_t most = REACH_COORDINATE_LIMIT;
    for (uint64_t place = 0; place < 4; place++) {
        measures(place, 39);
    }
    measures_not(bytes, 4, REACH_NO_DART);
    measures_not(bytes, REACH_POINTS, REACH_NO_DART);
    measures_not(bytes, UINT64_C(1) << 32, REACH_NO_DART);
    measures_not(bytes, UINT64_MAX, REACH_NO_DART);
    measures_not(bytes - 1, 0, REACH_BAD_FILE);
    measures_not(bytes - 1, 4, REACH_BAD_FILE);
    map[REACH_REFERENCE_PLACE + 1] = 6;
    measures_not(bytes, 0, REACH_NOT_SOUND);
    measures_not(bytes, 4, REACH_NOT_SOUND);
    bytes = REACH_EMPTY_BYTES;
    IS(reach_empty(map, sizeof map), 0);
    IS(offer(-most, -most), 0);
    IS(offer(most, most), 0);
    IS(offer(-most, most), 0);
    IS(offer(most, -most), 0);
    for (uint64_t place = 0; place < 4; place++) {
        measures(place, 8 * most * most);
    }
    measures_not(bytes, 4, REACH_NO_DART);
}

/* Claims on the session, on fewer points and on as many as there may be; then refused points. */
static void claims(void) {
    static const uint64_t listing[] = {0, 1, 5, 2, 0, 1, 5, 2}, clockwise[] = {2, 5, 1, 0};
    static const uint64_t beyond[] = {0, 1, 5, 6}, wide[] = {UINT64_C(1) << 32, 1, 5, 2};
    static uint64_t all[REACH_POINTS];
    const size_t most = 2 * REACH_POINTS;
    for (size_t i = 0; i <= 4; i++) {
        marks(12, listing + i, 4, REACH_RIGHT);
        marks(13, listing + i, 4, REACH_RIGHT);
        marks(12, listing + i, 3, REACH_WRONG);
    }
    marks(6, listing, 4, REACH_WRONG);
    marks(12, listing, 8, REACH_WRONG);
    marks(12, clockwise, 4, REACH_WRONG);
    marks(12, beyond, 4, REACH_WRONG);
    marks(12, wide, 4, REACH_WRONG);
    marks(12, NULL, 0, REACH_WRONG);
    marks(4, listing, 2, REACH_RIGHT);
    marks(2, listing, 1, REACH_RIGHT);
    marks(2, NULL, 0, REACH_WRONG);
    marks(1, NULL, 0, REACH_RIGHT);
    marks(0, listing, 1, REACH_WRONG);
    out[0] = REACH_WRONG;
    IS(reach_mark(NULL, 0, NULL, 0, out, 1), 0);
    IS(out[0], REACH_RIGHT);
    for (int64_t k = 0; k <= REACH_POINTS; k++) {
        points[2 * k] = k;
        points[2 * k + 1] = k * k;
    }
    for (uint64_t k = 0; k < REACH_POINTS; k++) {
        all[k] = k;
    }
    marks(most, all, REACH_POINTS, REACH_RIGHT);
    marks(most + 1, all, REACH_POINTS, REACH_RIGHT);
    marks(most, all, REACH_POINTS - 1, REACH_WRONG);
    marks_not(most + 2, REACH_FULL);
    points[most] = points[most + 1] = 0;
    marks_not(most + 2, REACH_FULL);
    points[most - 1] = REACH_COORDINATE_LIMIT + INT64_C(1);
    marks_not(most, REACH_OUT_OF_RANGE);
    points[4] = points[5] = 1;
    marks_not(most, REACH_REPEATED);
    points[2] = INT64_MIN;
    marks_not(most + 3, REACH_OUT_OF_RANGE);
}

/* Marks along a rail: beyond an end, beyond the other, between them, beside the rail. */
static void rail(void) {
    bytes = REACH_EMPTY_BYTES;
    IS(reach_empty(map, sizeof map), 0);
    IS(offer(0, 0), 0);
    IS(offer(2, 0), 0);
    IS(offer(4, 0), 0);
    IS(out[0], REACH_OUTSIDE);
    IS(out[1], 0);
    IS(out[2], 0);
    IS(out[3], 2);
    IS(at(REACH_ARRIVAL_PLACE(3, 2), 1), REACH_OUTSIDE);
    IS(at(REACH_FREED_LEFT_PLACE(3, 2), 2), 3);
    IS(at(REACH_FREED_RIGHT_PLACE(3, 2), 2), 2);
    loads(former, in_version_1());
    measures(0, 0);
    measures(1, 0);
    measures_not(bytes, 2, REACH_NO_DART);
    IS(offer(-2, 0), 0);
    IS(out[0], REACH_OUTSIDE);
    IS(out[1], 2);
    IS(out[2], 2);
    IS(out[3], 2);
    IS(offer(1, 0), 0);
    IS(out[0], REACH_INSIDE);
    IS(reach_corners(map, bytes, out, REACH_POINTS, length, 1), 0);
    IS(length[0], 2);
    IS(out[0], 3);
    IS(out[1], 2);
    IS(reach_place(map, bytes, 6, 0, out, 3), 0);
    IS(out[0], REACH_PLACED_OUTSIDE);
    IS(out[1], 0);
    IS(reach_place(map, bytes, 2, 0, out, 3), 0);
    IS(out[0], REACH_PLACED_EDGE);
    IS(out[1], 3);
    IS(out[2], 2);
    writes("LINESTRING (-2 0, 4 0)");
    IS(offer(1, 1), 0);
    IS(out[0], REACH_OUTSIDE);
    IS(out[1], 2);
    IS(out[2], 3);
    IS(out[3], 1);
    measures(2, 6);
    measures_not(bytes, 3, REACH_NO_DART);
}

/* A map of so many points as there may be, each a corner. */
static void full(void) {
    bytes = REACH_EMPTY_BYTES;
    IS(reach_empty(map, sizeof map), 0);
    for (int64_t k = 0; k < REACH_POINTS; k++) {
        IS(offer(k, k * k), 0);
    }
    IS(bytes, REACH_MAP_BYTES);
    IS(offer(-1, 0), REACH_FULL);
    IS(in_version_1(), REACH_FORMER_BYTES(REACH_POINTS));
    IS(reach_load(former, REACH_FORMER_BYTES(REACH_POINTS), next, sizeof next, length, 1), 0);
    IS(length[0], REACH_MAP_BYTES);
    IS(memcmp(next, map, REACH_MAP_BYTES), 0);
    refuses(REACH_FREED_RIGHT_PLACE(REACH_POINTS, REACH_POINTS - 1), 3, REACH_NOT_SOUND);
    IS(reach_corners(map, bytes, out, REACH_POINTS, length, 1), 0);
    IS(length[0], REACH_POINTS);
    IS(reach_write_outline(map, bytes, outline, sizeof outline, length, 1), 0);
    IS(reach_read_outline(outline, length[0], number, 2 * REACH_POINTS, length, 1), 0);
    IS(length[0], 2 * REACH_POINTS);
    for (int64_t k = 0; k < REACH_POINTS; k++) {
        IS(number[2 * k], k);
        IS(number[2 * k + 1], k * k);
    }
    measures(REACH_POINTS - 1, 510 * 511 * 512 / 3);
    measures_not(bytes, REACH_POINTS, REACH_NO_DART);
    IS(reach_walker(map, bytes, REACH_DARTS - 1, out, 1), 0);
    IS(reach_walker(map, bytes, REACH_DARTS, out, 1), REACH_NO_DART);
}

/* A part of the program, and the stack of its thread. */
struct part {
    size_t stack;
    void (*run)(void);
};

static void *run(void *part) {
    ((struct part *)part)->run();
    return NULL;
}

int main(void) {
    static struct part parts[] = {
        {REACH_CALL_STACK, refusals},   {REACH_CALL_STACK, without_points},
        {REACH_CALL_STACK, arrivals},   {REACH_CALL_STACK, saved_form},
        {REACH_CALL_STACK, versions},   {REACH_CALL_STACK, offers_to_version_1},
        {REACH_CALL_STACK, orbits},     {REACH_CALL_STACK, walks},
        {REACH_CALL_STACK, places},     {REACH_CALL_STACK, numbers},
        {REACH_REPORT_STACK, reports},  {REACH_CALL_STACK, outlines},
        {REACH_CALL_STACK, areas},      {REACH_CALL_STACK, claims},
        {REACH_CALL_STACK, rail},       {REACH_CALL_STACK, full},
    };
    for (size_t i = 0; i < sizeof parts / sizeof parts[0]; i++) {
        pthread_attr_t attributes;
        pthread_t thread;
        if (pthread_attr_init(&attributes) != 0 ||
            pthread_attr_setstacksize(&attributes, parts[i].stack) != 0 ||
            pthread_create(&thread, &attributes, run, &parts[i]) != 0 ||
            pthread_join(thread, NULL) != 0) {
            puts("every.c: a thread does not run");
            return 1;
        }
        pthread_attr_destroy(&attributes);
    }
    printf("every function: %d values, %d differences\n", values, differences);
    return differences != 0;
}
