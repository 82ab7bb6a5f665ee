/*
 * The proved engine for the convex outline of marks, as C functions: link
 * target/staticlib/libreach.a. It is code for x86-64 under Linux and needs memcpy and memset alone.
 *
 * A map crosses the boundary as its saved bytes, REACH_BYTES(n) of them for n points, at most
 * REACH_MAP_BYTES; what stands where is said below. Every function that takes a map takes it in
 * either version of the saved form, and every function that writes one writes version 2; a map of
 * version 1 has REACH_FORMER_BYTES(n). Coordinates are whole numbers from -1,000,000,000 to
 * 1,000,000,000, thousandths of a millimetre; points are numbered from 0 in the order of their
 * acceptance; point k owns dart 2k and may have the helper dart 2k + 1. A map is sound where its
 * points, offered in this order to the map without points, build it.
 *
 * Every function returns 0 where the call is served, else the number of its refusal. Values go into
 * lists that the caller lends, each a pointer with its number of elements. A list shorter than the
 * result is refused as REACH_SHORT_LIST; a longer one keeps its tail. A refused call changes no
 * list: where two are lent and either is too short, both stay as they were. The comment of each
 * function names its refusals in the order in which their conditions are looked at: a file that is
 * not in form, with a point out of range, gets 7, though 3 is lower, since nothing can be looked at
 * before the file.
 *
 * A number of elements is named by what it counts: one that ends in _bytes counts bytes, one that
 * ends in _length numbers of 64 bits, not their bytes, and numbers, of reach_mark, counts
 * coordinates, two for each point. map_bytes is the map's own number of bytes, not that of the
 * buffer it lies in: bytes after the map are refused as REACH_BAD_FILE.
 *
 * A list may not overlap another of the same call. A map, a line, a text, coordinates and a claim
 * are lists too: the bytes after an offer go into another buffer than the map that is offered to.
 * The pointer of a list of no elements may be null. The functions keep no state and may be called
 * from several threads, whose stacks have the sizes below. Several calls may read the same map at
 * once, but nobody else writes that map meanwhile, or any list that a call reads, and nobody else
 * reads or writes a list that a call writes to.
 */
#ifndef REACH_H
#define REACH_H

#include <stddef.h>
#include <stdint.h>

#if !defined(__x86_64__) || defined(__ILP32__)
#error "libreach.a is code for x86-64, with pointers of 64 bits"
#endif

/* The version of this header: it grows with each change of a function, a number, a limit or the
   saved form. */
#define REACH_HEADER_VERSION 7

#ifdef __cplusplus
extern "C" {
#endif

/* The refusals. Number 5 is withdrawn: no call returns it, and it is not used again. */
enum {
    REACH_NOT_SOUND = 1,    /* map not sound */
    REACH_FULL = 2,         /* offered point: 512 points already */
    REACH_OUT_OF_RANGE = 3, /* offered or query point, or point of an orientation or of an
                               outline's text: coordinate out of range */
    REACH_REPEATED = 4,     /* offered point: equal to an accepted point */
    REACH_NO_DART = 6,      /* dart absent or above 1,023; area: no place of the listing */
    REACH_BAD_FILE = 7,     /* file under 9 bytes, length not matching the version, n and the bytes
                               lent, n above 512, version neither 1 nor 2, helper byte above 1, or
                               arrival byte above 3 */
    REACH_BAD_LINE = 8,     /* text line not in form */
    REACH_LONG_TEXT = 9,    /* text above 65,536 bytes */
    REACH_SHORT_LIST = 10,  /* lent list shorter than the result */
    REACH_BAD_OUTLINE = 11, /* outline's text in another spelling, a ring that does not end on its
                               first corner, or a ring of under three corners */
    REACH_NO_SURVEY = 12    /* outline's text: corners that no survey lists in that order */
};

/* The words of the numbers, which a caller may print: the initializer of an array of strings, in
   which those of number k stand at place k. A served call, 0, and the withdrawn number have words
   too. The last place, REACH_UNKNOWN, is for every number that this header does not have, as an
   archive of a later engine may return it.

       static const char *const words[] = REACH_REFUSAL_WORDS;
       puts(words[number < REACH_UNKNOWN ? number : REACH_UNKNOWN]);
 */
#define REACH_UNKNOWN 13
#define REACH_REFUSAL_WORDS                                         \
    {                                                               \
        "served",                                                   \
        "the map is not sound",                                     \
        "the map is full",                                          \
        "a coordinate is out of range",                             \
        "the point is equal to an accepted point",                  \
        "withdrawn",                                                \
        "there is no such dart, or no such place of the listing",   \
        "the file is not in form",                                  \
        "the line is not in form",                                  \
        "the text is too long",                                     \
        "the lent list is too short",                               \
        "the outline's text is not in form",                        \
        "no survey lists these corners in this order",              \
        "a number that this header does not have"                   \
    }

/* The arrival of an accepted point, as it is told and as it is saved. */
enum { REACH_FIRST = 0, REACH_SECOND = 1, REACH_INSIDE = 2, REACH_OUTSIDE = 3 };

/* How a walk ends. */
enum { REACH_HOME = 0, REACH_LOOSE = 1 };

/* Where a query point lies. */
enum {
    REACH_PLACED_NONE = 0,
    REACH_PLACED_CORNER = 1,
    REACH_PLACED_EDGE = 2,
    REACH_PLACED_INSIDE = 3,
    REACH_PLACED_OUTSIDE = 4
};

/* The mark of a claim. */
enum { REACH_WRONG = 0, REACH_RIGHT = 1 };

/* The limits of points, darts, coordinates (from -REACH_COORDINATE_LIMIT to REACH_COORDINATE_LIMIT)
   and bytes of a text. They are of type int, which holds twice the limit of coordinates and not
   three times. */
enum {
    REACH_POINTS = 512,
    REACH_DARTS = 2 * REACH_POINTS,
    REACH_COORDINATE_LIMIT = 1000000000,
    REACH_TEXT_LIMIT = 65536
};

/* Lengths that suffice: the bytes of the map without points, what each point adds to them, in
   version 2 and in version 1, the bytes of any map, the words of an orbit and its size, the bytes
   of any outline's text. The last is 12 + 2 * 512 + 23 * 513: the words of a ring, what stands
   between its positions, and 513 positions of two numbers of 11 bytes and a space. That no outline
   takes more is proved. */
enum {
    REACH_EMPTY_BYTES = 9,
    REACH_POINT_BYTES = 18,
    REACH_FORMER_POINT_BYTES = 13,
    REACH_MAP_BYTES = REACH_EMPTY_BYTES + REACH_POINT_BYTES * REACH_POINTS,
    REACH_ORBIT_WORDS = 17,
    REACH_OUTLINE_BYTES = 12835
};

/* The bytes of a map of n points, in version 2 and in version 1, and a length that suffices for the
   report on a text of n bytes. */
#define REACH_BYTES(n) (REACH_EMPTY_BYTES + REACH_POINT_BYTES * (n))
#define REACH_FORMER_BYTES(n) (REACH_EMPTY_BYTES + REACH_FORMER_POINT_BYTES * (n))
#define REACH_REPORT_BYTES(n) (16 * (n) + 4096)

/* The bytes of stack that reach_report needs, and those that every other function needs. With less
   a call runs into the guard page of its stack. */
enum { REACH_REPORT_STACK = 524288, REACH_CALL_STACK = 262144 };

/*
 * The saved form of a map of n points. Numbers are big-endian.
 *
 *     place                bytes
 *     0                    4      the length of all that follows, 5 + 18 * n, in version 1
 *                                 5 + 13 * n
 *     4                    1      the version: REACH_FILE_VERSION, which is written, or
 *                                 REACH_FORMER_FILE_VERSION, which is read too
 *     5                    2      n
 *     7                    2      the reference, the own dart of the last point that arrived
 *                                 second or outside; with fewer than two points
 *                                 REACH_NO_REFERENCE
 *     9 + 8 * k            4      x of point k, in two's complement
 *     13 + 8 * k           4      y of point k, in two's complement
 *     9 + 8 * n + k        1      1 where point k has a helper dart, else 0
 *     9 + 9 * n + 2 * d    2      the edge link of dart d, for each d below 2 * n
 *     9 + 13 * n + 5 * k   1      the arrival of point k, REACH_FIRST to REACH_OUTSIDE
 *     10 + 13 * n + 5 * k  2      the dart that lost its edge link to the left corner's own dart
 *                                 when point k arrived outside, or REACH_NONE_FREED
 *     12 + 13 * n + 5 * k  2      the dart that lost its edge link to the right corner's helper
 *                                 then, or REACH_NONE_FREED
 *
 * The last three, the record of point k, are there in version 2 alone: a file of version 1 ends
 * with the edge links. Where one edge was visible, the left corner's own dart was linked with the
 * right corner's helper, and no dart was freed.
 *
 * The edge link of an absent helper is that dart itself. The point link has no place: it joins
 * darts 2k and 2k + 1 where point k has a helper, and fixes 2k where it has none.
 */
enum {
    REACH_FILE_VERSION = 2,
    REACH_FORMER_FILE_VERSION = 1,
    REACH_NO_REFERENCE = REACH_DARTS,
    REACH_NONE_FREED = REACH_DARTS,
    REACH_LENGTH_PLACE = 0,
    REACH_VERSION_PLACE = 4,
    REACH_COUNT_PLACE = 5,
    REACH_REFERENCE_PLACE = 7
};
#define REACH_X_PLACE(k) (REACH_EMPTY_BYTES + 8 * (k))
#define REACH_Y_PLACE(k) (REACH_EMPTY_BYTES + 8 * (k) + 4)
#define REACH_HELPER_PLACE(n, k) (REACH_EMPTY_BYTES + 8 * (n) + (k))
#define REACH_EDGE_PLACE(n, dart) (REACH_EMPTY_BYTES + 9 * (n) + 2 * (dart))
#define REACH_ARRIVAL_PLACE(n, k) (REACH_EMPTY_BYTES + 13 * (n) + 5 * (k))
#define REACH_FREED_LEFT_PLACE(n, k) (REACH_ARRIVAL_PLACE(n, k) + 1)
#define REACH_FREED_RIGHT_PLACE(n, k) (REACH_ARRIVAL_PLACE(n, k) + 3)

/* Writes the orientation of (a, b, c) to out[0]: positive where c is left of the line from a to b,
   zero where it is in line, negative where it is right. It is from -4 * 10^18 to 4 * 10^18.
   Refusals: 3, 10. */
uint32_t reach_orientation(int64_t ax, int64_t ay, int64_t bx, int64_t by, int64_t cx, int64_t cy,
                           int64_t *out, size_t out_length);

/* Writes the 9 bytes of the map without points, in version 2. Refusals: 10. */
uint32_t reach_empty(uint8_t *out, size_t out_bytes);

/* Offers a point to a map of n points: writes the bytes of the map after it to out, in version 2
   whichever the map has, and four values to arrival: its kind, the left corner, the right corner
   and the number of visible edges, the last three 0 unless the kind is REACH_OUTSIDE. The map after
   it has REACH_BYTES(n + 1) bytes, which for a map of version 1 is not map_bytes +
   REACH_POINT_BYTES. An edge is visible where the point lies right of it, or on its line but not
   between its ends; a point left of each edge or on it is REACH_INSIDE. The visible edges lie
   between the left and the right corner. Where the outline is two corners and the point in line
   beyond one of them, left and right are both the corner farther from it, and two edges are
   visible. Refusals: 7, 1, 2, 3, 4, 10. */
uint32_t reach_offer(const uint8_t *map, size_t map_bytes, int64_t x, int64_t y, uint8_t *out,
                     size_t out_bytes, uint64_t *arrival, size_t arrival_length);

/* Writes the orbit of a dart under the edge link, REACH_ORBIT_WORDS numbers: bit j of out[w] stands
   for dart 64 * w + j, for w below 16, and out[16] is the number of its darts. Refusals: 7, 1, 6,
   10. */
uint32_t reach_edge_orbit(const uint8_t *map, size_t map_bytes, uint64_t dart, uint64_t *out,
                          size_t out_length);

/* Writes the orbit of a dart under the point link, as reach_edge_orbit does. Refusals: 7, 1, 6, 10.
 */
uint32_t reach_vertex_orbit(const uint8_t *map, size_t map_bytes, uint64_t dart, uint64_t *out,
                            size_t out_length);

/* Writes the orbit of a dart under "edge link, then point link", as reach_edge_orbit does.
   Refusals: 7, 1, 6, 10. */
uint32_t reach_face_orbit(const uint8_t *map, size_t map_bytes, uint64_t dart, uint64_t *out,
                          size_t out_length);

/* Writes the connected part of a dart, which both links reach, as reach_edge_orbit does. Refusals:
   7, 1, 6, 10. */
uint32_t reach_part_orbit(const uint8_t *map, size_t map_bytes, uint64_t dart, uint64_t *out,
                          size_t out_length);

/* Writes five numbers: darts, vertices, edges, faces, parts. Refusals: 7, 1, 10. */
uint32_t reach_counts(const uint8_t *map, size_t map_bytes, uint64_t *out, size_t out_length);

/* Follows edge and point links alternately from a dart and writes three values: the last dart, the
   ending (REACH_HOME or REACH_LOOSE) and the number of moves. Refusals: 7, 1, 6, 10. */
uint32_t reach_walk(const uint8_t *map, size_t map_bytes, uint64_t dart, uint64_t *out,
                    size_t out_length);

/* Writes the dart where a walker stands that starts at a dart to out[0]. Refusals: 7, 1, 6, 10. */
uint32_t reach_walker(const uint8_t *map, size_t map_bytes, uint64_t dart, uint64_t *out,
                      size_t out_length);

/* Writes the dart where a walker stands after one move by the edge link to out[0]. Refusals: 7, 1,
   6, 10. */
uint32_t reach_walker_edge(const uint8_t *map, size_t map_bytes, uint64_t dart, uint64_t *out,
                           size_t out_length);

/* Writes the dart where a walker stands after one move by the point link to out[0]. Refusals: 7, 1,
   6, 10. */
uint32_t reach_walker_point(const uint8_t *map, size_t map_bytes, uint64_t dart, uint64_t *out,
                            size_t out_length);

/* Places a query point and writes three values: where it lies (REACH_PLACED_...), then the corner
   and 0, or the start and the end of the edge, or the number of edges that it lies right of and 0,
   or 0 and 0. Refusals: 7, 1, 3, 10. */
uint32_t reach_place(const uint8_t *map, size_t map_bytes, int64_t x, int64_t y, uint64_t *out,
                     size_t out_length);

/* Lists the corners' point numbers, anticlockwise from the smallest y, then the smallest x, and
   writes how many they are to written[0]: never more than REACH_POINTS. Refusals: 7, 1, 10. */
uint32_t reach_corners(const uint8_t *map, size_t map_bytes, uint64_t *out, size_t out_length,
                       uint64_t *written, size_t written_length);

/* Tells whether these bytes are a file that loads: in version 2 they are then what saving the map
   gives, and in version 1 what that version's writer gave. Refusals: 7, 1. */
uint32_t reach_check(const uint8_t *file, size_t file_bytes);

/* Loads a file of either version and writes the version 2 file of its map, and how many bytes it is
   to written[0]: REACH_BYTES of its points. Of a file of version 2 these are its own bytes.
   Refusals: 7, 1, 10. */
uint32_t reach_load(const uint8_t *file, size_t file_bytes, uint8_t *out, size_t out_bytes,
                    uint64_t *written, size_t written_length);

/* Reads a text line, with its one line feed or without it, and writes the coordinates x, y that it
   names to out[0] and out[1], in range or not: numbers of 1 to 10 digits. Refusals: 8, 10. */
uint32_t reach_line(const uint8_t *line, size_t line_bytes, int64_t *out, size_t out_length);

/* Writes what the program prints for a survey text, and how many bytes it is to written[0]: never
   more than REACH_REPORT_BYTES(text_bytes), which is proved (`report-most` of
   crates/reports/proofs/Lengths.antt). Refusals: 9, 10. */
uint32_t reach_report(const uint8_t *text, size_t text_bytes, uint8_t *out, size_t out_bytes,
                      uint64_t *written, size_t written_length);

/* Writes the outline of a map as OGC Simple Features text, without a line feed or a zero after it,
   and how many bytes it is to written[0]: never more than REACH_OUTLINE_BYTES. The corners stand in
   the order of reach_corners: none as "POLYGON EMPTY", one as "POINT (0 0)", two as
   "LINESTRING (0 0, 4 0)", more as "POLYGON ((0 0, 4 0, 6 7, 1 3, 0 0))", the first repeated.
   Refusals: 7, 1, 10. */
uint32_t reach_write_outline(const uint8_t *map, size_t map_bytes, uint8_t *out, size_t out_bytes,
                             uint64_t *written, size_t written_length);

/* Reads an outline's text, in the spelling of reach_write_outline and no other, and writes x and y
   of each corner in turn, and how many numbers they are to written[0]: two for each corner, never
   more than 2 * REACH_POINTS. Where the lists are long enough, a text is served if and only if some
   survey writes it. Refusals: 9, 11, 3, 12, 10. */
uint32_t reach_read_outline(const uint8_t *text, size_t text_bytes, int64_t *out, size_t out_length,
                            uint64_t *written, size_t written_length);

/* Writes twice the area of the outline to out[0]: the sum of orientations over a fan of triangles
   from the corner at a place of the listing, 0 for the first that reach_corners lists. It is the
   same from each corner, and from 0 to 8 * 10^18. Fewer than three points give 0 for any place;
   else a place that is not below the number of corners is refused as REACH_NO_DART. Refusals: 7, 1,
   6, 10. */
uint32_t reach_area(const uint8_t *map, size_t map_bytes, uint64_t place, int64_t *out,
                    size_t out_length);

/* Marks a claim on points, and writes REACH_RIGHT or REACH_WRONG to out[0]. The points are their
   coordinates, x and y in turn, and numbers counts these: it is twice the number of points. With 6
   for six points the claim is marked on the first three. An odd last number names no point. The
   claim is claim_length point numbers: it is right where it is the listing of reach_corners, begun
   at any corner, for the map that these points build, offered one after another to the map without
   points. Without points the empty claim is right. A claim with a number that no point has is
   wrong. Where the points are not all accepted, the first refusal met is returned, whatever is
   claimed. Refusals: 2, 3, 4 of each point in turn, 10. */
uint32_t reach_mark(const int64_t *coordinates, size_t numbers, const uint64_t *claim,
                    size_t claim_length, uint64_t *out, size_t out_length);

#ifdef __cplusplus
}
#endif

#endif
