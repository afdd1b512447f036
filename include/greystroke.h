/* The grey stroke core: lines, discs, rings and triangles on a grey page, in C11 and C++.
 *
 * Every call is proved in Rattle to keep the rules; this header is not checked against it. R1.1
 * and so on are clauses of docs/RULES.md.
 *
 * Memory. A page, a list and lights are each lent as their first element and their length; a
 * length of 0 may come with any pointer, NULL too. Lights are aligned as uint16_t. While a call
 * runs, nothing else may write what it was lent, nor read what it was lent to write. A page may
 * overlap neither a list nor lights, and a squeezed list not the list that it is made from. No call
 * keeps what it was lent, and none has a state of its own: calls may run side by side, and share
 * what they only read.
 *
 * A page of W by H has pixel (x, y) at byte y * W + x (R1.2). It may be longer: bytes past W * H
 * are never written. A byte of a page is a code.
 *
 * Lights. Light k is how much light the screen gives where it shows code k, in any unit. A drawing
 * call turns codes into light, blends there, and writes the code whose light is nearest (R6.1). It
 * is lent 256 lights, one for each code, each greater than the one before. greystroke_code_lights
 * makes those of a screen that shows each code in proportion; examples/gamma.c says how to measure
 * those of any other.
 *
 * Numbers. Every number may have any value that its type holds: what is out of its range is
 * refused, and nothing is narrowed in silence.
 *
 * Answers. Each begins with `refusal`, 0 for none, and `place`, the place of the refusal (R8.3):
 * the list's place for greystroke_draw_list, greystroke_check_list, greystroke_check_without_page
 * and greystroke_squeeze_list, 0 for every other call, and 0 where nothing is refused. After a
 * refusal all that was lent is as it was (R8.1), and the further fields are 0, but for what a
 * writer holds. Where several refusals apply, the first in the order that is given for the call is
 * told. */
#ifndef GREYSTROKE_H
#define GREYSTROKE_H

#include <stddef.h>
#include <stdint.h>

#ifdef __cplusplus
extern "C" {
#endif

/* The version of this interface: it grows where a program must be changed, or at least compiled
 * again, to be linked again. */
#define GREYSTROKE_VERSION 4

/* ---- refusals (R8.1) ---- */

enum greystroke_refusal {
    GREYSTROKE_WRONG_MARK = 1,        /* a list without the letters INK */
    GREYSTROKE_WRONG_VERSION = 2,     /* a version of a list other than 1 or 2 */
    GREYSTROKE_PAGE_SIZE = 3,         /* W or H outside 1 to 1,024 */
    GREYSTROKE_UNKNOWN_KIND = 4,      /* a kind of record that the version does not have, or a kind
                                         that is no shape, or no line where a line is asked for */
    GREYSTROKE_CUT_SHORT = 5,         /* a header or a record cut short, or no end record */
    GREYSTROKE_SURPLUS_BYTES = 6,     /* bytes behind the end record */
    GREYSTROKE_COORDINATE = 7,        /* a coordinate outside -4,096 to 4,095 */
    GREYSTROKE_CLIP = 8,              /* a clip out of order or off the page */
    GREYSTROKE_EQUAL_ENDS = 9,        /* a line whose ends coincide */
    GREYSTROKE_RADIUS = 10,           /* a radius of 0 or below */
    GREYSTROKE_RING_WIDTH = 11,       /* a ring's width outside 1 to the radius */
    GREYSTROKE_LIST_TOO_LONG = 12,    /* a list of more than 65,536 bytes */
    GREYSTROKE_PAGE_TOO_SHORT = 21,   /* a page shorter than W * H bytes */
    GREYSTROKE_NO_ROOM = 22,          /* too few bytes left in a list being written, or a place of a
                                         record under 10 or past the list, or too few bytes for a
                                         squeezed list */
    GREYSTROKE_PLAYER = 31,           /* a player above 7 */
    GREYSTROKE_LIGHTS = 32,           /* lights not 256 in number, or not strictly rising */
    GREYSTROKE_RADIUS_TOO_LARGE = 33, /* a radius above 1,023, or above 255 in a record of kind 5
                                         or 6, which has one byte for it */
    GREYSTROKE_TRIANGLE_SIZE = 34,    /* a triangle more than 127 wide or more than 127 high */
    GREYSTROKE_STRAIGHT_CORNERS = 35  /* a triangle whose corners are on one straight line */
};

/* ---- shapes and clips ---- */

/* The kind byte of a record (R7.3). */
enum greystroke_kind {
    GREYSTROKE_KIND_END = 0,
    GREYSTROKE_KIND_CLIP = 1,
    GREYSTROKE_KIND_LEVEL = 2,
    GREYSTROKE_KIND_EXACT_LINE = 3,
    GREYSTROKE_KIND_APPROXIMATE_LINE = 4,
    GREYSTROKE_KIND_DISC = 5,
    GREYSTROKE_KIND_RING = 6,
    GREYSTROKE_KIND_PLAYER = 7, /* a setting; this and what follows are of version 2 alone */
    GREYSTROKE_KIND_BIG_DISC = 8,
    GREYSTROKE_KIND_BIG_RING = 9,
    GREYSTROKE_KIND_TRIANGLE = 10
};

/* A shape: its kind, and its numbers in the order of the record's fields. Numbers past those that
 * a kind has are ignored. Kinds 5 and 8 are the same disc, and kinds 6 and 9 the same ring: a
 * record of kind 5 or 6 has one byte each for radius and width, and one of kind 8 or 9 two bytes
 * each. Only a writer tells them apart; every other call takes any radius of 1 to 1,023 under
 * either kind. */
struct greystroke_shape {
    uint32_t kind;
    int32_t numbers[6];
};

/* A line one pixel thick from corner (x0, y0) to corner (x1, y1), by exact areas (R3). */
static inline struct greystroke_shape greystroke_exact_line(
    int32_t x0, int32_t y0, int32_t x1, int32_t y1) {
    struct greystroke_shape shape = {GREYSTROKE_KIND_EXACT_LINE, {x0, y0, x1, y1, 0, 0}};
    return shape;
}

/* The same by the cheaper rule (R4). */
static inline struct greystroke_shape greystroke_approximate_line(
    int32_t x0, int32_t y0, int32_t x1, int32_t y1) {
    struct greystroke_shape shape = {GREYSTROKE_KIND_APPROXIMATE_LINE, {x0, y0, x1, y1, 0, 0}};
    return shape;
}

/* A disc about corner (x, y) (R5), to be written as kind 5 with a radius of at most 255. */
static inline struct greystroke_shape greystroke_disc(int32_t x, int32_t y, int32_t radius) {
    struct greystroke_shape shape = {GREYSTROKE_KIND_DISC, {x, y, radius, 0, 0, 0}};
    return shape;
}

/* A disc less the disc whose radius is smaller by the width (R5.3), to be written as kind 6 with a
 * radius of at most 255. */
static inline struct greystroke_shape greystroke_ring(
    int32_t x, int32_t y, int32_t radius, int32_t width) {
    struct greystroke_shape shape = {GREYSTROKE_KIND_RING, {x, y, radius, width, 0, 0}};
    return shape;
}

/* A disc to be written as kind 8, which version 1 does not have. */
static inline struct greystroke_shape greystroke_big_disc(int32_t x, int32_t y, int32_t radius) {
    struct greystroke_shape shape = {GREYSTROKE_KIND_BIG_DISC, {x, y, radius, 0, 0, 0}};
    return shape;
}

/* A ring to be written as kind 9, which version 1 does not have. */
static inline struct greystroke_shape greystroke_big_ring(
    int32_t x, int32_t y, int32_t radius, int32_t width) {
    struct greystroke_shape shape = {GREYSTROKE_KIND_BIG_RING, {x, y, radius, width, 0, 0}};
    return shape;
}

/* The filled triangle between three corners (R5.4), at most 127 wide and at most 127 high. Their
 * order does not matter to what it covers, and a record keeps it. Version 1 does not have it. */
static inline struct greystroke_shape greystroke_triangle(
    int32_t x0, int32_t y0, int32_t x1, int32_t y1, int32_t x2, int32_t y2) {
    struct greystroke_shape shape = {GREYSTROKE_KIND_TRIANGLE, {x0, y0, x1, y1, x2, y2}};
    return shape;
}

/* Keeps the pixels with x0 <= x < x1 and y0 <= y < y1; an empty clip is lawful (R1.4). */
struct greystroke_clip {
    uint32_t x0;
    uint32_t y0;
    uint32_t x1;
    uint32_t y1;
};

/* ---- lights ---- */

/* One light for each code. */
#define GREYSTROKE_CODES 256

/* Fills lights equal to codes: light k is k. Half of code 255 on code 0 is then code 128. */
static inline void greystroke_code_lights(uint16_t lights[GREYSTROKE_CODES]) {
    uint16_t code;
    for (code = 0; code < GREYSTROKE_CODES; code++)
        lights[code] = code;
}

/* ---- one shape ---- */

/* How many pixels the shape touched (R6.2): those inside the clip where its exact coverage is
 * above 0, though the byte may have stayed as it was. */
struct greystroke_draw_answer {
    uint32_t refusal;
    size_t place;
    uint64_t touched;
};

/* Blends a shape at a level, in light, into the pixels of a page of w by h that the clip keeps
 * (R6.1). Refused, in this order: 4 where the kind is no shape, then 3, 21, 32, 8, 7, 9, 10, 33,
 * 11, 34, 35 (R8.4, R8.7). */
struct greystroke_draw_answer greystroke_draw_shape(
    uint8_t *page, size_t page_length, uint32_t w, uint32_t h, const uint16_t *lights,
    size_t lights_length, struct greystroke_clip clip, uint8_t level,
    struct greystroke_shape shape);

/* `found` is 1 where the line has a last column (R6.5), and 0 where it has none; `column` is then
 * 0. */
struct greystroke_column_answer {
    uint32_t refusal;
    size_t place;
    uint32_t found;
    uint64_t column;
};

/* The last column of a line in which it touches a pixel that the clip keeps, on a page of w by h:
 * the drawing of the line ends there. Columns are counted from 0, from the end with the
 * lower x, or with the lower y where y is the longer span (R2). No page is lent.
 * Refused, in this order: 4 where the kind is no line, then 3, 8, 7, 9 (R8.4, R8.7). */
struct greystroke_column_answer greystroke_last_column(
    uint32_t w, uint32_t h, struct greystroke_clip clip, struct greystroke_shape shape);

/* n over d, not reduced; off the shape 0 over d (R6.3). Of a triangle only the quotient is laid
 * down. d is from 1 to 2^47. */
struct greystroke_coverage_answer {
    uint32_t refusal;
    size_t place;
    uint64_t n;
    uint64_t d;
};

/* The share of pixel (x, y) that a shape covers.
 * Refused, in this order: 4 where the kind is no shape, then 7 of the shape, 7 of the pixel, 9, 10,
 * 33, 11, 34, 35 (R8.4, R8.7). */
struct greystroke_coverage_answer greystroke_coverage(
    struct greystroke_shape shape, int32_t x, int32_t y);

/* ---- a whole list (R7) ---- */

/* The version of list to write. Lists of version 1, which have no player, no big disc or ring and
 * no triangle, are read and written as well (R7.2, R7.3). */
#define GREYSTROKE_LIST_VERSION 2

/* What the records of a list are read and written against: its version, and the W and H of its
 * page. */
struct greystroke_basis {
    uint32_t version;
    uint32_t w;
    uint32_t h;
};

/* W, H and eight touched counts: touched[p] is the sum, over the shapes of player p, of the pixels
 * that each touches (R6.4). The eight add up to the touches of all shapes. */
struct greystroke_list_answer {
    uint32_t refusal;
    size_t place;
    uint32_t w;
    uint32_t h;
    uint64_t touched[8];
};

/* Draws a list on a page, in light (R7.5). The whole list is checked before a byte of the page is
 * written. How far the light of a byte, or of a zone, may be from the exact blend is read from the
 * list (R10.4, R10.5). Refused, in this order: 12, 5 (under 10 bytes), 1, 2, 3, 21, 32, then record
 * by record 4, 5 and those of 7, 8, 9, 10, 33, 11, 31, 34 and 35 that the kind has, last 6 (R8.2).
 * The place is 0 for the header, 12, 21 and 32; else the record's first byte; the list's length
 * where the end is missing; the first surplus byte for 6. */
struct greystroke_list_answer greystroke_draw_list(
    uint8_t *page, size_t page_length, const uint16_t *lights, size_t lights_length,
    const uint8_t *list, size_t list_length);

/* What the list's header says: its version, W and H, and its background; and the ceiling of its
 * touches: each line counts three times its longer span, each disc or ring four times its radius
 * squared, each triangle its width times its height, and none more than the pixels of the clip in
 * force (R6.6). The eight counts of a drawn list never add up to more (R10.6). A refused list has
 * no ceiling. */
struct greystroke_check_answer {
    uint32_t refusal;
    size_t place;
    struct greystroke_basis basis;
    uint8_t background;
    uint64_t ceiling;
};

/* Checks a list as greystroke_draw_list does for a page of so many bytes and these lights: the same
 * refusals, in the same order, at the same places. */
struct greystroke_check_answer greystroke_check_list(
    const uint8_t *list, size_t list_length, size_t page_length, const uint16_t *lights,
    size_t lights_length);

/* Checks a list before there is a page or lights for it: the same refusals but 21 and 32, in the
 * same order, at the same places (R8.2), and of an accepted list the same answer. */
struct greystroke_check_answer greystroke_check_without_page(
    const uint8_t *list, size_t list_length);

/* How many bytes the squeezed list has. */
struct greystroke_squeeze_answer {
    uint32_t refusal;
    size_t place;
    size_t length;
};

/* Writes a list to `squeezed` without the settings that change nothing (R7.8): before each shape it
 * has only those whose value differs from the one at the shape before, at the first shape from the
 * start value, in the order clip, level, player, and none behind the last shape. Header, shapes and
 * end are those of the list, byte for byte. It is drawn alike, with the same counts, bounds and
 * ceiling, it is no longer than the list, and squeezed again it is the same bytes; lists with the
 * same header and the same shapes under the same settings are squeezed to the same bytes (R10.7).
 * So list_length bytes are always enough. Bytes past the squeezed list keep their contents.
 * Refused: as by greystroke_check_without_page, in the same order, at the same places, then 22 at
 * place 0 where the squeezed list is longer than `squeezed` (R8.2). */
struct greystroke_squeeze_answer greystroke_squeeze_list(
    uint8_t *squeezed, size_t squeezed_length, const uint8_t *list, size_t list_length);

/* ---- one record read ---- */

/* The record has `size` bytes. `kind` is its kind, and `numbers` are its fields in their order,
 * then zeros: those of a shape are as in greystroke_shape, a player is numbers[0]. */
struct greystroke_read_answer {
    uint32_t refusal;
    size_t place;
    size_t size;
    uint32_t kind;
    int32_t numbers[6];
};

/* Reads the record at the front of some bytes, by the version, W and H of its list (R7.6).
 * Refused, in this order: 2, 3, 5 (no byte), 4, 5, then those of 7, 8, 9, 10, 33, 11, 31, 34
 * and 35 that the kind has (R8.5). */
struct greystroke_read_answer greystroke_read_record(
    const uint8_t *list, size_t list_length, struct greystroke_basis basis);

/* ---- a list being written (R7.7) ----
 * A writer is a place and a basis, which the caller holds: zeros before the header. Each call is
 * handed them and answers those to hold from then on; after a refusal they are the ones that it
 * was handed. Of a list only the first 65,536 bytes serve, and no byte changes but those of what
 * is written. */

/* `next` is where the next record goes, and `basis` what it is written against; `place` is that of
 * the refusal, always 0. */
struct greystroke_write_answer {
    uint32_t refusal;
    size_t place;
    size_t next;
    struct greystroke_basis basis;
};

/* Writes a header of the version, W and H of `basis` to byte 0; place and `held` are what the
 * writer holds. Refused, in this order: 2 and 3 of `basis`, 22 (R8.6). */
struct greystroke_write_answer greystroke_write_header(
    uint8_t *list, size_t list_length, size_t place, struct greystroke_basis held,
    struct greystroke_basis basis, uint8_t background);

/* Writes an end record, which the writer does not remember.
 * Refused, in this order: 2, 3, 22 (R8.6). */
struct greystroke_write_answer greystroke_write_end(
    uint8_t *list, size_t list_length, size_t place, struct greystroke_basis basis);

/* Writes a clip. Refused, in this order: 2, 3, 8, 22 (R8.6). */
struct greystroke_write_answer greystroke_write_clip(
    uint8_t *list, size_t list_length, size_t place, struct greystroke_basis basis,
    struct greystroke_clip clip);

/* Writes a level. Refused, in this order: 2, 3, 22 (R8.6). */
struct greystroke_write_answer greystroke_write_level(
    uint8_t *list, size_t list_length, size_t place, struct greystroke_basis basis, uint8_t level);

/* Writes a player, who owns the shapes behind it (R7.4).
 * Refused, in this order: 2, 3, 4 in version 1, 31, 22 (R8.6). */
struct greystroke_write_answer greystroke_write_player(
    uint8_t *list, size_t list_length, size_t place, struct greystroke_basis basis,
    uint8_t player);

/* Writes a shape as the kind that it has. Refused, in this order: 4 where the kind is no shape,
 * then 2, 3, 4 of kind 8, 9 or 10 in version 1, 7, 9, 10, 33 (also of kind 5 or 6 with a radius
 * above 255), 11, 34, 35, 22 (R8.6). */
struct greystroke_write_answer greystroke_write_shape(
    uint8_t *list, size_t list_length, size_t place, struct greystroke_basis basis,
    struct greystroke_shape shape);

#ifdef __cplusplus
}
#endif

#endif
