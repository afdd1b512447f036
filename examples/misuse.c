/* Misuses every call: numbers out of their ranges and far out of 16 bits, versions that there are
 * not, kinds that are no shape, no line or not of a version, lights that do not rise, no memory at
 * all, lists cut at each byte, places past the list, too little room. Each answer must tell the
 * refusal and its place, and what was lent must be as it was. */
#include "greystroke.h"

#include <stdbool.h>
#include <stdio.h>
#include <string.h>

enum { SIDE = 8, LEVEL = 200, PLAYER = 5, PLAYERS = 8, BYTE = 170, ROOM = 96, LIST_MOST = 65536 };

#define COUNT(array) (sizeof(array) / sizeof *(array))

static const struct greystroke_clip whole = {0, 0, SIDE, SIDE};
static const struct greystroke_clip no_clip = {5, 0, 4, SIDE};
static const struct greystroke_basis none = {0, 0, 0};
static const struct greystroke_basis basis_1 = {1, SIDE, SIDE};
static const struct greystroke_basis basis_2 = {2, SIDE, SIDE};

static uint8_t page[SIDE * SIDE];
static uint8_t room[ROOM];
static uint8_t long_list[LIST_MOST + 1];
static uint16_t lights[GREYSTROKE_CODES];
static unsigned long calls;
static bool wrong;

static bool all_are(const uint8_t *bytes, size_t length) {
    for (size_t i = 0; i < length; i++)
        if (bytes[i] != BYTE)
            return false;
    return true;
}

static void expect(
    const char *call, uint32_t refusal, size_t place, uint32_t right_refusal, size_t right_place) {
    bool kept = all_are(page, sizeof page) && all_are(room, sizeof room);
    calls++;
    if (refusal == right_refusal && place == right_place && kept)
        return;
    wrong = true;
    printf("%s: %u at %zu for %u at %zu%s\n", call, (unsigned)refusal, place,
        (unsigned)right_refusal, right_place, kept ? "" : ", and lent memory has changed");
}

/* `answer` is the middle of the answer's name; `call` must be refused by `number` at `at`. */
#define REFUSED(answer, number, at, call)                               \
    do {                                                                \
        struct greystroke_##answer##_answer got = call;                 \
        expect(#call, got.refusal, got.place, (uint32_t)(number), (at)); \
    } while (0)

static bool same(struct greystroke_basis one, struct greystroke_basis other) {
    return one.version == other.version && one.w == other.w && one.h == other.h;
}

/* The same of a writer that holds a place and a basis, which it must answer again. */
#define WRITE_REFUSED(number, held_place, held, call)                   \
    do {                                                                \
        struct greystroke_write_answer got = call;                      \
        expect(#call, got.refusal, got.place, (uint32_t)(number), 0);   \
        if (got.next != (held_place) || !same(got.basis, held)) {       \
            wrong = true;                                               \
            printf("%s: the place or the basis has changed\n", #call);  \
        }                                                               \
    } while (0)

/* The same of a check: a refused list has neither a header nor a ceiling. */
#define CHECK_REFUSED(number, at, call)                                              \
    do {                                                                             \
        struct greystroke_check_answer got = call;                                   \
        expect(#call, got.refusal, got.place, (uint32_t)(number), (at));             \
        if (!same(got.basis, none) || got.background != 0 || got.ceiling != 0) {     \
            wrong = true;                                                            \
            printf("%s: more is told than the refusal\n", #call);                    \
        }                                                                            \
    } while (0)

/* The same of a squeezed list: a refused one has no length. */
#define SQUEEZE_REFUSED(number, at, call)                                            \
    do {                                                                             \
        struct greystroke_squeeze_answer got = call;                                 \
        expect(#call, got.refusal, got.place, (uint32_t)(number), (at));             \
        if (got.length != 0) {                                                       \
            wrong = true;                                                            \
            printf("%s: more is told than the refusal\n", #call);                    \
        }                                                                            \
    } while (0)

/* ---- calls with fit lights ---- */

static struct greystroke_draw_answer draw_shape(uint8_t *bytes, size_t length, uint32_t w,
    uint32_t h, struct greystroke_clip clip, struct greystroke_shape shape) {
    return greystroke_draw_shape(
        bytes, length, w, h, lights, GREYSTROKE_CODES, clip, LEVEL, shape);
}

static struct greystroke_list_answer draw_list(
    uint8_t *bytes, size_t length, const uint8_t *list, size_t list_length) {
    return greystroke_draw_list(bytes, length, lights, GREYSTROKE_CODES, list, list_length);
}

static struct greystroke_check_answer check_list(
    const uint8_t *list, size_t list_length, size_t page_length) {
    return greystroke_check_list(list, list_length, page_length, lights, GREYSTROKE_CODES);
}

/* ---- shapes ---- */

static bool is_line(struct greystroke_shape shape) {
    return shape.kind == GREYSTROKE_KIND_EXACT_LINE
        || shape.kind == GREYSTROKE_KIND_APPROXIMATE_LINE;
}

/* Version 1 has neither a big disc nor a big ring, nor a triangle. */
static bool is_newer(struct greystroke_shape shape) {
    return shape.kind == GREYSTROKE_KIND_BIG_DISC || shape.kind == GREYSTROKE_KIND_BIG_RING
        || shape.kind == GREYSTROKE_KIND_TRIANGLE;
}

/* How many of its numbers are coordinates. */
static size_t coordinates(struct greystroke_shape shape) {
    return is_line(shape) ? 4 : shape.kind == GREYSTROKE_KIND_TRIANGLE ? 6 : 2;
}

/* A shape in the calls that write it, with room and without. */
static void try_written(uint32_t number, struct greystroke_shape shape) {
    uint32_t in_version_1 = is_newer(shape) ? GREYSTROKE_UNKNOWN_KIND : number;
    WRITE_REFUSED(in_version_1, 10, basis_1,
        greystroke_write_shape(room, sizeof room, 10, basis_1, shape));
    WRITE_REFUSED(number, 10, basis_2,
        greystroke_write_shape(room, sizeof room, 10, basis_2, shape));
    WRITE_REFUSED(number, 10, basis_2, greystroke_write_shape(NULL, 0, 10, basis_2, shape));
}

/* A shape in each call that takes one. One that is no line has no last column. */
static void try_shape(uint32_t number, struct greystroke_shape shape) {
    REFUSED(draw, number, 0, draw_shape(page, sizeof page, SIDE, SIDE, whole, shape));
    REFUSED(column, is_line(shape) ? number : GREYSTROKE_UNKNOWN_KIND, 0,
        greystroke_last_column(SIDE, SIDE, whole, shape));
    REFUSED(coverage, number, 0, greystroke_coverage(shape, 0, 0));
    try_written(number, shape);
}

static const struct greystroke_shape lawful[] = {
    {GREYSTROKE_KIND_EXACT_LINE, {1, 1, 5, 3, 0, 0}},
    {GREYSTROKE_KIND_APPROXIMATE_LINE, {1, 1, 5, 3, 0, 0}},
    {GREYSTROKE_KIND_DISC, {4, 4, 3, 0, 0, 0}},
    {GREYSTROKE_KIND_RING, {4, 4, 3, 2, 0, 0}},
    {GREYSTROKE_KIND_BIG_DISC, {4, 4, 300, 0, 0, 0}},
    {GREYSTROKE_KIND_BIG_RING, {4, 4, 1023, 258, 0, 0}},
    {GREYSTROKE_KIND_TRIANGLE, {1, 1, 5, 3, 2, 7}},
};

/* Cut to 16 bits, each but the first four would be in range. */
static const int32_t no_coordinate[] = {4096, -4097, 32767, -32768, 65536, 65537, -65536, 131075,
    INT32_MAX, INT32_MIN};
/* Cut to 16 bits, some of these would be in range. */
static const int32_t too_small[] = {0, -1, -1024, -65535, -65536 + 3, INT32_MIN};
static const int32_t too_large[] = {1024, 32768, 65535, 65536, 65536 + 3, 131072 + 300, INT32_MAX};

/* A radius in each kind that has one, before any width. */
static void try_radius(uint32_t number, int32_t radius) {
    try_shape(number, greystroke_disc(4, 4, radius));
    try_shape(number, greystroke_big_disc(4, 4, radius));
    for (int32_t width = 0; width <= 1; width++) {
        try_shape(number, greystroke_ring(4, 4, radius, width));
        try_shape(number, greystroke_big_ring(4, 4, radius, width));
    }
}

static void try_width(int32_t radius, int32_t width) {
    try_shape(GREYSTROKE_RING_WIDTH, greystroke_big_ring(4, 4, radius, width));
    if (radius <= UINT8_MAX)
        try_shape(GREYSTROKE_RING_WIDTH, greystroke_ring(4, 4, radius, width));
}

static void try_measures(void) {
    static const int32_t not_of_one_byte[] = {256, 300, 1023};
    for (size_t k = 0; k < COUNT(too_small); k++) {
        try_radius(GREYSTROKE_RADIUS, too_small[k]);
        try_width(3, too_small[k]);
        try_width(1023, too_small[k]);
    }
    for (size_t k = 0; k < COUNT(too_large); k++) {
        try_radius(GREYSTROKE_RADIUS_TOO_LARGE, too_large[k]);
        try_width(3, too_large[k]);
        try_width(1023, too_large[k]);
    }
    try_width(3, 4);
    try_width(255, 256);
    try_width(1022, 1023);
    /* a record of kind 5 or 6 has one byte for these */
    for (size_t k = 0; k < COUNT(not_of_one_byte); k++) {
        int32_t radius = not_of_one_byte[k];
        try_written(GREYSTROKE_RADIUS_TOO_LARGE, greystroke_disc(4, 4, radius));
        try_written(GREYSTROKE_RADIUS_TOO_LARGE, greystroke_ring(4, 4, radius, radius));
        try_written(GREYSTROKE_RADIUS_TOO_LARGE, greystroke_ring(4, 4, radius, 0));
    }
}

/* Three of the six orders of some corners. */
static void try_corners(uint32_t number, const int32_t corners[6]) {
    const int32_t *c = corners;
    try_shape(number, greystroke_triangle(c[0], c[1], c[2], c[3], c[4], c[5]));
    try_shape(number, greystroke_triangle(c[4], c[5], c[2], c[3], c[0], c[1]));
    try_shape(number, greystroke_triangle(c[2], c[3], c[0], c[1], c[4], c[5]));
}

static void try_triangles(void) {
    static const int32_t too_wide_or_high[][6] = {
        {0, 0, 128, 0, 0, 1}, {0, 0, 1, 0, 0, 128}, {-64, 0, 64, 1, 0, 5},
        {0, 0, 64, 64, 128, 128}, {-4096, -4096, 4095, 4095, 0, 1}, {0, -4096, 0, 4095, 0, 0}};
    static const int32_t straight[][6] = {
        {1, 1, 1, 1, 1, 1}, {0, 0, 127, 127, 1, 1}, {3, -9, 3, 9, 3, 0}, {0, 5, 5, 5, 2, 5},
        {0, 0, 3, 6, 2, 4}, {4095, -4096, 3968, -3969, 4000, -4001}, {2, 3, 7, 1, 2, 3}};
    for (size_t k = 0; k < COUNT(too_wide_or_high); k++)
        try_corners(GREYSTROKE_TRIANGLE_SIZE, too_wide_or_high[k]);
    for (size_t k = 0; k < COUNT(straight); k++)
        try_corners(GREYSTROKE_STRAIGHT_CORNERS, straight[k]);
    /* before either */
    try_shape(GREYSTROKE_COORDINATE, greystroke_triangle(0, 0, 65536, 0, 131072, 0));
    try_shape(GREYSTROKE_COORDINATE, greystroke_triangle(0, 0, 0, 4096, 0, 0));
}

static void try_shapes(void) {
    static const uint32_t no_shape[] = {0, 1, 2, 7, 11, 255, 256 + 10, 256 + 3, 65536 + 3, UINT32_MAX};
    for (size_t i = 0; i < COUNT(no_shape); i++) {
        struct greystroke_shape shape = {no_shape[i], {1, 1, 5, 3, 0, 0}};
        try_shape(GREYSTROKE_UNKNOWN_KIND, shape);
        /* before all other refusals */
        REFUSED(draw, GREYSTROKE_UNKNOWN_KIND, 0, draw_shape(NULL, 0, 0, 0, whole, shape));
        REFUSED(column, GREYSTROKE_UNKNOWN_KIND, 0, greystroke_last_column(0, 0, no_clip, shape));
        REFUSED(coverage, GREYSTROKE_UNKNOWN_KIND, 0, greystroke_coverage(shape, INT32_MAX, 0));
        WRITE_REFUSED(GREYSTROKE_UNKNOWN_KIND, 0, none,
            greystroke_write_shape(NULL, 0, 0, none, shape));
    }
    for (size_t s = 0; s < COUNT(lawful); s++)
        for (size_t i = 0; i < coordinates(lawful[s]); i++)
            for (size_t k = 0; k < COUNT(no_coordinate); k++) {
                struct greystroke_shape shape = lawful[s];
                shape.numbers[i] = no_coordinate[k];
                try_shape(GREYSTROKE_COORDINATE, shape);
            }
    try_shape(GREYSTROKE_EQUAL_ENDS, greystroke_exact_line(3, 2, 3, 2));
    try_shape(GREYSTROKE_EQUAL_ENDS, greystroke_approximate_line(-4096, 4095, -4096, 4095));
}

static void try_pixels(void) {
    for (size_t s = 0; s < COUNT(lawful); s++)
        for (size_t k = 0; k < COUNT(no_coordinate); k++) {
            REFUSED(coverage, GREYSTROKE_COORDINATE, 0,
                greystroke_coverage(lawful[s], no_coordinate[k], 0));
            REFUSED(coverage, GREYSTROKE_COORDINATE, 0,
                greystroke_coverage(lawful[s], 0, no_coordinate[k]));
        }
}

/* ---- last columns ---- */

/* Each refusal before those that come later in the order: of the kind, of the size, of the clip, of
 * the coordinates, of the ends. */
static void try_columns(void) {
    for (size_t s = 0; s < COUNT(lawful); s++) {
        bool line = is_line(lawful[s]);
        struct greystroke_shape shape = lawful[s];
        for (size_t k = 0; k < COUNT(no_coordinate); k++) {
            shape.numbers[0] = shape.numbers[2] = no_coordinate[k];
            shape.numbers[1] = shape.numbers[3] = 0;
            REFUSED(column, line ? GREYSTROKE_PAGE_SIZE : GREYSTROKE_UNKNOWN_KIND, 0,
                greystroke_last_column(0, SIDE, no_clip, shape));
            REFUSED(column, line ? GREYSTROKE_CLIP : GREYSTROKE_UNKNOWN_KIND, 0,
                greystroke_last_column(SIDE, SIDE, no_clip, shape));
            REFUSED(column, line ? GREYSTROKE_COORDINATE : GREYSTROKE_UNKNOWN_KIND, 0,
                greystroke_last_column(SIDE, SIDE, whole, shape));
        }
        if (!line)
            REFUSED(column, GREYSTROKE_UNKNOWN_KIND, 0,
                greystroke_last_column(SIDE, SIDE, whole, lawful[s]));
    }
}

/* ---- pages ---- */

/* A version, W and H in each call that takes them, before anything else is looked at. */
static void try_basis(uint32_t number, struct greystroke_basis basis) {
    static const struct greystroke_basis held = {UINT32_MAX, SIDE, UINT32_MAX};
    static const uint8_t end[] = {0};
    REFUSED(read, number, 0, greystroke_read_record(end, sizeof end, basis));
    REFUSED(read, number, 0, greystroke_read_record(NULL, 0, basis));
    WRITE_REFUSED(number, 7, held,
        greystroke_write_header(room, sizeof room, 7, held, basis, 0));
    WRITE_REFUSED(number, 7, held, greystroke_write_header(NULL, 0, 7, held, basis, 0));
    WRITE_REFUSED(number, 10, basis, greystroke_write_end(room, sizeof room, 10, basis));
    WRITE_REFUSED(number, 9, basis, greystroke_write_end(NULL, 0, 9, basis));
    WRITE_REFUSED(number, 10, basis,
        greystroke_write_clip(room, sizeof room, 10, basis, no_clip));
    WRITE_REFUSED(number, 10, basis,
        greystroke_write_level(room, sizeof room, 10, basis, LEVEL));
    WRITE_REFUSED(number, 10, basis,
        greystroke_write_player(room, sizeof room, 10, basis, PLAYERS));
    WRITE_REFUSED(number, 10, basis,
        greystroke_write_shape(room, sizeof room, 10, basis, greystroke_disc(4, 4, 0)));
}

static void try_size(uint32_t w, uint32_t h) {
    REFUSED(draw, GREYSTROKE_PAGE_SIZE, 0, draw_shape(page, sizeof page, w, h, whole, lawful[2]));
    REFUSED(column, GREYSTROKE_PAGE_SIZE, 0, greystroke_last_column(w, h, whole, lawful[0]));
    for (uint32_t version = 1; version <= 2; version++)
        try_basis(GREYSTROKE_PAGE_SIZE, (struct greystroke_basis){version, w, h});
}

static void try_versions(void) {
    /* Cut to 16 bits or to 8, the last four would be versions. */
    static const uint32_t no_version[] = {0, 3, 255, 65535, 65536, UINT32_MAX, 256 + 1, 256 + 2,
        65536 + 1, 65536 + 2};
    for (size_t k = 0; k < COUNT(no_version); k++) {
        try_basis(GREYSTROKE_WRONG_VERSION, (struct greystroke_basis){no_version[k], SIDE, SIDE});
        try_basis(GREYSTROKE_WRONG_VERSION, (struct greystroke_basis){no_version[k], 0, SIDE});
        try_basis(GREYSTROKE_WRONG_VERSION, (struct greystroke_basis){no_version[k], SIDE, 1025});
    }
}

static void try_clip(struct greystroke_clip clip) {
    REFUSED(draw, GREYSTROKE_CLIP, 0, draw_shape(page, sizeof page, SIDE, SIDE, clip, lawful[2]));
    REFUSED(column, GREYSTROKE_CLIP, 0, greystroke_last_column(SIDE, SIDE, clip, lawful[0]));
    WRITE_REFUSED(GREYSTROKE_CLIP, 10, basis_2,
        greystroke_write_clip(room, sizeof room, 10, basis_2, clip));
}

/* Version 1 has no player, and version 2 eight. Both come before the want of room. */
static void try_players(void) {
    for (unsigned player = 0; player <= UINT8_MAX; player++) {
        uint8_t byte = (uint8_t)player;
        WRITE_REFUSED(GREYSTROKE_UNKNOWN_KIND, 10, basis_1,
            greystroke_write_player(room, sizeof room, 10, basis_1, byte));
        WRITE_REFUSED(GREYSTROKE_UNKNOWN_KIND, 0, basis_1,
            greystroke_write_player(NULL, 0, 0, basis_1, byte));
        if (player < PLAYERS)
            continue;
        WRITE_REFUSED(GREYSTROKE_PLAYER, 10, basis_2,
            greystroke_write_player(room, sizeof room, 10, basis_2, byte));
        WRITE_REFUSED(GREYSTROKE_PLAYER, 0, basis_2,
            greystroke_write_player(NULL, 0, 0, basis_2, byte));
    }
}

static void try_pages(void) {
    static const uint32_t no_size[] = {0, 1025, 65535, 65536, 65536 + SIDE, UINT32_MAX};
    static const uint32_t no_edge[] = {SIDE + 1, 65535, 65536, 65536 + 1, UINT32_MAX};
    for (size_t k = 0; k < COUNT(no_size); k++) {
        try_size(no_size[k], SIDE);
        try_size(SIDE, no_size[k]);
    }
    for (size_t k = 0; k < COUNT(no_edge); k++) {
        try_clip((struct greystroke_clip){no_edge[k], 0, SIDE, SIDE});
        try_clip((struct greystroke_clip){0, no_edge[k], SIDE, SIDE});
        try_clip((struct greystroke_clip){0, 0, no_edge[k], SIDE});
        try_clip((struct greystroke_clip){0, 0, SIDE, no_edge[k]});
        try_clip((struct greystroke_clip){no_edge[k], no_edge[k], no_edge[k], no_edge[k]});
    }
    try_clip((struct greystroke_clip){5, 0, 4, SIDE});
    try_clip((struct greystroke_clip){0, 5, SIDE, 4});
    for (size_t n = 0; n < sizeof page; n++)
        REFUSED(draw, GREYSTROKE_PAGE_TOO_SHORT, 0,
            draw_shape(page, n, SIDE, SIDE, whole, lawful[2]));
    REFUSED(draw, GREYSTROKE_PAGE_TOO_SHORT, 0, draw_shape(NULL, 0, SIDE, SIDE, whole, lawful[2]));
}

/* ---- lights ---- */

/* Unfit lights for one shape: before all that is tried after them, and after all before them. */
static void try_lights(const uint16_t *unfit, size_t length) {
    static const struct greystroke_shape no_line = {
        GREYSTROKE_KIND_EXACT_LINE, {4096, 0, 4096, 0, 0, 0}};
    static const struct greystroke_shape no_shape = {GREYSTROKE_KIND_PLAYER, {0}};
    REFUSED(draw, GREYSTROKE_LIGHTS, 0,
        greystroke_draw_shape(
            page, sizeof page, SIDE, SIDE, unfit, length, whole, LEVEL, lawful[0]));
    REFUSED(draw, GREYSTROKE_LIGHTS, 0,
        greystroke_draw_shape(
            page, sizeof page, SIDE, SIDE, unfit, length, no_clip, LEVEL, no_line));
    REFUSED(draw, GREYSTROKE_PAGE_TOO_SHORT, 0,
        greystroke_draw_shape(
            page, sizeof page - 1, SIDE, SIDE, unfit, length, no_clip, LEVEL, no_line));
    REFUSED(draw, GREYSTROKE_PAGE_SIZE, 0,
        greystroke_draw_shape(NULL, 0, SIDE, 0, unfit, length, no_clip, LEVEL, no_line));
    REFUSED(draw, GREYSTROKE_UNKNOWN_KIND, 0,
        greystroke_draw_shape(NULL, 0, SIDE, 0, unfit, length, no_clip, LEVEL, no_shape));
}

/* ---- places ---- */

static void try_place(uint8_t *list, size_t length, size_t place) {
    WRITE_REFUSED(GREYSTROKE_NO_ROOM, place, basis_2,
        greystroke_write_end(list, length, place, basis_2));
    WRITE_REFUSED(GREYSTROKE_NO_ROOM, place, basis_2,
        greystroke_write_clip(list, length, place, basis_2, whole));
    WRITE_REFUSED(GREYSTROKE_NO_ROOM, place, basis_2,
        greystroke_write_level(list, length, place, basis_2, LEVEL));
    WRITE_REFUSED(GREYSTROKE_NO_ROOM, place, basis_2,
        greystroke_write_player(list, length, place, basis_2, PLAYER));
    for (size_t s = 0; s < COUNT(lawful); s++)
        WRITE_REFUSED(GREYSTROKE_NO_ROOM, place, basis_2,
            greystroke_write_shape(list, length, place, basis_2, lawful[s]));
}

static void try_places(void) {
    for (size_t place = 0; place < 10; place++)
        try_place(room, sizeof room, place);
    try_place(room, sizeof room, sizeof room);
    try_place(room, sizeof room, sizeof room + 1);
    try_place(room, sizeof room, SIZE_MAX);
    try_place(NULL, 0, 0);
    try_place(NULL, 0, 10);
    for (size_t n = 0; n < 10; n++)
        WRITE_REFUSED(GREYSTROKE_NO_ROOM, 3, basis_1,
            greystroke_write_header(room, n, 3, basis_1, basis_2, 0));
    WRITE_REFUSED(GREYSTROKE_NO_ROOM, 0, none,
        greystroke_write_header(NULL, 0, 0, none, basis_1, 0));
}

/* ---- lists ---- */

/* Which record of the list is which. */
enum {
    CLIP_RECORD = 0,
    PLAYER_RECORD = 2,
    FIRST_SHAPE = 3,
    DISC_RECORD = 5,
    RING_RECORD = 6,
    BIG_DISC_RECORD = 7,
    BIG_RING_RECORD = 8,
    TRIANGLE_RECORD = 9
};

static uint8_t list[ROOM];
static size_t starts[16]; /* where each record begins; the last is the list's length */
static size_t records;

static void took(struct greystroke_write_answer answer) {
    if (answer.refusal != 0 || !same(answer.basis, basis_2)) {
        wrong = true;
        printf("the list was not written: %u\n", (unsigned)answer.refusal);
    }
    starts[records++] = answer.next;
}

static void write_list(void) {
    took(greystroke_write_header(list, sizeof list, 0, none, basis_2, 9));
    took(greystroke_write_clip(list, sizeof list, starts[records - 1], basis_2, whole));
    took(greystroke_write_level(list, sizeof list, starts[records - 1], basis_2, LEVEL));
    took(greystroke_write_player(list, sizeof list, starts[records - 1], basis_2, PLAYER));
    for (size_t s = 0; s < COUNT(lawful); s++)
        took(greystroke_write_shape(list, sizeof list, starts[records - 1], basis_2, lawful[s]));
    took(greystroke_write_end(list, sizeof list, starts[records - 1], basis_2));
}

/* Touches are counted of this player and of no other. */
static void expect_touches(struct greystroke_list_answer drawn, size_t player) {
    for (size_t p = 0; p < PLAYERS; p++)
        if ((drawn.touched[p] > 0) != (p == player)) {
            wrong = true;
            printf("%llu touches of player %zu\n", (unsigned long long)drawn.touched[p], p);
        }
}

/* A refusal of the header comes before those of the page and the lights, and one of the records
 * after them; without a page neither of the two is tried. To be squeezed, a list is refused alike
 * with room and without. */
static void try_list(uint32_t number, size_t place, const uint8_t *bytes, size_t length) {
    CHECK_REFUSED(number, place, check_list(bytes, length, sizeof page));
    CHECK_REFUSED(number, place, greystroke_check_without_page(bytes, length));
    CHECK_REFUSED(place > 0 ? GREYSTROKE_PAGE_TOO_SHORT : number, 0,
        greystroke_check_list(bytes, length, sizeof page - 1, NULL, 0));
    CHECK_REFUSED(place > 0 ? GREYSTROKE_LIGHTS : number, 0,
        greystroke_check_list(bytes, length, sizeof page, NULL, 0));
    SQUEEZE_REFUSED(number, place, greystroke_squeeze_list(room, sizeof room, bytes, length));
    SQUEEZE_REFUSED(number, place, greystroke_squeeze_list(NULL, 0, bytes, length));
    REFUSED(list, number, place, draw_list(page, sizeof page, bytes, length));
    expect_touches(draw_list(page, sizeof page, bytes, length), PLAYERS);
}

/* The list with another byte. */
static void try_byte(uint32_t number, size_t place, size_t at, uint8_t byte) {
    uint8_t kept = list[at];
    list[at] = byte;
    try_list(number, place, list, starts[records - 1]);
    list[at] = kept;
}

static void try_lengths(void) {
    size_t length = starts[records - 1];
    try_list(GREYSTROKE_CUT_SHORT, 0, NULL, 0);
    for (size_t n = 0, r = 0; n < length; n++) {
        if (n == starts[r + 1])
            r++;
        try_list(GREYSTROKE_CUT_SHORT, n < starts[0] ? 0 : starts[r], list, n);
    }
    for (size_t n = length + 1; n <= sizeof list; n++)
        try_list(GREYSTROKE_SURPLUS_BYTES, length, list, n);
    memcpy(long_list, list, length);
    try_list(GREYSTROKE_LIST_TOO_LONG, 0, long_list, sizeof long_list);
    for (size_t n = 0; n < sizeof page; n++) {
        CHECK_REFUSED(GREYSTROKE_PAGE_TOO_SHORT, 0, check_list(list, length, n));
        REFUSED(list, GREYSTROKE_PAGE_TOO_SHORT, 0, draw_list(page, n, list, length));
    }
    REFUSED(list, GREYSTROKE_PAGE_TOO_SHORT, 0, draw_list(NULL, 0, list, length));
}

/* All of the list but its clip, which is the one that a list starts with. */
static size_t squeezed_length(void) {
    return starts[records - 1] - (starts[CLIP_RECORD + 1] - starts[CLIP_RECORD]);
}

/* Room for less than the squeezed list. */
static void try_rooms(void) {
    size_t length = starts[records - 1];
    for (size_t n = 0; n < squeezed_length(); n++)
        SQUEEZE_REFUSED(GREYSTROKE_NO_ROOM, 0, greystroke_squeeze_list(room, n, list, length));
    SQUEEZE_REFUSED(GREYSTROKE_NO_ROOM, 0, greystroke_squeeze_list(NULL, 0, list, length));
}

/* Unfit lights for a list: at place 0, before its records and after its header and the page. */
static void try_list_lights(const uint16_t *unfit, size_t length) {
    size_t list_length = starts[records - 1];
    CHECK_REFUSED(GREYSTROKE_LIGHTS, 0,
        greystroke_check_list(list, list_length, sizeof page, unfit, length));
    REFUSED(list, GREYSTROKE_LIGHTS, 0,
        greystroke_draw_list(page, sizeof page, unfit, length, list, list_length));
    CHECK_REFUSED(GREYSTROKE_LIGHTS, 0,
        greystroke_check_list(list, starts[0], sizeof page, unfit, length));
    REFUSED(list, GREYSTROKE_LIGHTS, 0,
        greystroke_draw_list(page, sizeof page, unfit, length, list, list_length + 1));
    CHECK_REFUSED(GREYSTROKE_PAGE_TOO_SHORT, 0,
        greystroke_check_list(list, list_length, sizeof page - 1, unfit, length));
    REFUSED(list, GREYSTROKE_PAGE_TOO_SHORT, 0,
        greystroke_draw_list(NULL, 0, unfit, length, list, list_length));
    REFUSED(list, GREYSTROKE_CUT_SHORT, 0,
        greystroke_draw_list(NULL, 0, unfit, length, NULL, 0));
    CHECK_REFUSED(GREYSTROKE_LIST_TOO_LONG, 0,
        greystroke_check_list(long_list, sizeof long_list, 0, unfit, length));
}

static void try_unfit(const uint16_t *unfit, size_t length) {
    try_lights(unfit, length);
    try_list_lights(unfit, length);
}

/* Any number but 256; then two neighbours that are equal or fall, at each place. */
static void try_all_lights(void) {
    uint16_t unfit[GREYSTROKE_CODES + 1];
    try_unfit(NULL, 0);
    for (size_t k = 0; k < COUNT(unfit); k++)
        unfit[k] = (uint16_t)(k * k);
    for (size_t length = 0; length < GREYSTROKE_CODES; length += 15)
        try_unfit(unfit, length);
    unfit[GREYSTROKE_CODES] = UINT16_MAX;
    try_unfit(unfit, COUNT(unfit));
    for (size_t k = 0; k + 1 < GREYSTROKE_CODES; k++) {
        uint16_t kept = unfit[k];
        unfit[k] = unfit[k + 1];
        try_unfit(unfit, GREYSTROKE_CODES);
        unfit[k] = (uint16_t)(unfit[k + 1] + 1);
        try_unfit(unfit, GREYSTROKE_CODES);
        unfit[k] = kept;
    }
}

static void try_bytes(void) {
    for (size_t i = 0; i < 3; i++)
        try_byte(GREYSTROKE_WRONG_MARK, 0, i, 'i');
    try_byte(GREYSTROKE_WRONG_VERSION, 0, 3, 0);
    try_byte(GREYSTROKE_WRONG_VERSION, 0, 3, 3);
    try_byte(GREYSTROKE_WRONG_VERSION, 0, 4, 1);
    for (size_t i = 5; i < 9; i++)
        try_byte(GREYSTROKE_PAGE_SIZE, 0, i, i % 2 == 1 ? 0 : 5);
    for (size_t r = 0; r + 1 < records; r++)
        try_byte(GREYSTROKE_UNKNOWN_KIND, starts[r], starts[r], 11);
    /* in version 1 the player is the first record that is refused */
    try_byte(GREYSTROKE_UNKNOWN_KIND, starts[PLAYER_RECORD], 3, 1);
    try_byte(GREYSTROKE_PLAYER, starts[PLAYER_RECORD], starts[PLAYER_RECORD] + 1, PLAYERS);
    try_byte(GREYSTROKE_PLAYER, starts[PLAYER_RECORD], starts[PLAYER_RECORD] + 1, UINT8_MAX);
    try_byte(GREYSTROKE_CLIP, starts[CLIP_RECORD], starts[CLIP_RECORD] + 6, 1);
    for (size_t r = FIRST_SHAPE; r < FIRST_SHAPE + COUNT(lawful); r++)
        try_byte(GREYSTROKE_COORDINATE, starts[r], starts[r] + 2, 16);
    try_byte(GREYSTROKE_RADIUS, starts[DISC_RECORD], starts[DISC_RECORD] + 5, 0);
    try_byte(GREYSTROKE_RING_WIDTH, starts[RING_RECORD], starts[RING_RECORD] + 6, 4);
    try_byte(GREYSTROKE_RADIUS_TOO_LARGE, starts[BIG_DISC_RECORD], starts[BIG_DISC_RECORD] + 6, 4);
    try_byte(GREYSTROKE_RADIUS_TOO_LARGE, starts[BIG_RING_RECORD], starts[BIG_RING_RECORD] + 6, 4);
    try_byte(GREYSTROKE_RING_WIDTH, starts[BIG_RING_RECORD], starts[BIG_RING_RECORD] + 8, 4);
    for (size_t i = 1; i < 13; i += 2) {
        size_t at = starts[TRIANGLE_RECORD] + i;
        try_byte(GREYSTROKE_COORDINATE, starts[TRIANGLE_RECORD], at + 1, 128);
        try_byte(GREYSTROKE_TRIANGLE_SIZE, starts[TRIANGLE_RECORD], at, 200);
    }
    /* (13, 7) is on the line through the other two corners */
    try_byte(GREYSTROKE_STRAIGHT_CORNERS, starts[TRIANGLE_RECORD], starts[TRIANGLE_RECORD] + 9, 13);
}

static void try_records(void) {
    static const struct greystroke_basis narrower = {2, SIDE - 1, SIDE};
    static const uint8_t unknown[] = {11, 0, 0, 0, 0, 0, 0, 0, 0, 0};
    static const uint8_t player[] = {GREYSTROKE_KIND_PLAYER, PLAYERS};
    static const uint8_t no_big_disc[] = {GREYSTROKE_KIND_BIG_DISC, 0, 0, 0, 0, 0, 0};
    static const uint8_t no_triangle[13] = {GREYSTROKE_KIND_TRIANGLE};
    REFUSED(read, GREYSTROKE_CUT_SHORT, 0, greystroke_read_record(NULL, 0, basis_2));
    for (size_t r = 0; r + 1 < records; r++)
        for (size_t n = 0; n < starts[r + 1] - starts[r]; n++)
            REFUSED(read, GREYSTROKE_CUT_SHORT, 0,
                greystroke_read_record(list + starts[r], n, basis_2));
    for (size_t n = 1; n <= sizeof unknown; n++)
        REFUSED(read, GREYSTROKE_UNKNOWN_KIND, 0, greystroke_read_record(unknown, n, basis_2));
    REFUSED(read, GREYSTROKE_PLAYER, 0, greystroke_read_record(player, sizeof player, basis_2));
    for (size_t n = 1; n <= sizeof player; n++)
        REFUSED(read, GREYSTROKE_UNKNOWN_KIND, 0, greystroke_read_record(player, n, basis_1));
    REFUSED(read, GREYSTROKE_RADIUS, 0,
        greystroke_read_record(no_big_disc, sizeof no_big_disc, basis_2));
    for (size_t n = 1; n <= sizeof no_big_disc; n++)
        REFUSED(read, GREYSTROKE_UNKNOWN_KIND, 0,
            greystroke_read_record(no_big_disc, n, basis_1));
    REFUSED(read, GREYSTROKE_STRAIGHT_CORNERS, 0,
        greystroke_read_record(no_triangle, sizeof no_triangle, basis_2));
    for (size_t n = 1; n <= sizeof no_triangle; n++)
        REFUSED(read, GREYSTROKE_UNKNOWN_KIND, 0,
            greystroke_read_record(no_triangle, n, basis_1));
    REFUSED(read, GREYSTROKE_CLIP, 0,
        greystroke_read_record(list + starts[0], sizeof list - starts[0], narrower));
}

/* The reader answers the record that was written. */
static void expect_read(size_t record, uint32_t kind, const int32_t numbers[6]) {
    const uint8_t *bytes = list + starts[record];
    struct greystroke_read_answer read =
        greystroke_read_record(bytes, sizeof list - starts[record], basis_2);
    if (read.refusal != 0 || read.place != 0 || read.kind != kind
        || read.size != starts[record + 1] - starts[record]
        || memcmp(read.numbers, numbers, sizeof read.numbers) != 0) {
        wrong = true;
        printf("record %zu was not read back\n", record);
    }
}

/* The call finds this column, or none. */
static void expect_column(
    struct greystroke_column_answer answer, uint32_t found, uint64_t column) {
    if (answer.refusal != 0 || answer.place != 0 || answer.found != found
        || answer.column != column) {
        wrong = true;
        printf("another last column: %u, %llu\n", (unsigned)answer.found,
            (unsigned long long)answer.column);
    }
}

/* A pixel next to the centre is covered whole, whatever kind the disc has. */
static void expect_whole(struct greystroke_shape shape) {
    struct greystroke_coverage_answer answer = greystroke_coverage(shape, 4, 4);
    if (answer.refusal != 0 || answer.place != 0 || answer.n != 512 || answer.d != 512) {
        wrong = true;
        printf("kind %u does not cover the pixel\n", (unsigned)shape.kind);
    }
}

/* Three corners of a pixel have half of it between them, in any order; any n and d of that quotient
 * will do. */
static void expect_half(int32_t x0, int32_t y0, int32_t x1, int32_t y1, int32_t x2, int32_t y2) {
    struct greystroke_coverage_answer answer =
        greystroke_coverage(greystroke_triangle(x0, y0, x1, y1, x2, y2), 4, 4);
    if (answer.refusal != 0 || answer.place != 0 || answer.d == 0 || 2 * answer.n != answer.d) {
        wrong = true;
        printf("a triangle does not cover half of the pixel\n");
    }
}

/* What the shapes of the list count on 8 by 8 pixels: two lines 3 * 4 each, disc and ring 4 * 3 * 3
 * each, the big ones all 64 each, and the triangle 4 * 6. */
enum { CEILING = 2 * 12 + 2 * 36 + 2 * 64 + 24 };

static void expect_checked(struct greystroke_check_answer answer) {
    if (answer.refusal != 0 || answer.place != 0 || !same(answer.basis, basis_2)
        || answer.background != 9 || answer.ceiling != CEILING) {
        wrong = true;
        printf("the list was not checked: %u, ceiling %llu\n", (unsigned)answer.refusal,
            (unsigned long long)answer.ceiling);
    }
}

/* The squeezed list is written into room of so many bytes, and no byte past it. */
static void expect_squeezed(size_t room_length) {
    size_t length = squeezed_length();
    size_t clip_end = starts[CLIP_RECORD + 1];
    struct greystroke_squeeze_answer answer =
        greystroke_squeeze_list(room, room_length, list, starts[records - 1]);
    if (answer.refusal != 0 || answer.place != 0 || answer.length != length
        || memcmp(room, list, starts[CLIP_RECORD]) != 0
        || memcmp(room + starts[CLIP_RECORD], list + clip_end, starts[records - 1] - clip_end) != 0
        || !all_are(room + length, sizeof room - length)) {
        wrong = true;
        printf("the list was not squeezed: %u, length %zu\n", (unsigned)answer.refusal,
            answer.length);
    }
    memset(room, BYTE, sizeof room);
}

/* What is lawful is taken. */
static void try_lawful(void) {
    static const struct greystroke_clip corner = {6, 6, SIDE, SIDE};
    static const int32_t player[6] = {PLAYER};
    size_t length = starts[records - 1];
    for (size_t s = 0; s < 2; s++) {
        expect_column(greystroke_last_column(SIDE, SIDE, whole, lawful[s]), 1, 3);
        expect_column(greystroke_last_column(SIDE, SIDE, corner, lawful[s]), 0, 0);
    }
    for (int32_t radius = 2; radius <= 1023; radius++) {
        expect_whole(greystroke_disc(4, 4, radius));
        expect_whole(greystroke_big_disc(4, 4, radius));
        expect_whole(greystroke_ring(4, 4, radius, radius));
        expect_whole(greystroke_big_ring(4, 4, radius, radius));
    }
    expect_half(4, 4, 5, 4, 4, 5);
    expect_half(5, 4, 4, 5, 4, 4);
    expect_half(4, 5, 5, 4, 4, 4);
    expect_read(PLAYER_RECORD, GREYSTROKE_KIND_PLAYER, player);
    for (size_t s = 0; s < COUNT(lawful); s++)
        expect_read(FIRST_SHAPE + s, lawful[s].kind, lawful[s].numbers);
    expect_checked(check_list(list, length, sizeof page));
    expect_checked(greystroke_check_without_page(list, length));
    expect_squeezed(squeezed_length());
    expect_squeezed(squeezed_length() + 1);
    expect_squeezed(sizeof room);
    struct greystroke_list_answer drawn =
        draw_list(page, sizeof page, list, length);
    if (drawn.refusal != 0 || drawn.w != SIDE || drawn.h != SIDE
        || drawn.touched[PLAYER] > CEILING) {
        wrong = true;
        printf("the list was not drawn\n");
    }
    expect_touches(drawn, PLAYER);
}

int main(void) {
    memset(page, BYTE, sizeof page);
    memset(room, BYTE, sizeof room);
    greystroke_code_lights(lights);
    write_list();
    try_shapes();
    try_measures();
    try_triangles();
    try_pixels();
    try_columns();
    try_pages();
    try_versions();
    try_players();
    try_places();
    try_lengths();
    try_rooms();
    try_all_lights();
    try_bytes();
    try_records();
    try_lawful();
    printf("misuse: %lu calls refused\n", calls);
    return wrong ? 1 : 0;
}
