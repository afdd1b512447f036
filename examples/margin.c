/* margin X0 Y0 X1 Y1 < LIST
 *
 * Tells the margin of a zone, the pixels with X0 <= x < X1 and Y0 <= y < Y1, after each shape of a
 * list: how far the light of the zone may be from that of the exact blend, which never rounds
 * (R10.4, R10.5), in thousandths and rounded up. Then it draws the list, and sums the light of the
 * zone. The screen shows each code in proportion; for another fill in its lights. The exit status is
 * 0, 1 where the list is refused and 2 for anything else, such as a zone that is not on the page.
 *
 * Each pixel has a margin, 0 at first. A shape that covers it whole, inside the clip in force,
 * leaves the level itself, and the margin is 0 again. Any other touch adds its own. */
#include "greystroke.h"

#include <inttypes.h>
#include <stdio.h>
#include <stdlib.h>

enum { LONGEST_LIST = 65536, HEADER = 10, SIDE = 1024, LAST = GREYSTROKE_CODES - 1 };

static uint8_t list[LONGEST_LIST + 1];
static uint8_t page[SIDE * SIDE];
/* In thousandths of a light. */
static uint64_t margins[SIDE][SIDE];
static uint16_t lights[GREYSTROKE_CODES];

static uint64_t widest_gap(void) {
    uint64_t widest = 0;
    for (size_t code = 0; code < LAST; code++)
        if (widest < (uint64_t)(lights[code + 1] - lights[code]))
            widest = (uint64_t)(lights[code + 1] - lights[code]);
    return widest;
}

/* Half the widest gap, and the span of the lights times s/(4*l) for an approximate line, rounded up
 * to a thousandth. */
static uint64_t margin_of(struct greystroke_shape shape) {
    uint64_t half = 500 * widest_gap();
    if (shape.kind != GREYSTROKE_KIND_APPROXIMATE_LINE)
        return half;
    uint64_t across = (uint64_t)labs((long)shape.numbers[2] - shape.numbers[0]);
    uint64_t down = (uint64_t)labs((long)shape.numbers[3] - shape.numbers[1]);
    uint64_t l = across > down ? across : down, s = across > down ? down : across;
    uint64_t span = lights[LAST] - lights[0];
    return half + (1000 * span * s + 4 * l - 1) / (4 * l);
}

static int keeps(struct greystroke_clip clip, uint32_t x, uint32_t y) {
    return clip.x0 <= x && x < clip.x1 && clip.y0 <= y && y < clip.y1;
}

/* What a shape makes of the margins of the zone. Hands back their sum. */
static uint64_t touch(
    struct greystroke_shape shape, struct greystroke_clip clip, struct greystroke_clip zone) {
    uint64_t own = margin_of(shape), sum = 0;
    for (uint32_t y = zone.y0; y < zone.y1; y++)
        for (uint32_t x = zone.x0; x < zone.x1; x++) {
            struct greystroke_coverage_answer cover =
                greystroke_coverage(shape, (int32_t)x, (int32_t)y);
            if (keeps(clip, x, y) && cover.n > 0)
                margins[y][x] = cover.n == cover.d ? 0 : margins[y][x] + own;
            sum += margins[y][x];
        }
    return sum;
}

/* Goes through the records of a list that is accepted. */
static void tell_margins(size_t length, struct greystroke_basis basis, struct greystroke_clip zone) {
    struct greystroke_clip clip = {0, 0, basis.w, basis.h};
    struct greystroke_read_answer record;
    for (size_t at = HEADER;; at += record.size) {
        record = greystroke_read_record(list + at, length - at, basis);
        const int32_t *numbers = record.numbers;
        struct greystroke_shape shape = {record.kind,
            {numbers[0], numbers[1], numbers[2], numbers[3], numbers[4], numbers[5]}};
        switch (record.kind) {
        case GREYSTROKE_KIND_END:
            return;
        case GREYSTROKE_KIND_CLIP:
            clip = (struct greystroke_clip){(uint32_t)numbers[0], (uint32_t)numbers[1],
                (uint32_t)numbers[2], (uint32_t)numbers[3]};
            break;
        case GREYSTROKE_KIND_LEVEL:
        case GREYSTROKE_KIND_PLAYER:
            break;
        default: {
            uint64_t sum = touch(shape, clip, zone);
            printf("shape at %zu: margin %" PRIu64 ".%03" PRIu64 "\n", at, sum / 1000, sum % 1000);
        }
        }
    }
}

static uint64_t light(uint32_t w, struct greystroke_clip zone) {
    uint64_t sum = 0;
    for (size_t y = zone.y0; y < zone.y1; y++)
        for (size_t x = zone.x0; x < zone.x1; x++)
            sum += lights[page[y * w + x]];
    return sum;
}

/* Whether a word is a number from 0 to the longest side of a page, and which. A zone that was
 * mistyped must not be told a margin. */
static int number(const char *word, uint32_t *value) {
    char *end;
    unsigned long read = strtoul(word, &end, 10);
    if (*word < '0' || *word > '9' || *end != 0 || read > SIDE)
        return 0;
    *value = (uint32_t)read;
    return 1;
}

int main(int argc, char **argv) {
    struct greystroke_clip zone;
    if (argc != 5 || !number(argv[1], &zone.x0) || !number(argv[2], &zone.y0) ||
        !number(argv[3], &zone.x1) || !number(argv[4], &zone.y1)) {
        fprintf(stderr, "usage: margin X0 Y0 X1 Y1 < LIST\n");
        return 2;
    }
    size_t length = fread(list, 1, sizeof list, stdin);
    greystroke_code_lights(lights);
    struct greystroke_check_answer checked =
        greystroke_check_list(list, length, sizeof page, lights, GREYSTROKE_CODES);
    if (checked.refusal != 0) {
        printf("refused %" PRIu32 " at %zu\n", checked.refusal, checked.place);
        return 1;
    }
    if (zone.x0 >= zone.x1 || zone.x1 > checked.basis.w || zone.y0 >= zone.y1 ||
        zone.y1 > checked.basis.h) {
        fprintf(stderr, "margin: the zone has no pixel, or is not on the page\n");
        return 2;
    }
    tell_margins(length, checked.basis, zone);
    /* What was checked is not refused. */
    (void)greystroke_draw_list(page, sizeof page, lights, GREYSTROKE_CODES, list, length);
    printf("light %" PRIu64 "\n", light(checked.basis.w, zone));
    return 0;
}
