/* Draws a disc for a screen with a gamma, once by codes and once by the lights of the screen, and
 * tells how much of the light that it should give the disc gives.
 *
 * A technician measures the lights of a screen so:
 *
 * 1. Darken the room and let the screen warm up. Put a light meter in front of its middle.
 * 2. Show each code from 0 to 255 over the whole screen, and write down what the meter reads.
 * 3. Scale the readings so that the last is at most 65,535. The unit does not matter: only the
 *    shares between the readings do, so that scaling to the whole range loses least.
 * 4. See that each light is greater than the one before. Next to black a meter often reads the same
 *    for several codes, or the scaled readings round to the same: give each of these one more than
 *    the one before. Where readings fall further up, something else lit the meter: read them again.
 * 5. Keep the 256 lights with the screen. When it is changed or set anew, measure again. */
#include "greystroke.h"

#include <inttypes.h>
#include <stdio.h>

enum { SIDE = 12, BLACK = 0, WHITE = 255, RADIUS = 5 };

/* What the meter reads for a code: a screen on which light grows nearly as the code to the power
 * of 2.2. It shows code 128 far darker than half of white. */
static uint64_t reading(uint64_t code) {
    return code * code * (code + 1020);
}

/* Steps 3 and 4. */
static void scale_readings(uint16_t lights[GREYSTROKE_CODES]) {
    for (size_t code = 0; code < GREYSTROKE_CODES; code++) {
        lights[code] = (uint16_t)(reading(code) * UINT16_MAX / reading(WHITE));
        if (code > 0 && lights[code] <= lights[code - 1])
            lights[code] = (uint16_t)(lights[code - 1] + 1);
    }
}

/* The light that the disc should give, 512 times as much: of each pixel the share that it covers,
 * of the light of white. */
static uint64_t wanted_light(struct greystroke_shape disc, const uint16_t *screen) {
    uint64_t sum = 0;
    for (int32_t y = 0; y < SIDE; y++)
        for (int32_t x = 0; x < SIDE; x++)
            sum += greystroke_coverage(disc, x, y).n * screen[WHITE];
    return sum;
}

/* Draws the disc by some lights, and tells what the screen then shows. */
static int show(const char *how, struct greystroke_shape disc, const uint16_t *lights,
    const uint16_t *screen) {
    static const struct greystroke_clip whole = {0, 0, SIDE, SIDE};
    uint8_t page[SIDE * SIDE] = {BLACK};
    struct greystroke_draw_answer drawn = greystroke_draw_shape(
        page, sizeof page, SIDE, SIDE, lights, GREYSTROKE_CODES, whole, WHITE, disc);
    if (drawn.refusal != 0) {
        printf("refused %" PRIu32 "\n", drawn.refusal);
        return 1;
    }
    printf("%s, the upper rows of the disc:\n", how);
    for (size_t y = 1; y <= 3; y++)
        for (size_t x = 0; x < SIDE; x++)
            printf("%4d%s", page[y * SIDE + x], x + 1 < SIDE ? "" : "\n");
    uint64_t light = 0;
    for (size_t k = 0; k < sizeof page; k++)
        light += 512 * (uint64_t)screen[page[k]];
    uint64_t share = 1000 * light / wanted_light(disc, screen);
    printf("the disc gives %" PRIu64 " thousandths of its light\n", share);
    return 0;
}

int main(void) {
    uint16_t codes[GREYSTROKE_CODES], screen[GREYSTROKE_CODES];
    struct greystroke_shape disc = greystroke_disc(SIDE / 2, SIDE / 2, RADIUS);
    greystroke_code_lights(codes);
    scale_readings(screen);
    printf("lights %d %d %d %d .. %d .. %d\n", screen[0], screen[1], screen[2], screen[3],
        screen[128], screen[WHITE]);
    return show("by codes", disc, codes, screen) || show("by lights", disc, screen, screen);
}
