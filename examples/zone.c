/* Writes a list of one disc of a player, draws it for a screen that shows each code in proportion,
 * tells how many pixels the player touched, and sums the light left in the page's upper left
 * quarter. */
#include "greystroke.h"

#include <inttypes.h>
#include <stdio.h>

enum { WIDTH = 32, HEIGHT = 32, BACKGROUND = 255, PLAYER = 3, LEVEL = 0, RADIUS = 12 };

static uint8_t list[64];
static uint8_t page[WIDTH * HEIGHT];
static uint16_t lights[GREYSTROKE_CODES];

/* Hands back how many bytes were written, or 0 after a refusal. */
static size_t write_list(void) {
    struct greystroke_shape disc = greystroke_disc(WIDTH / 2, HEIGHT / 2, RADIUS);
    struct greystroke_basis none = {0, 0, 0};
    struct greystroke_basis basis = {GREYSTROKE_LIST_VERSION, WIDTH, HEIGHT};
    struct greystroke_write_answer at =
        greystroke_write_header(list, sizeof list, 0, none, basis, BACKGROUND);
    if (at.refusal == 0)
        at = greystroke_write_player(list, sizeof list, at.next, at.basis, PLAYER);
    if (at.refusal == 0)
        at = greystroke_write_level(list, sizeof list, at.next, at.basis, LEVEL);
    if (at.refusal == 0)
        at = greystroke_write_shape(list, sizeof list, at.next, at.basis, disc);
    if (at.refusal == 0)
        at = greystroke_write_end(list, sizeof list, at.next, at.basis);
    return at.refusal == 0 ? at.next : 0;
}

static uint64_t light(size_t left, size_t top, size_t right, size_t bottom) {
    uint64_t sum = 0;
    for (size_t y = top; y < bottom; y++)
        for (size_t x = left; x < right; x++)
            sum += lights[page[y * WIDTH + x]];
    return sum;
}

int main(void) {
    size_t length = write_list();
    greystroke_code_lights(lights);
    struct greystroke_list_answer drawn =
        greystroke_draw_list(page, sizeof page, lights, GREYSTROKE_CODES, list, length);
    if (drawn.refusal != 0) {
        printf("refused %" PRIu32 " at %zu\n", drawn.refusal, drawn.place);
        return 1;
    }
    printf("player %d touched %" PRIu64 "\n", PLAYER, drawn.touched[PLAYER]);
    printf("light %" PRIu64 "\n", light(0, 0, WIDTH / 2, HEIGHT / 2));
    printf("light %" PRIu64 "\n", light(0, 0, WIDTH, HEIGHT));
    return 0;
}
