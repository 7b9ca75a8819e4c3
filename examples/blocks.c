/*
 * Keeps a register in blocks: blocks LINE.. adds each line under the numbers 1, 2, and so on, with its first placement. Then one byte of the first entry changes, as in a bad copy, and
 * what survives is listed and goes into an empty area.
 */
#include <hwemiduk.h>
#include <stdio.h>
#include <string.h>

#define BLOCKS 16

static uint8_t area[BLOCKS * HWEMIDUK_BLOCK], rescued[BLOCKS * HWEMIDUK_BLOCK], line[HWEMIDUK_LINE];
static hwemiduk_tables tables;

/* The first placement of a line; zeros where it has none or is refused, which hwemiduk_blocks_add then says. */
static hwemiduk_listing first_placement(const char *text)
{
    size_t place;
    hwemiduk_listing listing = HWEMIDUK_LISTING;
    if (hwemiduk_read((const uint8_t *)text, strlen(text), HWEMIDUK_OF(&tables), &place) == HWEMIDUK_OK)
        hwemiduk_next(HWEMIDUK_OF(&tables), &listing);
    return listing;
}

/* Lists every entry that begins in a sound block, and adds those that are fetched to the empty area. */
static void list(const char *when)
{
    size_t from = 0, block, length, place, unused, first, further, other, unsound;
    uint32_t number;
    hwemiduk_position placement[HWEMIDUK_COPIES];
    hwemiduk_blocks_survey(area, sizeof area, &unused, &first, &further, &other, &unsound);
    printf("%s: %zu of %d blocks are free, %zu unsound\n", when, unused, BLOCKS, unsound);
    while (hwemiduk_blocks_entry(area, sizeof area, from, &block, &number) == HWEMIDUK_OK) {
        uint8_t answer = hwemiduk_blocks_fetch(area, sizeof area, number, placement, HWEMIDUK_COPIES, line, sizeof line, &length);
        if (answer == HWEMIDUK_OK) {
            printf("entry %u at block %zu: %.*s\n", (unsigned)number, block, (int)length, (const char *)line);
            hwemiduk_blocks_add(rescued, sizeof rescued, number, placement, HWEMIDUK_COPIES, line, length, &place);
        } else {
            printf("entry %u at block %zu: refused: %d: %s\n", (unsigned)number, block, answer, hwemiduk_words(answer));
        }
        from = block + 1;
    }
}

int main(int argc, char **argv)
{
    size_t place, length;
    hwemiduk_position placement[HWEMIDUK_COPIES];
    if (argc < 2) {
        fprintf(stderr, "usage: blocks LINE..\n");
        return 2;
    }
    hwemiduk_blocks_empty(area, sizeof area);
    for (int i = 1; i < argc; i++) {
        hwemiduk_listing listing = first_placement(argv[i]);
        uint8_t answer = hwemiduk_blocks_add(area, sizeof area, (uint32_t)i, listing.at, HWEMIDUK_COPIES, (const uint8_t *)argv[i], strlen(argv[i]), &place);
        if (answer != HWEMIDUK_OK)
            printf("line %d: refused: %d at %zu: %s\n", i, answer, place, hwemiduk_words(answer));
    }
    hwemiduk_blocks_empty(rescued, sizeof rescued);
    list("kept");
    area[20] ^= 1;
    hwemiduk_blocks_empty(rescued, sizeof rescued);
    list("a bad copy");
    uint8_t answer = hwemiduk_blocks_fetch(area, sizeof area, 1, placement, HWEMIDUK_COPIES, line, sizeof line, &length);
    if (answer != HWEMIDUK_OK)
        printf("entry 1: refused: %d: %s\n", answer, hwemiduk_words(answer));
    memcpy(area, rescued, sizeof area);
    list("rescued");
    return 0;
}
