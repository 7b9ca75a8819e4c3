/*
 * The register kept in blocks, written by hand from document 02 (L5): what areas hold to the byte, what each call answers, and what it leaves. All that is lent lies on the heap in
 * exactly the sizes asked for, with junk in it or, before an area is made empty, nothing: under valgrind, a call that reads or writes past what it is lent, or uses what nobody wrote,
 * is found out.
 */
#include <hwemiduk.h>
#include <stdio.h>
#include <stdlib.h>
#include <string.h>

#define JUNK 0xA5
#define AT(block) ((size_t)(block) * HWEMIDUK_BLOCK)
#define COPIES_SIZE (HWEMIDUK_COPIES * sizeof(hwemiduk_position))
#define SUM_AT 508

static int wrong = 0;

static void expect(int holds, const char *what, unsigned long which)
{
    if (!holds) {
        printf("not so: %s (%lu)\n", what, which);
        wrong = 1;
    }
}

static void *room(size_t size)
{
    void *lent = malloc(size);
    if (lent == NULL)
        exit(9);
    return lent;
}

/* A copy on the heap, of just this size. */
static uint8_t *copied(const void *from, size_t size)
{
    uint8_t *copy = (uint8_t *)room(size);
    memcpy(copy, from, size);
    return copy;
}

static int is_junk(const void *area, size_t size)
{
    const uint8_t *byte = (const uint8_t *)area;
    for (size_t i = 0; i < size; i++)
        if (byte[i] != JUNK)
            return 0;
    return 1;
}

static uint8_t *empty_of(size_t blocks)
{
    uint8_t *area = (uint8_t *)room(AT(blocks));
    expect(hwemiduk_blocks_empty(area, AT(blocks)) == HWEMIDUK_OK, "an empty area is made", blocks);
    return area;
}

/* The last four bytes of a block: the sum of (i + 1) times byte i, low bytes first. */
static void seal(uint8_t *block)
{
    uint32_t sum = 0;
    for (uint32_t i = 0; i < SUM_AT; i++)
        sum += (i + 1) * block[i];
    for (int i = 0; i < 4; i++)
        block[SUM_AT + i] = (uint8_t)(sum >> 8 * i);
}

/* A line of so many bytes, 101 or more, which is its own canonical one: 100 residues, and brackets behind the last. */
static uint8_t *line_of(size_t length)
{
    uint8_t *line = (uint8_t *)room(length);
    size_t rest = length - 100, brackets = (rest + 129) / 130, end = 100;
    memset(line, 'A', 100);
    for (size_t k = 0; k < brackets; k++) {
        size_t size = rest * (k + 1) / brackets - rest * k / brackets;
        memset(line + end, 'x', size);
        line[end] = '[';
        line[end + size - 1] = ']';
        end += size;
    }
    return line;
}

/*
 * Adds a line with a placement, both on the heap in their own sizes; -1 behind the used positions. What it answers is told, and `place` is where it is to be left: JUNK on success.
 * A refusal changes no byte of the area.
 */
static void adds(uint8_t *area, size_t size, uint32_t number, const int *used, const char *text, size_t length, uint8_t answer, size_t place)
{
    size_t told = JUNK;
    uint8_t *before = copied(area, size), *line = copied(text, length);
    hwemiduk_position *placement = (hwemiduk_position *)room(COPIES_SIZE);
    memset(placement, 0, COPIES_SIZE);
    for (int i = 0; used[i] >= 0; i++)
        placement[i] = (hwemiduk_position)used[i];
    expect(hwemiduk_blocks_add(area, size, number, placement, HWEMIDUK_COPIES, line, length, &told) == answer, "what adding answers", number);
    expect(told == place, "the place that adding leaves", number);
    expect(answer == HWEMIDUK_OK || memcmp(area, before, size) == 0, "a refused entry changes no byte", number);
    free(placement);
    free(line);
    free(before);
}

static const int nothing[] = { -1 };

static void added(uint8_t *area, size_t size, uint32_t number, const int *used, const char *line)
{
    adds(area, size, number, used, line, strlen(line), HWEMIDUK_OK, JUNK);
}

/* Fetches into an output of just the length needed, into one a byte shorter, and into a longer one. */
static void fetches(const uint8_t *area, size_t size, uint32_t number, const int *used, const void *line, size_t length)
{
    for (int spare = -1; spare <= 3; spare++) {
        size_t out_len = length + (size_t)(spare + 1) - 1, told = JUNK, lent = HWEMIDUK_COPIES + (spare > 0);
        uint8_t *out = (uint8_t *)room(out_len), *before = copied(area, size);
        hwemiduk_position *placement = (hwemiduk_position *)room(lent * sizeof *placement);
        memset(out, JUNK, out_len);
        memset(placement, JUNK, lent * sizeof *placement);
        uint8_t answer = hwemiduk_blocks_fetch(area, size, number, placement, lent, out, out_len, &told);
        expect(told == length, "the length, or the length needed", number);
        if (spare < 0) {
            expect(answer == HWEMIDUK_SHORT_OUTPUT, "one byte less is too short", number);
            expect(is_junk(out, out_len) && is_junk(placement, lent * sizeof *placement), "15 writes nothing but the length", number);
        } else {
            expect(answer == HWEMIDUK_OK && memcmp(out, line, length) == 0, "the canonical line is fetched", number);
            expect(is_junk(out + length, out_len - length), "what lies behind the line stays", number);
            int i = 0;
            for (; used[i] >= 0; i++)
                expect(placement[i] == used[i], "the placement is fetched", number);
            for (; i < HWEMIDUK_COPIES; i++)
                expect(placement[i] == 0, "unused entries are 0", number);
            expect(is_junk(placement + HWEMIDUK_COPIES, (lent - HWEMIDUK_COPIES) * sizeof *placement), "what lies behind the placement stays", number);
        }
        expect(memcmp(area, before, size) == 0, "fetching changes no byte of the area", number);
        free(placement);
        free(before);
        free(out);
    }
}

/* Fetching and removing are refused with this number, and change nothing that is lent. */
static void refuses(uint8_t *area, size_t size, uint32_t number, uint8_t answer)
{
    size_t told = JUNK;
    uint8_t *out = (uint8_t *)room(HWEMIDUK_LINE), *before = copied(area, size);
    hwemiduk_position *placement = (hwemiduk_position *)room(COPIES_SIZE);
    memset(out, JUNK, HWEMIDUK_LINE);
    memset(placement, JUNK, COPIES_SIZE);
    expect(hwemiduk_blocks_fetch(area, size, number, placement, HWEMIDUK_COPIES, out, HWEMIDUK_LINE, &told) == answer, "fetching is refused", number);
    expect(hwemiduk_blocks_remove(area, size, number) == answer, "removing is refused", number);
    expect(told == JUNK && is_junk(out, HWEMIDUK_LINE) && is_junk(placement, COPIES_SIZE), "a refusal writes nothing", number);
    expect(memcmp(area, before, size) == 0, "a refusal changes no byte of the area", number);
    free(placement);
    free(before);
    free(out);
}

static void surveys(const uint8_t *area, size_t size, size_t unused, size_t first, size_t further, size_t other, size_t unsound)
{
    size_t told[5] = { JUNK, JUNK, JUNK, JUNK, JUNK };
    expect(hwemiduk_blocks_survey(area, size, told, told + 1, told + 2, told + 3, told + 4) == HWEMIDUK_OK, "blocks are counted", size);
    expect(told[0] == unused && told[1] == first && told[2] == further && told[3] == other && told[4] == unsound, "each block is counted once", size);
    expect((told[0] + told[1] + told[2] + told[3] + told[4]) * HWEMIDUK_BLOCK == size, "and all of them are", size);
}

/* The numbers of the sound first blocks, in order. */
static void lists(const uint8_t *area, size_t size, const uint32_t *numbers, size_t count)
{
    size_t block = 0, from = 0;
    uint32_t number = 0;
    for (size_t i = 0; i < count; i++) {
        expect(hwemiduk_blocks_entry(area, size, from, &block, &number) == HWEMIDUK_OK && block >= from && number == numbers[i], "an entry is listed", numbers[i]);
        from = block + 1;
    }
    block = JUNK;
    number = JUNK;
    expect(hwemiduk_blocks_entry(area, size, from, &block, &number) == HWEMIDUK_NO_FURTHER, "no further entry is listed", count);
    expect(hwemiduk_blocks_entry(area, size, SIZE_MAX, &block, &number) == HWEMIDUK_NO_FURTHER, "nor is one far behind the area", count);
    expect(block == JUNK && number == JUNK, "17 tells nothing", count);
}

static void to_the_byte(void)
{
    static const uint8_t unused[] = { 1, 0, 0, 255, 0, 0, 0, 0 };
    static const uint8_t begin[] = { 2, 17, 0, 255, 3, 2, 1, 0, 1, 2, 0, 0, 0, 0, 0, 0, '[', '+', '1', ']', '^', '2', '?', 'A', 'C', 0 };
    static const int one_two[] = { 1, 2, -1 };
    static const uint32_t numbers[] = { 66051, 3, 2 };
    uint8_t *area = empty_of(5), expected[HWEMIDUK_BLOCK];
    memset(expected, 0, sizeof expected);
    memcpy(expected, unused, sizeof unused);
    expected[SUM_AT] = 253;
    expected[SUM_AT + 1] = 3;
    for (int block = 0; block < 5; block++)
        expect(memcmp(area + AT(block), expected, sizeof expected) == 0, "a free block to the byte", (unsigned long)block);
    /* 66051 is 0x010203; the canonical line is kept */
    added(area, AT(5), 66051, one_two, "[+01]^2?ac");
    memset(expected, 0, sizeof expected);
    memcpy(expected, begin, sizeof begin);
    seal(expected);
    expect(memcmp(area, expected, sizeof expected) == 0, "an entry to the byte", 0);
    fetches(area, AT(5), 66051, one_two, "[+1]^2?AC", 9);
    /* blocks 1, 3 and 4 are free: an entry of three is 1, 3, 4 */
    added(area, AT(5), 1, nothing, "A");
    added(area, AT(5), 2, nothing, "C");
    expect(hwemiduk_blocks_remove(area, AT(5), 1) == HWEMIDUK_OK, "an entry is removed", 1);
    uint8_t *line = line_of(1000), *longer = line_of(1493);
    adds(area, AT(5), 3, nothing, (const char *)longer, 1493, HWEMIDUK_NO_ROOM, 0);
    adds(area, AT(5), 3, nothing, (const char *)line, 1000, HWEMIDUK_OK, JUNK);
    static const uint8_t heads[3][8] = { { 2, 244, 1, 3, 3, 0, 0, 0 }, { 3, 244, 1, 4, 3, 0, 0, 0 }, { 3, 8, 0, 255, 3, 0, 0, 0 } };
    static const int taken[3] = { 1, 3, 4 };
    for (int k = 0; k < 3; k++)
        expect(memcmp(area + AT(taken[k]), heads[k], 8) == 0, "the lowest free blocks are taken", (unsigned long)k);
    fetches(area, AT(5), 3, nothing, line, 1000);
    lists(area, AT(5), numbers, 3);
    surveys(area, AT(5), 0, 3, 2, 0, 0);
    free(longer);
    free(line);
    free(area);
}

/* Lines of lengths where a block more is needed, into just as many blocks, and into one fewer. */
static void lengths(void)
{
    static const size_t needed[][2] = { { 491, 1 }, { 492, 1 }, { 493, 2 }, { 992, 2 }, { 993, 3 }, { 3992, 8 }, { 3993, 9 }, { 4095, 9 }, { 4096, 9 } };
    static const uint32_t numbers[] = { 0, 255, 256, 65536, UINT32_MAX };
    for (size_t i = 0; i < sizeof needed / sizeof *needed; i++)
        for (size_t k = 0; k < sizeof numbers / sizeof *numbers; k++) {
            size_t length = needed[i][0], size = AT(needed[i][1]);
            uint8_t *line = line_of(length), *area = empty_of(needed[i][1]), *before = copied(area, size);
            adds(area, size, numbers[k], nothing, (const char *)line, length, HWEMIDUK_OK, JUNK);
            fetches(area, size, numbers[k], nothing, line, length);
            refuses(area, size, numbers[k] ^ 1, HWEMIDUK_NO_ENTRY);
            adds(area, size, numbers[k], nothing, "A", 1, HWEMIDUK_ENTRY_PRESENT, 0);
            adds(area, size, numbers[k] ^ 1, nothing, "A", 1, HWEMIDUK_NO_ROOM, 0);
            expect(hwemiduk_blocks_remove(area, size, numbers[k]) == HWEMIDUK_OK && memcmp(area, before, size) == 0, "removing gives the area that was", numbers[k]);
            if (needed[i][1] > 1) {
                uint8_t *small = empty_of(needed[i][1] - 1);
                adds(small, size - HWEMIDUK_BLOCK, numbers[k], nothing, (const char *)line, length, HWEMIDUK_NO_ROOM, 0);
                free(small);
            }
            free(before);
            free(area);
            free(line);
        }
}

/* 26 for areas that are not 1 to 128 whole blocks, whatever they hold; before it, of adding, the line's own refusals and 18, and before all of them 13. */
static void no_areas(void)
{
    static const size_t sizes[] = { 0, 1, 511, 513, 65535, 65537, 129 * 512 };
    static const int one[] = { 1, -1 };
    for (size_t i = 0; i < sizeof sizes / sizeof *sizes; i++) {
        uint8_t *area = (uint8_t *)room(sizes[i]), out[1];
        hwemiduk_position placement[HWEMIDUK_COPIES] = { 0 };
        memset(area, JUNK, sizes[i]);
        size_t told[5] = { JUNK, JUNK, JUNK, JUNK, JUNK };
        uint32_t number = JUNK;
        expect(hwemiduk_blocks_empty(area, sizes[i]) == HWEMIDUK_NO_BLOCKS, "26 of making one empty", sizes[i]);
        refuses(area, sizes[i], 0, HWEMIDUK_NO_BLOCKS);
        adds(area, sizes[i], 0, nothing, "A", 1, HWEMIDUK_NO_BLOCKS, 0);
        adds(area, sizes[i], 0, nothing, "A[U:35]", 7, HWEMIDUK_NAME_OF_DIGITS, 2);
        adds(area, sizes[i], 0, nothing, "", 0, HWEMIDUK_EMPTY_LINE, 0);
        adds(area, sizes[i], 0, one, "A", 1, HWEMIDUK_NOT_ALLOWED, 0);
        expect(hwemiduk_blocks_add(area, sizes[i], 0, placement, HWEMIDUK_COPIES - 1, (const uint8_t *)"", 0, told) == HWEMIDUK_SHORT_AREA && told[0] == 0, "13 of adding", sizes[i]);
        told[0] = JUNK;
        expect(hwemiduk_blocks_fetch(area, sizes[i], 0, placement, HWEMIDUK_COPIES - 1, out, 1, told) == HWEMIDUK_SHORT_AREA, "13 of fetching", sizes[i]);
        expect(hwemiduk_blocks_entry(area, sizes[i], 0, told, &number) == HWEMIDUK_NO_BLOCKS, "26 of listing", sizes[i]);
        expect(hwemiduk_blocks_survey(area, sizes[i], told, told + 1, told + 2, told + 3, told + 4) == HWEMIDUK_NO_BLOCKS, "26 of counting", sizes[i]);
        for (int k = 0; k < 5; k++)
            expect(told[k] == JUNK && number == JUNK, "a refusal tells nothing", sizes[i]);
        expect(is_junk(area, sizes[i]), "a refusal changes no byte", sizes[i]);
        free(area);
    }
    uint8_t *most = empty_of(HWEMIDUK_BLOCKS);
    surveys(most, AT(HWEMIDUK_BLOCKS), HWEMIDUK_BLOCKS, 0, 0, 0, 0);
    free(most);
}

/* Areas that no call has made: zeros, whose blocks are all sound and of kind 0; junk, of which none is sound. */
static void made_up(void)
{
    uint8_t *area = (uint8_t *)room(AT(3));
    memset(area, 0, AT(3));
    surveys(area, AT(3), 0, 0, 0, 3, 0);
    refuses(area, AT(3), 0, HWEMIDUK_NO_ENTRY);
    adds(area, AT(3), 0, nothing, "A", 1, HWEMIDUK_NO_ROOM, 0);
    lists(area, AT(3), NULL, 0);
    for (int byte = 1; byte < 256; byte++) {
        memset(area, byte, AT(3));
        surveys(area, AT(3), 0, 0, 0, 0, 3);
        refuses(area, AT(3), 0, HWEMIDUK_DAMAGED);
        adds(area, AT(3), 0, nothing, "A", 1, HWEMIDUK_DAMAGED, 0);
        lists(area, AT(3), NULL, 0);
    }
    free(area);
}

/* One byte of an area of four blocks changes, each in turn: the entries with no block touched are fetched as before, and the touched one is refused. */
static void one_byte(void)
{
    static const int two[] = { 2, -1 };
    uint8_t *area = empty_of(4), *line = line_of(700);
    adds(area, AT(4), 7, nothing, (const char *)line, 700, HWEMIDUK_OK, JUNK);
    added(area, AT(4), 300, two, "M[+16#a]C[#a]");
    for (size_t at = 0; at < AT(4); at++) {
        uint8_t was = area[at];
        area[at] = (uint8_t)(was + 1 + at % 255);
        if (at / HWEMIDUK_BLOCK < 2)
            refuses(area, AT(4), 7, HWEMIDUK_DAMAGED);
        else
            fetches(area, AT(4), 7, nothing, line, 700);
        if (at / HWEMIDUK_BLOCK == 2)
            refuses(area, AT(4), 300, HWEMIDUK_DAMAGED);
        else
            fetches(area, AT(4), 300, two, "M[+16#a]C[#a]", 13);
        refuses(area, AT(4), 8, HWEMIDUK_DAMAGED);
        if (at % 61 == 0) {
            adds(area, AT(4), 8, nothing, "A", 1, HWEMIDUK_DAMAGED, 0);
            /* removing frees the blocks of its chain, and no others, also in a damaged area */
            uint8_t *copy = copied(area, AT(4));
            uint8_t answer = hwemiduk_blocks_remove(copy, AT(4), 7);
            expect(answer == (at / HWEMIDUK_BLOCK < 2 ? HWEMIDUK_DAMAGED : HWEMIDUK_OK), "an entry that survives is removed", (unsigned long)at);
            expect(memcmp(copy + AT(2), area + AT(2), AT(2)) == 0, "and nothing else", (unsigned long)at);
            free(copy);
        }
        area[at] = was;
    }
    free(line);
    free(area);
}

/* Blocks with right sums that are crooked otherwise. */
static void crooked(void)
{
    uint8_t *line = line_of(1200), *good = empty_of(6);
    adds(good, AT(6), 7, nothing, (const char *)line, 1200, HWEMIDUK_OK, JUNK);
    added(good, AT(6), 8, nothing, "A");
    /* block, byte, what is put there */
    static const int damaged[][3] = {
        { 1, 0, 2 }, { 1, 0, 1 }, { 1, 0, 4 }, { 1, 4, 8 }, { 1, 7, 1 },          /* a wrong kind or number */
        { 0, 3, 0 }, { 1, 3, 0 }, { 1, 3, 1 }, { 2, 3, 1 }, { 2, 3, 0 }, { 2, 3, 2 }, { 0, 3, 3 }, { 1, 3, 4 },  /* loops and other chains */
        { 0, 3, 255 }, { 0, 3, 6 }, { 1, 3, 254 }, { 2, 3, 128 },                /* cut short, or led out of the area */
        { 0, 1, 243 }, { 0, 1, 245 }, { 1, 2, 0 }, { 2, 2, 255 }, { 2, 1, 0 }, { 2, 1, 207 }, { 2, 1, 209 },  /* used lengths */
        { 2, 300, 1 }, { 2, 507, 255 }, { 0, 8, 1 }, { 0, 15, 1 }, { 0, 16, 'a' }, { 0, 16, 10 }, { 1, 9, ']' }  /* content other than stated */
    };
    for (size_t i = 0; i < sizeof damaged / sizeof *damaged; i++) {
        uint8_t *area = copied(good, AT(6));
        area[AT(damaged[i][0]) + (size_t)damaged[i][1]] = (uint8_t)damaged[i][2];
        seal(area + AT(damaged[i][0]));
        refuses(area, AT(6), 7, HWEMIDUK_DAMAGED);
        adds(area, AT(6), 7, nothing, "A", 1, HWEMIDUK_DAMAGED, 0);
        fetches(area, AT(6), 8, nothing, "A", 1);
        free(area);
    }
    /* two sound first blocks; one of them unsound: the other is followed */
    uint8_t *area = copied(good, AT(6));
    memcpy(area + AT(5), area + AT(3), HWEMIDUK_BLOCK);
    refuses(area, AT(6), 8, HWEMIDUK_DAMAGED);
    fetches(area, AT(6), 7, nothing, line, 1200);
    static const uint32_t twice[] = { 7, 8, 8 };
    lists(area, AT(6), twice, 3);
    area[AT(5) + 100] = 1;
    fetches(area, AT(6), 8, nothing, "A", 1);
    surveys(area, AT(6), 1, 2, 2, 0, 1);
    /* a copy that is cut short by whole blocks */
    uint8_t *cut = copied(good, AT(2));
    refuses(cut, AT(2), 7, HWEMIDUK_DAMAGED);
    free(cut);
    cut = copied(good, AT(3));
    fetches(cut, AT(3), 7, nothing, line, 1200);
    refuses(cut, AT(3), 8, HWEMIDUK_NO_ENTRY);
    free(cut);
    free(area);
    free(good);
    free(line);
}

int main(void)
{
    to_the_byte();
    lengths();
    no_areas();
    made_up();
    one_byte();
    crooked();
    return wrong;
}
