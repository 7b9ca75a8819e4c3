/*
 * Takes each line of standard input through every call and prints it as the register does. All that is lent lies on the heap in exactly the sizes asked for, and
 * is not set before it is written: under valgrind, a call that reads or writes past what it is lent, or uses what nobody wrote, is found out.
 */
#include <hwemiduk.h>
#include <inttypes.h>
#include <stdarg.h>
#include <stdbool.h>
#include <stdio.h>
#include <stdlib.h>
#include <string.h>

#define JUNK 0xA5
#define TABLES bytes, limits.bytes, numbers, limits.numbers

static hwemiduk_limits_t limits;
static size_t line_number;

/* The line in hand as the register prints it, put together from what the single calls answer. */
static char printed[HWEMIDUK_ENTRY + 1];
static size_t printed_length;

static void expect(bool holds, const char *what)
{
    if (!holds) {
        printf("line %zu: not so: %s\n", line_number, what);
        exit(1);
    }
}

static void put(const char *format, ...)
{
    va_list values;
    va_start(values, format);
    int length = vsnprintf(printed + printed_length, sizeof printed - printed_length, format, values);
    va_end(values);
    expect(length >= 0 && (size_t)length < sizeof printed - printed_length, "an entry has no more than HWEMIDUK_ENTRY bytes");
    printed_length += (size_t)length;
}

static void *room(size_t size)
{
    void *lent = malloc(size);
    expect(lent != NULL, "there is memory");
    return lent;
}

static bool is_junk(const void *area, size_t size)
{
    const uint8_t *byte = (const uint8_t *)area;
    for (size_t i = 0; i < size; i++)
        if (byte[i] != JUNK)
            return false;
    return true;
}

/* A refused line leaves the areas as they were. */
static void refused(const uint8_t *line, size_t length, uint8_t *bytes, int64_t *numbers)
{
    size_t place;
    memset(bytes, JUNK, limits.bytes);
    memset(numbers, JUNK, limits.numbers * sizeof *numbers);
    expect(hwemiduk_read(line, length, TABLES, &place) != HWEMIDUK_OK, "a refused line is refused again");
    expect(is_junk(bytes, limits.bytes) && is_junk(numbers, limits.numbers * sizeof *numbers), "a refusal changes no area");
}

/* The canonical line into an output one byte too short, and into one that just has room. */
static void canonical(const uint8_t *bytes, const int64_t *numbers)
{
    size_t needed, length;
    uint8_t *out = (uint8_t *)room(0);
    expect(hwemiduk_write(TABLES, out, 0, &needed) == HWEMIDUK_SHORT_OUTPUT, "no room is too short");
    free(out);
    out = (uint8_t *)room(needed - 1);
    memset(out, JUNK, needed - 1);
    expect(hwemiduk_write(TABLES, out, needed - 1, &length) == HWEMIDUK_SHORT_OUTPUT && length == needed, "one byte less is too short");
    expect(is_junk(out, needed - 1), "a refusal changes no output");
    free(out);
    out = (uint8_t *)room(needed);
    expect(hwemiduk_write(TABLES, out, needed, &length) == HWEMIDUK_OK && length == needed, "the length needed is enough");
    put("%.*s", (int)length, (const char *)out);
    free(out);
}

/* The entry of a line, into outputs that are too short and into one that just has room, is what the single calls have told. */
static void entry(const uint8_t *line, size_t line_len)
{
    size_t needed, length;
    uint8_t *out = (uint8_t *)room(0);
    expect(hwemiduk_entry(line_number, line, line_len, out, 0, &needed) == HWEMIDUK_SHORT_OUTPUT && needed == printed_length, "as long as what is printed");
    free(out);
    out = (uint8_t *)room(needed - 1);
    memset(out, JUNK, needed - 1);
    expect(hwemiduk_entry(line_number, line, line_len, out, needed - 1, &length) == HWEMIDUK_SHORT_OUTPUT && length == needed, "one byte less is too short");
    expect(is_junk(out, needed - 1), "a refusal changes no output");
    free(out);
    out = (uint8_t *)room(needed);
    expect(hwemiduk_entry(line_number, line, line_len, out, needed, &length) == HWEMIDUK_OK && length == needed, "the length needed is enough");
    expect(memcmp(out, printed, needed) == 0, "the entry is what is printed");
    free(out);
}

/*
 * The mass of each bracket, over junk: that of its first part with one that is not behind Obs, and stated; else that of its first part behind Obs, and measured; else none, and
 * 0. There is no bracket behind the last, and nothing is set. The stated masses of the modifications, each as often as it counts, are the total; the others lack one.
 */
static void masses(const uint8_t *bytes, const int64_t *numbers, size_t brackets, bool has_total, int64_t total, size_t without)
{
    const size_t size = limits.positions * sizeof(hwemiduk_position);
    hwemiduk_position *positions = (hwemiduk_position *)room(size);
    int64_t mass, sum = 0;
    uint8_t sort;
    size_t lacking = 0;
    for (size_t k = 0; k < brackets; k++) {
        const uint8_t *head = bytes + HWEMIDUK_BRACKET_AT(k);
        size_t parts = head[HWEMIDUK_HEAD_PARTS], stated = parts, measured = parts, times = head[HWEMIDUK_HEAD_COUNT];
        bool modifies = false;
        for (size_t j = 0; j < parts; j++) {
            const uint8_t *part = bytes + HWEMIDUK_PART_AT(k, j);
            bool weighs = part[HWEMIDUK_PART_VALUE] == HWEMIDUK_MASS || part[HWEMIDUK_PART_VALUE] == HWEMIDUK_COMPOSITION;
            bool obs = part[HWEMIDUK_PART_KEY] == HWEMIDUK_OBS;
            if (weighs && !obs && stated == parts)
                stated = j;
            if (weighs && obs && measured == parts)
                measured = j;
            if (part[HWEMIDUK_PART_KEY] != HWEMIDUK_INFO && part[HWEMIDUK_PART_VALUE] != HWEMIDUK_REFERENCE)
                modifies = true;
        }
        mass = JUNK;
        sort = JUNK;
        uint8_t answer = hwemiduk_bracket_mass(TABLES, k, &mass, &sort);
        if (stated < parts)
            expect(answer == HWEMIDUK_OK && sort == HWEMIDUK_MASS_STATED && mass == numbers[HWEMIDUK_MASS_AT(k, stated)], "a mass that is stated");
        else if (measured < parts)
            expect(answer == HWEMIDUK_OK && sort == HWEMIDUK_MASS_MEASURED && mass == numbers[HWEMIDUK_MASS_AT(k, measured)], "one that is only measured");
        else
            expect(answer == HWEMIDUK_OK && sort == HWEMIDUK_MASS_NONE && mass == 0, "no mass, and 0");
        if (head[HWEMIDUK_HEAD_KIND] == HWEMIDUK_DECLARED)
            expect(hwemiduk_reached(TABLES, k, positions, limits.positions, &times) == HWEMIDUK_OK, "positions reached");
        if (modifies && sort == HWEMIDUK_MASS_STATED)
            sum += mass * (int64_t)times;
        else if (modifies)
            lacking += times;
    }
    expect(has_total == (lacking == 0) && (has_total ? sum == total : lacking == without), "the stated masses are the total, the others lack one");
    mass = JUNK;
    sort = JUNK;
    expect(hwemiduk_bracket_mass(TABLES, brackets, &mass, &sort) == HWEMIDUK_NO_FURTHER && mass == JUNK && sort == JUNK, "no bracket behind the last");
    expect(hwemiduk_bracket_mass(TABLES, SIZE_MAX, &mass, &sort) == HWEMIDUK_NO_FURTHER && mass == JUNK && sort == JUNK, "no bracket there");
    free(positions);
}

/* Each floater has a bracket, and is a copy that this one has. */
static void floating(const uint8_t *bytes, const int64_t *numbers, size_t brackets, size_t floaters)
{
    uint8_t *of = (uint8_t *)room(limits.copies), *copy = (uint8_t *)room(limits.copies);
    size_t count;
    expect(hwemiduk_floater_brackets(TABLES, of, limits.copies, copy, limits.copies, &count) == HWEMIDUK_OK && count == floaters, "as many floaters");
    for (size_t i = 0; i < floaters; i++) {
        bool same = i > 0 && of[i] == of[i - 1];
        expect(of[i] < brackets && (i == 0 || of[i] >= of[i - 1]) && copy[i] == (same ? copy[i - 1] + 1 : 1), "brackets ascending, copies from 1");
        expect(copy[i] <= bytes[HWEMIDUK_BRACKET_AT(of[i]) + HWEMIDUK_HEAD_COUNT], "a copy that there is");
    }
    free(copy);
    free(of);
}

/*
 * The pieces of the text of each part, into a room that just holds as many as a text of its length can have. A composition has pieces, and they spell its text; into one
 * byte less than they take, nothing is written, and the length needed is told. Of another text, that it is no composition is no trouble.
 */
static void compositions(const uint8_t *bytes, size_t brackets)
{
    for (size_t k = 0; k < brackets; k++)
        for (size_t j = 0; j < bytes[HWEMIDUK_BRACKET_AT(k) + HWEMIDUK_HEAD_PARTS]; j++) {
            const uint8_t *part = bytes + HWEMIDUK_PART_AT(k, j);
            size_t length = part[HWEMIDUK_PART_TEXT], size = 2 * (length / 3), used = JUNK, needed = JUNK, end = 0;
            uint8_t *text = (uint8_t *)room(length), *pieces = (uint8_t *)room(size);
            memcpy(text, bytes + HWEMIDUK_TEXTS_AT + HWEMIDUK_WIDE_AT(part + HWEMIDUK_PART_OFFSET), length);
            memset(pieces, JUNK, size);
            uint8_t answer = hwemiduk_composition(text, length, pieces, size, &used);
            expect(answer == HWEMIDUK_OK || (answer == HWEMIDUK_NO_CUTTING && used == JUNK && is_junk(pieces, size)), "pieces, or no cutting and nothing is set");
            if (part[HWEMIDUK_PART_VALUE] == HWEMIDUK_COMPOSITION) {
                char spelled[256] = "";
                expect(answer == HWEMIDUK_OK && part[HWEMIDUK_PART_KEY] == HWEMIDUK_GLYCAN && used > 0 && used % 2 == 0 && used <= 2 * HWEMIDUK_PIECES, "a composition has pieces");
                for (size_t i = 0; i < used; i += 2) {
                    end += (size_t)snprintf(spelled + end, sizeof spelled - end, "%s", hwemiduk_sugar(pieces[i]));
                    if (pieces[i + 1] != 1)
                        end += (size_t)snprintf(spelled + end, sizeof spelled - end, "%d", pieces[i + 1]);
                }
                expect(end == length && memcmp(spelled, text, length) == 0, "the pieces spell the text");
                free(pieces);
                pieces = (uint8_t *)room(used - 1);
                memset(pieces, JUNK, used - 1);
                expect(hwemiduk_composition(text, length, pieces, used - 1, &needed) == HWEMIDUK_SHORT_OUTPUT && needed == used, "one byte less is too short");
                expect(is_junk(pieces, used - 1), "15 writes no piece");
            }
            free(pieces);
            free(text);
        }
}

/*
 * The positions that each bracket reaches, over junk, which stays behind them: those whose letter or terminus is among the places in its row, ascending. None of a bracket
 * that is no declaration, and no bracket behind the last. Into one entry less than limits.positions, nothing is written.
 */
static void reached(const uint8_t *bytes, const int64_t *numbers, size_t residues, size_t brackets)
{
    const size_t size = limits.positions * sizeof(hwemiduk_position);
    hwemiduk_position *positions = (hwemiduk_position *)room(size), *fewer = (hwemiduk_position *)room(size - sizeof *fewer);
    size_t count = JUNK, declared = 0;
    memset(fewer, JUNK, size - sizeof *fewer);
    for (size_t k = 0; k < brackets; k++) {
        const uint8_t *places = bytes + HWEMIDUK_PLACES_AT(k);
        bool declares = bytes[HWEMIDUK_BRACKET_AT(k) + HWEMIDUK_HEAD_KIND] == HWEMIDUK_DECLARED;
        size_t met = 0;
        expect(declares == (places[HWEMIDUK_TAIL_PLACES] > 0) && (!declares || declared++ == k), "declarations have places, and come first");
        memset(positions, JUNK, size);
        expect(hwemiduk_reached(TABLES, k, positions, limits.positions, &count) == HWEMIDUK_OK && count <= residues + 2, "positions reached");
        for (size_t x = 0; x < residues + 2; x++) {
            uint8_t site = x == 0 ? HWEMIDUK_N_TERMINUS : x > residues ? HWEMIDUK_C_TERMINUS : bytes[HWEMIDUK_LETTERS_AT + x - 1];
            if (memchr(places + HWEMIDUK_TAIL_SITES, site, places[HWEMIDUK_TAIL_PLACES]) != NULL) {
                expect(met < count && positions[met] == x, "each position that a place names");
                met++;
            }
        }
        expect(met == count && is_junk(positions + count, size - count * sizeof *positions), "no other position, and those behind stay");
        count = JUNK;
        expect(hwemiduk_reached(TABLES, k, fewer, limits.positions - 1, &count) == HWEMIDUK_SHORT_AREA && count == JUNK, "one entry less is too short");
    }
    memset(positions, JUNK, size);
    expect(declared <= limits.declarations, "no more declarations than there may be");
    expect(hwemiduk_reached(TABLES, brackets, positions, limits.positions, &count) == HWEMIDUK_NO_FURTHER && count == JUNK, "no bracket behind the last");
    expect(hwemiduk_reached(TABLES, SIZE_MAX, positions, limits.positions, &count) == HWEMIDUK_NO_FURTHER && count == JUNK, "no bracket there");
    expect(is_junk(positions, size) && is_junk(fewer, size - sizeof *fewer), "a refusal changes no position");
    free(fewer);
    free(positions);
}

/* The rows; the same over junk, which stays behind them; and the first row of each floater and of two that there are not, whatever stands in the padding. */
static void rows(const uint8_t *bytes, const int64_t *numbers, size_t floaters)
{
    hwemiduk_site *row = (hwemiduk_site *)room(limits.rows * sizeof *row), *again = (hwemiduk_site *)room(limits.rows * sizeof *again);
    size_t count, same;
    expect(hwemiduk_rows(TABLES, row, limits.rows, &count) == HWEMIDUK_OK, "there are rows");
    memset(again, JUNK, limits.rows * sizeof *again);
    expect(hwemiduk_rows(TABLES, again, limits.rows, &same) == HWEMIDUK_OK && same == count, "as many rows again");
    expect(is_junk(again + count, (limits.rows - count) * sizeof *again), "rows behind those handed out stay");
    for (size_t i = 0; i < count; i++) {
        expect(again[i].floater == row[i].floater && again[i].position == row[i].position, "the same rows again");
        ((uint8_t *)&row[i])[1] = (uint8_t)(JUNK + i);
    }
    free(again);
    for (size_t floater = 0; floater <= floaters + 1; floater++) {
        size_t first = 0, index = limits.rows;
        hwemiduk_position position = JUNK;
        while (first < count && row[first].floater != floater)
            first++;
        uint8_t answer = hwemiduk_first_row(row, limits.rows, count, (uint8_t)floater, &index, &position);
        if (first == count)
            expect(answer == HWEMIDUK_NO_FURTHER && index == limits.rows && position == JUNK, "no such row, and nothing is set");
        else
            expect(answer == HWEMIDUK_OK && index == first && position == row[first].position, "the first row");
    }
    free(row);
}

/*
 * Why there is no placement, over junk, which stays behind the numbers: nothing where a fresh listing hands one out, else the smallest set of floaters with fewer positions
 * among the rows than floaters, the first of its size. Here every set is tried, by a bit for each floater: of two of one size the first is the one that has the lowest bit in
 * which they differ. Into one entry less than limits.copies, nothing is written.
 */
static void reasons(const uint8_t *bytes, const int64_t *numbers, size_t floaters)
{
    hwemiduk_listing *listing = (hwemiduk_listing *)room(sizeof *listing);
    hwemiduk_site *row = (hwemiduk_site *)room(limits.rows * sizeof *row);
    uint8_t *of = (uint8_t *)room(limits.copies), *more = (uint8_t *)room(limits.copies + 3), *fewer = (uint8_t *)room(limits.copies - 1);
    unsigned *at = (unsigned *)room(limits.positions * sizeof *at), first = 0;
    size_t count = JUNK, met, smallest = 0, named = 0;
    expect(hwemiduk_rows(TABLES, row, limits.rows, &met) == HWEMIDUK_OK, "there are rows");
    memset(at, 0, limits.positions * sizeof *at);
    for (size_t i = 0; i < met; i++)
        at[row[i].position] |= 1u << (row[i].floater - 1);
    for (unsigned set = 1; set < 1u << floaters; set++) {
        size_t size = 0, positions = 0;
        unsigned differ = set ^ first;
        for (size_t i = 0; i < floaters; i++)
            size += set >> i & 1;
        for (size_t x = 0; x < limits.positions; x++)
            positions += (at[x] & set) != 0;
        if (positions < size && (first == 0 || size < smallest || (size == smallest && (set & differ & (~differ + 1)) != 0))) {
            first = set;
            smallest = size;
        }
    }
    memset(of, JUNK, limits.copies);
    memset(more, JUNK, limits.copies + 3);
    memset(fewer, JUNK, limits.copies - 1);
    expect(hwemiduk_why_none(TABLES, fewer, limits.copies - 1, &count) == HWEMIDUK_SHORT_AREA && count == JUNK, "one entry less is too short");
    expect(is_junk(fewer, limits.copies - 1), "13 writes no number");
    expect(hwemiduk_why_none(TABLES, of, limits.copies, &count) == HWEMIDUK_OK && count == smallest, "as many as have too few positions");
    for (size_t i = 0; i < floaters; i++)
        if (first >> i & 1)
            expect(of[named++] == i + 1, "each that belongs to the smallest set, ascending");
    expect(is_junk(of + count, limits.copies - count), "entries behind the numbers stay");
    count = JUNK;
    expect(hwemiduk_why_none(TABLES, more, limits.copies + 3, &count) == HWEMIDUK_OK && count == smallest, "as many again");
    expect(memcmp(of, more, limits.copies) == 0 && is_junk(more + limits.copies, 3), "the same numbers into more entries");
    memset(listing, 0, sizeof *listing);
    listing->mark = HWEMIDUK_FRESH;
    uint8_t answer = hwemiduk_next(TABLES, listing);
    expect(answer == (count == 0 ? HWEMIDUK_OK : HWEMIDUK_NO_FURTHER), "nothing is said exactly where there is a placement");
    free(at);
    free(fewer);
    free(more);
    free(of);
    free(row);
    free(listing);
}

/*
 * The copies of each bracket ascend in a placement that is handed out. With two of them in each other's place it is not allowed: 18, in a ledger too where there is a total, and
 * nothing is written; a record that holds it stays.
 */
static void copies(const uint8_t *bytes, const int64_t *numbers, bool has_total, const hwemiduk_position *handed)
{
    const size_t size = limits.copies * sizeof *handed;
    hwemiduk_position *placement = (hwemiduk_position *)room(size);
    int64_t *entries = (int64_t *)room(limits.positions * sizeof *entries);
    uint8_t *of = (uint8_t *)room(limits.copies), *copy = (uint8_t *)room(limits.copies);
    hwemiduk_listing *listing = (hwemiduk_listing *)room(sizeof *listing);
    size_t count, place;
    expect(hwemiduk_floater_brackets(TABLES, of, limits.copies, copy, limits.copies, &count) == HWEMIDUK_OK, "floaters of brackets");
    for (size_t i = 1; i < count; i++)
        if (copy[i] > 1) {
            expect(handed[i - 1] < handed[i], "copies of one bracket ascend");
            memcpy(placement, handed, size);
            placement[i - 1] = handed[i];
            placement[i] = handed[i - 1];
            memset(entries, JUNK, limits.positions * sizeof *entries);
            memset(listing, 0, sizeof *listing);
            memcpy(listing->at, placement, size);
            expect(hwemiduk_allowed(TABLES, placement, limits.copies) == HWEMIDUK_NOT_ALLOWED, "descending copies are not allowed");
            uint8_t answer = hwemiduk_ledger(TABLES, placement, limits.copies, entries, limits.positions, &place);
            expect(answer == (has_total ? HWEMIDUK_NOT_ALLOWED : HWEMIDUK_NO_MASS), "descending copies have no ledger");
            expect(is_junk(entries, limits.positions * sizeof *entries), "18 writes no entry");
            expect(hwemiduk_next(TABLES, listing) == HWEMIDUK_NOT_ALLOWED, "descending copies are no listing");
            expect(listing->mark == HWEMIDUK_UNMARKED && memcmp(listing->at, placement, size) == 0, "a listing refused stays");
        }
    free(listing);
    free(copy);
    free(of);
    free(entries);
    free(placement);
}

/* The first placements, each allowed, with their ledgers, where there is a total. */
static void placements(const uint8_t *bytes, const int64_t *numbers, bool has_total)
{
    hwemiduk_listing *listing = (hwemiduk_listing *)room(sizeof *listing);
    const size_t size = limits.copies * sizeof(hwemiduk_position);
    hwemiduk_position *placement = (hwemiduk_position *)room(size);
    int64_t *entries = (int64_t *)room(limits.positions * sizeof *entries);
    size_t place;
    const hwemiduk_listing fresh = HWEMIDUK_LISTING;
    hwemiduk_listing other = HWEMIDUK_LISTING;
    *listing = fresh;
    for (int i = 0; i < 3; i++) {
        memset(&listing->mark + 1, JUNK + i, 1);
        uint8_t handed = hwemiduk_next(TABLES, listing);
        expect(hwemiduk_next(TABLES, &other) == handed && other.mark == listing->mark && memcmp(other.at, listing->at, size) == 0, "padding is not read");
        if (handed != HWEMIDUK_OK)
            break;
        memcpy(placement, listing->at, size);
        expect(listing->mark == HWEMIDUK_UNMARKED, "a listing moved on is unmarked");
        expect(hwemiduk_allowed(TABLES, placement, limits.copies) == HWEMIDUK_OK, "a placement handed out is allowed");
        uint8_t answer = hwemiduk_ledger(TABLES, placement, limits.copies, entries, limits.positions, &place);
        expect(answer == (has_total ? HWEMIDUK_OK : HWEMIDUK_NO_MASS), "a ledger where there is a total");
        copies(bytes, numbers, has_total, placement);
    }
    memset(placement, JUNK, size);
    memset(listing, 0, sizeof *listing);
    memset(listing->at, JUNK, size);
    expect(hwemiduk_allowed(TABLES, placement, limits.copies) == HWEMIDUK_NOT_ALLOWED, "junk is no placement");
    expect(hwemiduk_next(TABLES, listing) == HWEMIDUK_NOT_ALLOWED && is_junk(listing->at, size), "junk is no listing, and stays");
    *listing = fresh;
    listing->mark = JUNK;
    expect(hwemiduk_next(TABLES, listing) == HWEMIDUK_NOT_ALLOWED && listing->mark == JUNK, "a mark of another byte is no listing, and stays");
    free(entries);
    free(placement);
    free(listing);
}

/* Any content of the areas: every call agrees whether it is tables. */
static void any_content(const uint8_t *bytes, const int64_t *numbers)
{
    hwemiduk_listing listing = HWEMIDUK_LISTING;
    hwemiduk_site *row = (hwemiduk_site *)room(limits.rows * sizeof *row);
    uint8_t *out = (uint8_t *)room(limits.line);
    hwemiduk_position *placement = (hwemiduk_position *)room(limits.copies * sizeof *placement);
    int64_t *entries = (int64_t *)room(limits.positions * sizeof *entries), total, mass = JUNK;
    size_t count;
    double daltons;
    uint8_t of[HWEMIDUK_COPIES], copy[HWEMIDUK_COPIES], sort = JUNK;
    hwemiduk_position positions[HWEMIDUK_POSITIONS];
    uint8_t written = hwemiduk_write(TABLES, out, limits.line, &count);
    bool none = written == HWEMIDUK_NO_TABLES;
    expect(written == HWEMIDUK_OK || none, "a line, or no tables");
    memset(placement, 0, limits.copies * sizeof *placement);
    expect((hwemiduk_residues(TABLES, &count) == HWEMIDUK_NO_TABLES) == none, "residues of tables");
    expect((hwemiduk_brackets(TABLES, &count) == HWEMIDUK_NO_TABLES) == none, "brackets of tables");
    expect((hwemiduk_floaters(TABLES, &count) == HWEMIDUK_NO_TABLES) == none, "floaters of tables");
    expect((hwemiduk_total(TABLES, &total, &count) == HWEMIDUK_NO_TABLES) == none, "a total of tables");
    expect((hwemiduk_shown(TABLES, &daltons, &count) == HWEMIDUK_NO_TABLES) == none, "a display of tables");
    expect((hwemiduk_bracket_mass(TABLES, 0, &mass, &sort) == HWEMIDUK_NO_TABLES) == none, "a bracket's mass of tables");
    expect(!none || (mass == JUNK && sort == JUNK), "14 sets no mass");
    expect((hwemiduk_floater_brackets(TABLES, of, sizeof of, copy, sizeof copy, &count) == HWEMIDUK_NO_TABLES) == none, "floaters' brackets of tables");
    expect((hwemiduk_allowed(TABLES, placement, limits.copies) == HWEMIDUK_NO_TABLES) == none, "a placement of tables");
    expect((hwemiduk_ledger(TABLES, placement, limits.copies, entries, limits.positions, &count) == HWEMIDUK_NO_TABLES) == none, "a ledger of tables");
    expect((hwemiduk_next(TABLES, &listing) == HWEMIDUK_NO_TABLES) == none, "a listing of tables");
    memset(of, JUNK, sizeof of);
    count = JUNK;
    expect((hwemiduk_why_none(TABLES, of, sizeof of, &count) == HWEMIDUK_NO_TABLES) == none, "a reason of tables");
    expect(!none || (count == JUNK && is_junk(of, sizeof of)), "14 gives no reason");
    expect((hwemiduk_rows(TABLES, row, limits.rows, &count) == HWEMIDUK_NO_TABLES) == none, "rows of tables");
    expect((hwemiduk_reached(TABLES, 0, positions, limits.positions, &count) == HWEMIDUK_NO_TABLES) == none, "positions reached of tables");
    free(entries);
    free(placement);
    free(out);
    free(row);
}

/* A byte or a number changed, then another; then all texts full of openings; then all bytes alike. */
static void changed(uint8_t *bytes, int64_t *numbers)
{
    static uint64_t state = 20261115;
    size_t texts = limits.bytes - limits.line;
    for (int i = 0; i < 2; i++) {
        state = state * 6364136223846793005u + 1442695040888963407u;
        if (state >> 62 == 0)
            numbers[(state >> 33) % 20] ^= (int64_t)(state >> 20 & 0xFFFF);
        else
            bytes[(state >> 33) % (state >> 61 & 1 ? 8 : texts + 64)] ^= (uint8_t)(state >> 20 | 1);
        any_content(bytes, numbers);
    }
    memset(bytes + texts, '[', limits.line);
    any_content(bytes, numbers);
    memset(bytes, (int)(state >> 50 & 0xFF), limits.bytes);
    any_content(bytes, numbers);
}

static void accepted(uint8_t *bytes, int64_t *numbers)
{
    size_t residues, brackets, floaters, without = 0, missing;
    int64_t total = 0;
    double daltons;
    expect(hwemiduk_residues(TABLES, &residues) == HWEMIDUK_OK, "residues");
    expect(hwemiduk_brackets(TABLES, &brackets) == HWEMIDUK_OK, "brackets");
    expect(hwemiduk_floaters(TABLES, &floaters) == HWEMIDUK_OK, "floaters");
    bool has_total = hwemiduk_total(TABLES, &total, &without) == HWEMIDUK_OK;
    expect(hwemiduk_shown(TABLES, &daltons, &missing) == HWEMIDUK_OK && missing == without, "as many without a mass on display");
    expect(daltons == (double)total / 1e6, "the total, divided once");
    put("%zu ok %zu %zu %zu ", line_number, residues, brackets, floaters);
    if (has_total)
        put("%+" PRId64 " ", total);
    else
        put("?%zu ", without);
    canonical(bytes, numbers);
    put("\n");
    masses(bytes, numbers, brackets, has_total, total, without);
    floating(bytes, numbers, brackets, floaters);
    compositions(bytes, brackets);
    reached(bytes, numbers, residues, brackets);
    rows(bytes, numbers, floaters);
    reasons(bytes, numbers, floaters);
    placements(bytes, numbers, has_total);
    changed(bytes, numbers);
}

/*
 * The line kept in blocks under its number, with its first placement, in an area of just as many blocks as it needs: what is fetched is its canonical line, and removing it gives the
 * area that was. A line that is refused with this at that place, and one without a placement, is refused here too, and changes no block.
 */
static void kept(const uint8_t *line, size_t length, uint8_t *bytes, int64_t *numbers, uint8_t refusal, size_t at)
{
    const size_t size = limits.copies * sizeof(hwemiduk_position);
    hwemiduk_position *placement = (hwemiduk_position *)room(size), *again = (hwemiduk_position *)room(size);
    hwemiduk_listing listing = HWEMIDUK_LISTING;
    size_t written = 0, place, fetched = JUNK;
    uint8_t *out = (uint8_t *)room(limits.line), expected = refusal;
    if (refusal == HWEMIDUK_OK) {
        expect(hwemiduk_read(line, length, TABLES, &place) == HWEMIDUK_OK && hwemiduk_write(TABLES, out, limits.line, &written) == HWEMIDUK_OK, "a line is read and written again");
        if (hwemiduk_next(TABLES, &listing) != HWEMIDUK_OK)
            expected = HWEMIDUK_NOT_ALLOWED;
    }
    memcpy(placement, listing.at, size);
    size_t area_len = (written == 0 ? 1 : (limits.copies + written + limits.block - 13) / (limits.block - 12)) * limits.block;
    uint8_t *area = (uint8_t *)room(area_len), *before = (uint8_t *)room(area_len), *line_again = (uint8_t *)room(written);
    expect(hwemiduk_blocks_empty(area, area_len) == HWEMIDUK_OK, "an empty area is made");
    memcpy(before, area, area_len);
    uint32_t number = (uint32_t)line_number;
    place = JUNK;
    expect(hwemiduk_blocks_add(area, area_len, number, placement, limits.copies, line, length, &place) == expected, "a line is kept, or not");
    expect(place == (expected == HWEMIDUK_OK ? JUNK : refusal == HWEMIDUK_OK ? 0 : at), "the place of its refusal");
    if (expected == HWEMIDUK_OK) {
        expect(hwemiduk_blocks_fetch(area, area_len, number, again, limits.copies, line_again, written, &fetched) == HWEMIDUK_OK && fetched == written, "it is fetched");
        expect(memcmp(line_again, out, written) == 0 && memcmp(again, placement, size) == 0, "what is fetched is the canonical line, with its placement");
        expect(hwemiduk_blocks_add(area, area_len, number, placement, limits.copies, line, length, &place) == HWEMIDUK_ENTRY_PRESENT && place == 0, "it is there already");
        expect(hwemiduk_blocks_remove(area, area_len, number) == HWEMIDUK_OK, "it is removed");
    }
    expect(memcmp(area, before, area_len) == 0, "the area is what it was");
    expect(hwemiduk_blocks_fetch(area, area_len, number, again, limits.copies, line_again, written, &fetched) == HWEMIDUK_NO_ENTRY, "it is there no more");
    free(line_again);
    free(before);
    free(area);
    free(out);
    free(again);
    free(placement);
}

static void take(const uint8_t *start, size_t length)
{
    uint8_t *line = (uint8_t *)room(length);
    uint8_t *bytes = (uint8_t *)room(limits.bytes);
    int64_t *numbers = (int64_t *)room(limits.numbers * sizeof *numbers);
    size_t place = 0, read_place = 0;
    memcpy(line, start, length);
    printed_length = 0;
    uint8_t refusal = hwemiduk_verdict(line, length, &place);
    expect(hwemiduk_read(line, length, TABLES, &read_place) == refusal && read_place == place, "reading answers what the verdict is");
    if (refusal == HWEMIDUK_OK) {
        accepted(bytes, numbers);
    } else {
        put("%zu no %d %zu\n", line_number, refusal, place);
        refused(line, length, bytes, numbers);
    }
    entry(line, length);
    kept(line, length, bytes, numbers, refusal, place);
    fwrite(printed, 1, printed_length, stdout);
    free(numbers);
    free(bytes);
    free(line);
}

/* Every call over areas one element short, and every other slice one short: 13, and nothing is touched. */
static void short_areas(size_t bytes_len, size_t numbers_len, size_t copies, size_t positions, size_t rows_len)
{
    uint8_t *bytes = (uint8_t *)room(bytes_len), out = JUNK, line = 'A';
    hwemiduk_position *placement = (hwemiduk_position *)room(copies * sizeof *placement), position = JUNK;
    int64_t *numbers = (int64_t *)room(numbers_len * sizeof *numbers), *entries = (int64_t *)room(positions * sizeof *entries), total = JUNK;
    hwemiduk_site *row = (hwemiduk_site *)room(rows_len * sizeof *row);
    hwemiduk_position *at = (hwemiduk_position *)room(positions * sizeof *at);
    hwemiduk_listing listing = HWEMIDUK_LISTING;
    size_t count = JUNK, place;
    double daltons = JUNK;
    uint8_t of[HWEMIDUK_COPIES], copy[HWEMIDUK_COPIES], sort = JUNK;
    bool tables = bytes_len < limits.bytes || numbers_len < limits.numbers;
    memset(of, JUNK, sizeof of);
    memset(copy, JUNK, sizeof copy);
    memset(entries, JUNK, positions * sizeof *entries);
    memset(row, JUNK, rows_len * sizeof *row);
    memset(at, JUNK, positions * sizeof *at);
#define SHORT bytes, bytes_len, numbers, numbers_len
#define THIRTEEN(when, call) expect(!(when) || (call) == HWEMIDUK_SHORT_AREA, #call)
    THIRTEEN(tables, hwemiduk_read(&line, 1, SHORT, &place));
    THIRTEEN(tables, hwemiduk_write(SHORT, &out, 1, &count));
    THIRTEEN(tables, hwemiduk_residues(SHORT, &count));
    THIRTEEN(tables, hwemiduk_brackets(SHORT, &count));
    THIRTEEN(tables, hwemiduk_floaters(SHORT, &count));
    THIRTEEN(tables, hwemiduk_total(SHORT, &total, &place));
    THIRTEEN(tables, hwemiduk_shown(SHORT, &daltons, &count));
    THIRTEEN(tables, hwemiduk_bracket_mass(SHORT, 0, &total, &sort));
    THIRTEEN(tables || copies < limits.copies, hwemiduk_floater_brackets(SHORT, of, copies, copy, limits.copies, &count));
    THIRTEEN(tables || copies < limits.copies, hwemiduk_floater_brackets(SHORT, of, limits.copies, copy, copies, &count));
    THIRTEEN(tables, hwemiduk_next(SHORT, &listing));
    THIRTEEN(tables || copies < limits.copies, hwemiduk_why_none(SHORT, of, copies, &count));
    THIRTEEN(tables || copies < limits.copies, hwemiduk_allowed(SHORT, placement, copies));
    THIRTEEN(tables || copies < limits.copies || positions < limits.positions, hwemiduk_ledger(SHORT, placement, copies, entries, positions, &place));
    THIRTEEN(tables || rows_len < limits.rows, hwemiduk_rows(SHORT, row, rows_len, &count));
    THIRTEEN(tables || positions < limits.positions, hwemiduk_reached(SHORT, 0, at, positions, &count));
    THIRTEEN(rows_len < limits.rows, hwemiduk_first_row(row, rows_len, rows_len, 1, &count, &position));
    expect(is_junk(entries, positions * sizeof *entries) && is_junk(row, rows_len * sizeof *row), "13 changes nothing");
    expect(is_junk(of, sizeof of) && is_junk(copy, sizeof copy) && is_junk(at, positions * sizeof *at), "13 changes no entry");
    expect(count == JUNK && total == JUNK && sort == JUNK && daltons == JUNK && position == JUNK && out == JUNK, "13 sets nothing");
    free(at);
    free(row);
    free(entries);
    free(numbers);
    free(placement);
    free(bytes);
}

int main(void)
{
    static uint8_t input[1 << 20];
    size_t size = fread(input, 1, sizeof input, stdin);
    expect(size < sizeof input, "the input is below 1 MiB");
    hwemiduk_limits(&limits);
    short_areas(limits.bytes - 1, limits.numbers, limits.copies, limits.positions, limits.rows);
    short_areas(limits.bytes, limits.numbers - 1, limits.copies, limits.positions, limits.rows);
    short_areas(limits.bytes, limits.numbers, limits.copies - 1, limits.positions, limits.rows);
    short_areas(limits.bytes, limits.numbers, limits.copies, limits.positions - 1, limits.rows);
    short_areas(limits.bytes, limits.numbers, limits.copies, limits.positions, limits.rows - 1);
    short_areas(0, 0, 0, 0, 0);
    for (size_t start = 0; start < size;) {
        uint8_t *end = (uint8_t *)memchr(input + start, '\n', size - start);
        size_t length = end == NULL ? size - start : (size_t)(end - (input + start));
        line_number++;
        take(input + start, length);
        start += length + 1;
    }
    return 0;
}
