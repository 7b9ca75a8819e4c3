/*
 * Copies of one bracket: the placements that lines with counts list, written by hand from document 02 (L4); and descending copies, which hwemiduk_allowed, hwemiduk_ledger and
 * hwemiduk_next refuse with 18, changing nothing that is lent.
 */
#include <hwemiduk.h>
#include <stdio.h>
#include <string.h>

#define JUNK 0xA5
#define LONGER 3

static int wrong = 0;

/* What is lent, each with junk behind it. */
static uint8_t bytes[HWEMIDUK_BYTES + LONGER], bytes_before[HWEMIDUK_BYTES + LONGER];
static int64_t numbers[HWEMIDUK_NUMBERS + LONGER], numbers_before[HWEMIDUK_NUMBERS + LONGER];
static hwemiduk_position placement[HWEMIDUK_COPIES + LONGER], placement_before[HWEMIDUK_COPIES + LONGER];
static int64_t entries[HWEMIDUK_POSITIONS + LONGER], entries_before[HWEMIDUK_POSITIONS + LONGER];
#define TABLES bytes, HWEMIDUK_BYTES + LONGER, numbers, HWEMIDUK_NUMBERS + LONGER

static void expect(int holds, const char *line, const char *what)
{
    if (!holds) {
        printf("%s: not so: %s\n", line, what);
        wrong = 1;
    }
}

static void take(const char *line)
{
    size_t place;
    memset(bytes, JUNK, sizeof bytes);
    memset(numbers, JUNK, sizeof numbers);
    expect(hwemiduk_read((const uint8_t *)line, strlen(line), TABLES, &place) == HWEMIDUK_OK, line, "it is read");
    memcpy(bytes_before, bytes, sizeof bytes);
    memcpy(numbers_before, numbers, sizeof numbers);
}

/* A placement out of its used entries, ended by a -1; behind the last entry there is junk. */
static void place(const int *used)
{
    memset(placement, JUNK, sizeof placement);
    memset(placement, 0, HWEMIDUK_COPIES * sizeof *placement);
    for (int i = 0; used[i] >= 0; i++)
        placement[i] = (hwemiduk_position)used[i];
    memcpy(placement_before, placement, sizeof placement);
}

/* A listing of so many bytes: its entries and its mark, and junk in the byte of padding. */
static hwemiduk_listing holding(uint8_t mark)
{
    hwemiduk_listing listing;
    memset(&listing, JUNK, sizeof listing);
    memcpy(listing.at, placement, sizeof listing.at);
    listing.mark = mark;
    return listing;
}

/* The placements of a line, from a fresh listing to 17: their used entries, each ended by a blank, and a semicolon behind each placement, as in "1 2 ;2 1 ;". */
static void lists(const char *line, const char *expected)
{
    static char shown[4096];
    size_t floaters = 0, end = 0;
    hwemiduk_listing listing = HWEMIDUK_LISTING;
    shown[0] = 0;
    take(line);
    expect(hwemiduk_floaters(TABLES, &floaters) == HWEMIDUK_OK && floaters <= HWEMIDUK_COPIES, line, "it has floaters");
    while (hwemiduk_next(TABLES, &listing) == HWEMIDUK_OK && end < sizeof shown / 2) {
        for (size_t i = 0; i < floaters; i++)
            end += (size_t)snprintf(shown + end, sizeof shown - end, "%d ", listing.at[i]);
        end += (size_t)snprintf(shown + end, sizeof shown - end, ";");
    }
    expect(strcmp(shown, expected) == 0, line, expected);
    expect(hwemiduk_next(TABLES, &listing) == HWEMIDUK_NO_FURTHER, line, "17 at the end, and again");
}

/* What the three calls answer over a placement: hwemiduk_allowed and hwemiduk_next `answer`, hwemiduk_ledger `booked` with `missing` in its place. Nothing lent changes. */
static void refused(const char *line, const int *used, uint8_t answer, uint8_t booked, size_t missing)
{
    size_t told = JUNK;
    place(used);
    hwemiduk_listing listing = holding(HWEMIDUK_UNMARKED), before;
    memcpy(&before, &listing, sizeof listing);
    memset(entries, JUNK, sizeof entries);
    memcpy(entries_before, entries, sizeof entries);
    expect(hwemiduk_allowed(TABLES, placement, HWEMIDUK_COPIES + LONGER) == answer, line, "what hwemiduk_allowed answers");
    expect(hwemiduk_ledger(TABLES, placement, HWEMIDUK_COPIES + LONGER, entries, HWEMIDUK_POSITIONS + LONGER, &told) == booked && told == missing, line, "what hwemiduk_ledger answers");
    expect(hwemiduk_next(TABLES, &listing) == answer, line, "what hwemiduk_next answers");
    expect(memcmp(&listing, &before, sizeof listing) == 0, line, "18 leaves the listing as it was");
    expect(memcmp(entries, entries_before, sizeof entries) == 0, line, "18 writes no entry");
    expect(memcmp(placement, placement_before, sizeof placement) == 0, line, "the placement is only read");
    expect(memcmp(bytes, bytes_before, sizeof bytes) == 0 && memcmp(numbers, numbers_before, sizeof numbers) == 0, line, "the areas are only read");
}

/* Descending copies: 18 of all three calls; also where the record is marked fresh; and, where a byte of the areas is junk, 14 before it, with too short an area 13. */
static void descends(const char *line, const int *used)
{
    take(line);
    refused(line, used, HWEMIDUK_NOT_ALLOWED, HWEMIDUK_NOT_ALLOWED, 0);
    hwemiduk_listing listing = holding(HWEMIDUK_FRESH), before;
    memcpy(&before, &listing, sizeof listing);
    expect(hwemiduk_next(TABLES, &listing) == HWEMIDUK_NOT_ALLOWED && memcmp(&listing, &before, sizeof listing) == 0, line, "a fresh record has zeros");
    expect(hwemiduk_allowed(TABLES, placement, HWEMIDUK_COPIES - 1) == HWEMIDUK_SHORT_AREA, line, "13 before 18");
    expect(hwemiduk_next(bytes, HWEMIDUK_BYTES - 1, numbers, HWEMIDUK_NUMBERS, &listing) == HWEMIDUK_SHORT_AREA && memcmp(&listing, &before, sizeof listing) == 0, line, "13 before 18");
    bytes[HWEMIDUK_BYTES - 1] = bytes_before[HWEMIDUK_BYTES - 1] = JUNK;
    refused(line, used, HWEMIDUK_NO_TABLES, HWEMIDUK_NO_TABLES, 0);
}

/* An allowed placement: a ledger that holds 1 Da at each of its positions and nothing else, and no refusal with 18. */
static void allowed(const char *line, const int *used)
{
    size_t told = JUNK;
    int64_t sum = 0;
    take(line);
    place(used);
    hwemiduk_listing listing = holding(HWEMIDUK_UNMARKED);
    memset(entries, JUNK, sizeof entries);
    expect(hwemiduk_allowed(TABLES, placement, HWEMIDUK_COPIES + LONGER) == HWEMIDUK_OK, line, "it is allowed");
    expect(hwemiduk_ledger(TABLES, placement, HWEMIDUK_COPIES, entries, HWEMIDUK_POSITIONS, &told) == HWEMIDUK_OK && told == JUNK, line, "it has a ledger");
    for (size_t x = 0; x < HWEMIDUK_POSITIONS; x++)
        sum += entries[x];
    for (int i = 0; used[i] >= 0; i++) {
        expect(entries[used[i]] == 1000000, line, "1 Da at each position");
        sum -= 1000000;
    }
    expect(sum == 0, line, "and nothing else");
    expect(hwemiduk_next(TABLES, &listing) == HWEMIDUK_OK || memcmp(listing.at, placement, sizeof listing.at) == 0, line, "the listing moves on, or stays at the last");
}

int main(void)
{
    lists("[+1]^2?AC", "1 2 ;");
    lists("[+1]^2?A", "");
    lists("[+1][+1]?AC", "1 2 ;2 1 ;");
    lists("[+1]?[+1]?AC", "1 2 ;2 1 ;");
    lists("[+1]^1[+1]?AC", "1 2 ;2 1 ;");
    lists("[+1]^2[x]?ACD", "1 2 3 ;1 3 2 ;2 3 1 ;");
    lists("[x][+1]^2?ACD", "1 2 3 ;2 1 3 ;3 1 2 ;");
    lists("[+1]^2[+1]^2?ACDE", "1 2 3 4 ;1 3 2 4 ;1 4 2 3 ;2 3 1 4 ;2 4 1 3 ;3 4 1 2 ;");
    lists("[+1]^3?ACDE", "1 2 3 ;1 2 4 ;1 3 4 ;2 3 4 ;");
    lists("[+1]^8?ACDEFGHI", "1 2 3 4 5 6 7 8 ;");
    lists("[+1]^2?(AC)[+1]D", "1 3 2 ;2 3 1 ;");
    lists("[+1]^2?A[+9]CD[#a]E[+2#a]", "2 3 4 ;2 4 3 ;");
    lists("<[+1]@K,W>[+2]^2?KACWD", "2 3 ;2 5 ;3 5 ;");
    lists("(AC)[+1][+1]", "1 2 ;2 1 ;");

    const int two_one[] = { 2, 1, -1 }, two_one_three[] = { 2, 1, 3, -1 }, three_two_one[] = { 3, 2, 1, -1 }, one_three_two[] = { 1, 3, 2, -1 };
    const int two_three_one[] = { 2, 3, 1, -1 }, three_one_two[] = { 3, 1, 2, -1 }, last_two[] = { 1, 2, 3, 4, 5, 6, 9, 8, -1 }, second_run[] = { 1, 2, 4, 3, -1 };
    descends("[+1]^2?AC", two_one);
    descends("[+1]^2[+1]?ACD", two_one_three);
    descends("[+1]^2[+1]?ACD", three_two_one);
    descends("[+1][+1]^2?ACD", one_three_two);
    descends("[+1]^3?ACD", two_one_three);
    descends("[+1]^3?ACD", one_three_two);
    descends("[+1]^2[+1]^2?ACDE", second_run);
    descends("[+1]^8?ACDEFGHIK", last_two);
    /* without a mass, the ledger says 16 before 18 */
    take("[+1]^2[x]?ACD");
    refused("[+1]^2[x]?ACD", two_one_three, HWEMIDUK_NOT_ALLOWED, HWEMIDUK_NO_MASS, 1);

    /* the same positions where nothing asks for ascent */
    allowed("[+1][+1]?AC", two_one);
    allowed("(AC)[+1][+1]", two_one);
    allowed("[+1]^2[+1]?ACD", two_three_one);
    allowed("[+1][+1]^2?ACD", three_one_two);
    return wrong;
}
