/*
 * Why there is no placement: the floaters that hwemiduk_why_none names, written by hand from document 02 (L7); and its refusals, which change nothing that is lent.
 */
#include <hwemiduk.h>
#include <stdio.h>
#include <string.h>

#define JUNK 0xA5
#define LONGER 3

static int wrong = 0;

/* What is lent, each with junk behind it. */
static uint8_t bytes[HWEMIDUK_BYTES + LONGER], bytes_before[HWEMIDUK_BYTES + LONGER];
static int64_t numbers[HWEMIDUK_NUMBERS + LONGER], numbers_before[HWEMIDUK_NUMBERS + LONGER];
static uint8_t floaters[HWEMIDUK_COPIES + LONGER], junk[HWEMIDUK_COPIES + LONGER];
#define TABLES bytes, HWEMIDUK_BYTES + LONGER, numbers, HWEMIDUK_NUMBERS + LONGER

static void expect(int holds, const char *line, const char *what)
{
    if (!holds) {
        printf("%s: not so: %s\n", line, what);
        wrong = 1;
    }
}

static void take(const char *line)
{
    size_t place;
    memset(bytes, JUNK, sizeof bytes);
    memset(numbers, JUNK, sizeof numbers);
    expect(hwemiduk_read((const uint8_t *)line, strlen(line), TABLES, &place) == HWEMIDUK_OK, line, "it is read");
    memcpy(bytes_before, bytes, sizeof bytes);
    memcpy(numbers_before, numbers, sizeof numbers);
}

static void only_read(const char *line)
{
    expect(memcmp(bytes, bytes_before, sizeof bytes) == 0 && memcmp(numbers, numbers_before, sizeof numbers) == 0, line, "the areas are only read");
}

/* An answer of 0: these numbers, as digits, in a slice that is longer than need be and in one that is just long enough, with junk left behind them; and the listing's first answer. */
static void names(const char *line, const char *expected)
{
    size_t length = strlen(expected);
    hwemiduk_listing listing = HWEMIDUK_LISTING;
    take(line);
    for (size_t longer = 0; longer <= LONGER; longer += LONGER) {
        size_t count = JUNK;
        memset(floaters, JUNK, sizeof floaters);
        expect(hwemiduk_why_none(TABLES, floaters, HWEMIDUK_COPIES + longer, &count) == HWEMIDUK_OK, line, "it is answered");
        expect(count == length, line, "how many floaters are named");
        for (size_t i = 0; i < length; i++)
            expect(floaters[i] == expected[i] - '0', line, "which floaters are named");
        expect(memcmp(floaters + length, junk, sizeof junk - length) == 0, line, "the entries behind them are left");
    }
    expect(hwemiduk_next(TABLES, &listing) == (length == 0 ? HWEMIDUK_OK : HWEMIDUK_NO_FURTHER), line, "none are named exactly where there is a placement");
    only_read(line);
}

/* A refusal: neither the count nor an entry is set. */
static void refused(const char *line, size_t bytes_len, size_t numbers_len, size_t floaters_len, uint8_t answer)
{
    size_t count = JUNK;
    memset(floaters, JUNK, sizeof floaters);
    expect(hwemiduk_why_none(bytes, bytes_len, numbers, numbers_len, floaters, floaters_len, &count) == answer, line, "the refusal's number");
    expect(count == JUNK && memcmp(floaters, junk, sizeof junk) == 0, line, "a refusal sets nothing");
    only_read(line);
}

/* Too short an area or slice is 13, also over tables of no line; these are 14. */
static void refusals(const char *line)
{
    take(line);
    for (int damaged = 0; damaged < 2; damaged++) {
        refused(line, HWEMIDUK_BYTES - 1, HWEMIDUK_NUMBERS, HWEMIDUK_COPIES, HWEMIDUK_SHORT_AREA);
        refused(line, HWEMIDUK_BYTES, HWEMIDUK_NUMBERS - 1, HWEMIDUK_COPIES, HWEMIDUK_SHORT_AREA);
        refused(line, HWEMIDUK_BYTES, HWEMIDUK_NUMBERS, HWEMIDUK_COPIES - 1, HWEMIDUK_SHORT_AREA);
        refused(line, HWEMIDUK_BYTES, HWEMIDUK_NUMBERS, 0, HWEMIDUK_SHORT_AREA);
        refused(line, 0, 0, 0, HWEMIDUK_SHORT_AREA);
        if (damaged)
            refused(line, HWEMIDUK_BYTES, HWEMIDUK_NUMBERS, HWEMIDUK_COPIES, HWEMIDUK_NO_TABLES);
        bytes[HWEMIDUK_BYTES - 1] = bytes_before[HWEMIDUK_BYTES - 1] = JUNK;
    }
    take(line);
    numbers[HWEMIDUK_NUMBERS - 1] = numbers_before[HWEMIDUK_NUMBERS - 1] = 1;
    refused(line, HWEMIDUK_BYTES + LONGER, HWEMIDUK_NUMBERS + LONGER, HWEMIDUK_COPIES + LONGER, HWEMIDUK_NO_TABLES);
}

int main(void)
{
    memset(junk, JUNK, sizeof junk);

    /* there is a placement */
    names("A", "");
    names("A[+1]", "");
    names("[+1]?AC", "");
    names("[+1]^2?AC", "");
    names("[+1]?A[INFO:x]", "");
    names("[+1]^8?ACDEFGHI", "");

    /* copies are floaters of their own, and the first of them are named */
    names("[+1]^2?A", "12");
    names("[+1]^3?A", "12");
    names("[+1]^2[+2]?A", "12");
    names("[+1][+1]?A", "12");
    names("[+1]^4?ACD", "1234");
    names("<[+9]@I>[+1]^8?ACDEFGHI", "12345678");

    /* what a placed modification has or a declaration reaches is taken */
    names("[+1]?A[+2]", "1");
    names("[+1][+2]?A[+3]", "1");
    names("<[+9]@K>[+1]?K", "1");
    names("[+1]^3?A[+2#a][+9]C", "4");

    /* the smallest; among equals the first in order */
    names("[+1]^3?(A)[+2][+3]C", "45");
    names("[+1#a][+2#b][+3#c][+4#d]?A[#a][#d]C[#b][#c]", "14");
    names("(A)[+1][+2](C)[+3][+4]", "12");
    names("(AC)[+1][+2][+3](D)[+4][+5]", "45");

    /* positions at the termini */
    names("[+1#a][+2#b]?[#a][#b]-A", "12");
    names("[+1#a][+2#b]?[#a][#b]-A-[#b]", "");
    names("[+1#a][+2#b][+3#c]?[#a][#b][#c]-A-[#a][#b][#c]", "123");

    refusals("[+1]?AC");
    refusals("[+1]^3?A");
    return wrong;
}
