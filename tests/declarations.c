/*
 * hwemiduk_reached: the positions that declarations reach, written by hand from document 02 (docs/DECISIONS.md has these lines), into a slice that is longer than need be;
 * and what is refused.
 */
#include <hwemiduk.h>
#include <stdio.h>
#include <string.h>

#define JUNK 0xA5A5
#define LONGER (HWEMIDUK_POSITIONS + 3)

static int wrong = 0;
static hwemiduk_tables tables;
static hwemiduk_position positions[LONGER];

static void expect(int holds, const char *line, const char *what)
{
    if (!holds) {
        printf("%s: not so: %s\n", line, what);
        wrong = 1;
    }
}

static void junk(void)
{
    for (int i = 0; i < LONGER; i++)
        positions[i] = JUNK;
}

static int is_junk(size_t from)
{
    while (from < LONGER && positions[from] == JUNK)
        from++;
    return from == LONGER;
}

/* What each bracket of a line reaches: its positions, each ended by a blank, and a semicolon behind each bracket, as in "0 2 ;;". */
static void reaches(const char *line, const char *expected)
{
    static char shown[8 * HWEMIDUK_POSITIONS * HWEMIDUK_DECLARATIONS];
    size_t place, brackets, count, end = 0;
    shown[0] = 0;
    expect(hwemiduk_read((const uint8_t *)line, strlen(line), HWEMIDUK_OF(&tables), &place) == HWEMIDUK_OK, line, "it is read");
    expect(hwemiduk_brackets(HWEMIDUK_OF(&tables), &brackets) == HWEMIDUK_OK, line, "it has brackets");
    for (size_t k = 0; k < brackets; k++) {
        junk();
        count = JUNK;
        expect(hwemiduk_reached(HWEMIDUK_OF(&tables), k, positions, LONGER, &count) == HWEMIDUK_OK && count <= HWEMIDUK_POSITIONS, line, "positions are told");
        for (size_t i = 0; i < count && i < LONGER; i++)
            end += (size_t)snprintf(shown + end, sizeof shown - end, "%d ", positions[i]);
        end += (size_t)snprintf(shown + end, sizeof shown - end, ";");
        expect(is_junk(count), line, "what lies behind the positions stays");
    }
    expect(strcmp(shown, expected) == 0, line, expected);
    junk();
    count = JUNK;
    expect(hwemiduk_reached(HWEMIDUK_OF(&tables), brackets, positions, LONGER, &count) == HWEMIDUK_NO_FURTHER, line, "no bracket behind the last");
    expect(hwemiduk_reached(HWEMIDUK_OF(&tables), SIZE_MAX, positions, LONGER, &count) == HWEMIDUK_NO_FURTHER, line, "no bracket there");
    expect(hwemiduk_reached(HWEMIDUK_OF(&tables), 0, positions, HWEMIDUK_POSITIONS - 1, &count) == HWEMIDUK_SHORT_AREA, line, "too few positions");
    expect(hwemiduk_reached(HWEMIDUK_OF(&tables), brackets, positions, 0, &count) == HWEMIDUK_SHORT_AREA, line, "no positions, before no such bracket");
    expect(hwemiduk_reached(tables.bytes, HWEMIDUK_BYTES - 1, tables.numbers, HWEMIDUK_NUMBERS, 0, positions, LONGER, &count) == HWEMIDUK_SHORT_AREA, line, "too few bytes");
    expect(hwemiduk_reached(tables.bytes, HWEMIDUK_BYTES, tables.numbers, HWEMIDUK_NUMBERS - 1, 0, positions, LONGER, &count) == HWEMIDUK_SHORT_AREA, line, "too few numbers");
    tables.bytes[HWEMIDUK_BYTES - 1] = 1;
    expect(hwemiduk_reached(HWEMIDUK_OF(&tables), brackets, positions, LONGER, &count) == HWEMIDUK_NO_TABLES, line, "junk, before no such bracket");
    expect(hwemiduk_reached(HWEMIDUK_OF(&tables), 0, positions, HWEMIDUK_POSITIONS - 1, &count) == HWEMIDUK_SHORT_AREA, line, "too few positions, before junk");
    expect(count == JUNK && is_junk(0), line, "a refusal changes nothing");
}

int main(void)
{
    reaches("A", "");
    reaches("[+1]-A[+2]", ";;");
    reaches("<[+1]@k,n-TERM>Ak", "0 2 ;");
    reaches("<[+1]@K,k,K>AK", "2 ;");
    reaches("<[+1]@A>(?AC)(AD)[+2]", "1 3 ;;");
    reaches("<[+1]@D>B", ";");
    reaches("<[+1]@N>NC", "1 ;");
    reaches("<[+1]@K,N-term,C-term>[+2]-K[+3]", "0 1 2 ;;;");
    reaches("<[+1]@K><[+1]@K>K", "1 ;1 ;");
    reaches("<[+1]@X,B,Z,J>XBZJA", "1 2 3 4 ;");
    reaches("<[+1]@c-Term,N-TERM,n,c>NC", "0 1 2 3 ;");
    reaches("<[x]@W><[+1]@C-term>[+2]?{+3}A", ";2 ;;;");
    return wrong;
}
