/*
 * How much stack each call takes at most, over the lines of standard input, and over areas whose texts are full of openings: each call runs on a stack of its own that
 * is painted before. Prints the most for each, and fails where that is more than the header says.
 */
#define _XOPEN_SOURCE 700
#include <hwemiduk.h>
#include <stdio.h>
#include <string.h>
#include <ucontext.h>

#define SIZE (256 * 1024)
#define PAINT 0xC3

enum call { NOTHING, VERSION, LIMITS, VERDICT, READ, ENTRY, WRITE, RESIDUES, BRACKETS, FLOATERS, FLOATER_BRACKETS, TOTAL, BRACKET_MASS, SHOWN, ALLOWED, NEXT, WHY_NONE, LEDGER, ROWS, FIRST_ROW, COMPOSITION, REACHED, BLOCKS_EMPTY,
    BLOCKS_ADD, BLOCKS_FETCH, BLOCKS_REMOVE, BLOCKS_ENTRY, BLOCKS_SURVEY, CALLS };
static const char *const names[CALLS] = { "nothing", "version", "limits", "verdict", "read", "entry", "write", "residues", "brackets", "floaters", "floater_brackets", "total", "bracket_mass", "shown", "allowed", "next",
    "why_none", "ledger", "rows", "first_row", "composition", "reached", "blocks_empty", "blocks_add", "blocks_fetch", "blocks_remove", "blocks_entry", "blocks_survey" };
/* in KiB, as the header says */
static const size_t said[CALLS] = { 0, 1, 1, 11, 11, 27, 16, 16, 16, 16, 16, 16, 16, 16, 16, 16, 16, 20, 20, 1, 1, 16, 1, 27, 30, 30, 1, 1 };
static size_t most[CALLS];

static _Alignas(64) unsigned char stack[SIZE];
static ucontext_t here, there;
static enum call current;
static const uint8_t *line;
static size_t length;
static hwemiduk_tables tables;
static hwemiduk_site rows[HWEMIDUK_ROWS];
static hwemiduk_position placement[HWEMIDUK_COPIES], positions[HWEMIDUK_POSITIONS];
static const hwemiduk_position zeros[HWEMIDUK_COPIES];
static int64_t entries[HWEMIDUK_POSITIONS];
/* Nearly full of entries of one block, with room for the longest line. */
static uint8_t area[HWEMIDUK_BLOCKS * HWEMIDUK_BLOCK];
#define OTHERS (HWEMIDUK_BLOCKS - 9)
static uint8_t entry[HWEMIDUK_ENTRY], out[HWEMIDUK_LINE], of[HWEMIDUK_COPIES], copy[HWEMIDUK_COPIES];

static void run(void)
{
    static hwemiduk_limits_t limits;
    static hwemiduk_listing listing;
    static const hwemiduk_listing fresh = HWEMIDUK_LISTING;
    static size_t place, index;
    static int64_t total;
    static uint8_t sort;
    static double daltons;
    static hwemiduk_position position;
    static size_t counts[5];
    static uint32_t number;
    switch (current) {
    case VERSION: hwemiduk_version(); break;
    case LIMITS: hwemiduk_limits(&limits); break;
    case VERDICT: hwemiduk_verdict(line, length, &place); break;
    case READ: hwemiduk_read(line, length, HWEMIDUK_OF(&tables), &place); break;
    case ENTRY: hwemiduk_entry(UINT64_MAX, line, length, entry, sizeof entry, &place); break;
    case WRITE: hwemiduk_write(HWEMIDUK_OF(&tables), out, sizeof out, &place); break;
    case RESIDUES: hwemiduk_residues(HWEMIDUK_OF(&tables), &place); break;
    case BRACKETS: hwemiduk_brackets(HWEMIDUK_OF(&tables), &place); break;
    case FLOATERS: hwemiduk_floaters(HWEMIDUK_OF(&tables), &place); break;
    case FLOATER_BRACKETS: hwemiduk_floater_brackets(HWEMIDUK_OF(&tables), of, sizeof of, copy, sizeof copy, &place); break;
    case TOTAL: hwemiduk_total(HWEMIDUK_OF(&tables), &total, &place); break;
    case BRACKET_MASS: hwemiduk_bracket_mass(HWEMIDUK_OF(&tables), 0, &total, &sort); break;
    case SHOWN: hwemiduk_shown(HWEMIDUK_OF(&tables), &daltons, &place); break;
    case ALLOWED: hwemiduk_allowed(HWEMIDUK_OF(&tables), placement, HWEMIDUK_COPIES); break;
    case NEXT:
        listing = fresh;
        for (int i = 0; i < 3 && hwemiduk_next(HWEMIDUK_OF(&tables), &listing) == HWEMIDUK_OK; i++)
            memcpy(placement, listing.at, sizeof placement);
        break;
    case WHY_NONE: hwemiduk_why_none(HWEMIDUK_OF(&tables), of, sizeof of, &place); break;
    case LEDGER: hwemiduk_ledger(HWEMIDUK_OF(&tables), placement, HWEMIDUK_COPIES, entries, HWEMIDUK_POSITIONS, &place); break;
    case ROWS: hwemiduk_rows(HWEMIDUK_OF(&tables), rows, HWEMIDUK_ROWS, &place); break;
    case FIRST_ROW: hwemiduk_first_row(rows, HWEMIDUK_ROWS, HWEMIDUK_ROWS, 9, &index, &position); break;
    case COMPOSITION: hwemiduk_composition(line, length, out, sizeof out, &place); break;
    case REACHED: hwemiduk_reached(HWEMIDUK_OF(&tables), 0, positions, HWEMIDUK_POSITIONS, &place); break;
    case BLOCKS_EMPTY: hwemiduk_blocks_empty(area, sizeof area); break;
    case BLOCKS_ADD:
        for (uint32_t k = 0; k < OTHERS; k++)
            hwemiduk_blocks_add(area, sizeof area, k, zeros, HWEMIDUK_COPIES, (const uint8_t *)"A", 1, &place);
        hwemiduk_blocks_add(area, sizeof area, UINT32_MAX, placement, HWEMIDUK_COPIES, line, length, &place);
        break;
    case BLOCKS_FETCH: hwemiduk_blocks_fetch(area, sizeof area, UINT32_MAX, positions, HWEMIDUK_POSITIONS, out, sizeof out, &place); break;
    case BLOCKS_REMOVE: hwemiduk_blocks_remove(area, sizeof area, UINT32_MAX); break;
    case BLOCKS_ENTRY: hwemiduk_blocks_entry(area, sizeof area, HWEMIDUK_BLOCKS - 1, &place, &number); break;
    case BLOCKS_SURVEY: hwemiduk_blocks_survey(area, sizeof area, counts, counts + 1, counts + 2, counts + 3, counts + 4); break;
    default: break;
    }
}

static void measured(enum call call)
{
    size_t untouched = 0;
    memset(stack, PAINT, sizeof stack);
    current = call;
    getcontext(&there);
    there.uc_stack.ss_sp = stack;
    there.uc_stack.ss_size = sizeof stack;
    there.uc_link = &here;
    makecontext(&there, run, 0);
    swapcontext(&here, &there);
    while (untouched < sizeof stack && stack[untouched] == PAINT)
        untouched++;
    if (sizeof stack - untouched > most[call])
        most[call] = sizeof stack - untouched;
}

static void all_from(enum call call)
{
    memset(placement, 0, sizeof placement);
    for (; call < CALLS; call = (enum call)(call + 1))
        measured(call);
}

int main(void)
{
    static uint8_t input[1 << 20];
    size_t size = fread(input, 1, sizeof input, stdin), start = 0;
    int wrong = size == 0;
    while (start < size) {
        uint8_t *end = (uint8_t *)memchr(input + start, '\n', size - start);
        line = input + start;
        length = end == NULL ? size - start : (size_t)(end - line);
        all_from(NOTHING);
        memset(tables.bytes + HWEMIDUK_TEXTS_AT, '[', HWEMIDUK_LINE);
        all_from(WRITE);
        start += length + 1;
    }
    for (int call = NOTHING + 1; call < CALLS; call++) {
        size_t took = most[call] > most[NOTHING] ? most[call] - most[NOTHING] : 0;
        printf("%s %zu%s\n", names[call], took, took > said[call] * 1024 ? ": more than the header says" : "");
        wrong = wrong || took > said[call] * 1024;
    }
    return wrong;
}
