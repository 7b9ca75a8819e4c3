/*
 * The tables of a line to the byte, as the header says that they lie, and the mass of each of its brackets: what is expected here is written by hand from the line. Then the
 * words of each answer, one a line.
 */
#include <hwemiduk.h>
#include <stdio.h>
#include <string.h>

/* kinds 1 to 7, all sections, a mass with a label, one without, a reference, scores, a count, keys, prefixes, two parts, a composition with a label, places of each sort */
static const char line[] = "<[+3.5|Name]@c,N-TERM,C><[w]@c-term,a,a,a,a,a,a,a,a,a,a,a,a,a,a,z>[+1#a(0.5)][Acetyl|INFO:x]^2?{Hex}[U:Oxidation]-(?ac)(DE)[M:y|Obs:-2.50]F[#a(-1.25)][x|glycan:HEXNAC1hex2#b]-[UNIMOD:35]";
static const char texts[] = "NamewaAcetylxHexOxidationyaxHexNAcHex2b35";
#define ROWS 10

static int wrong = 0;

/* A number in two bytes, the low one first. */
static void wide(uint8_t *at, int number)
{
    at[0] = (uint8_t)(number & 0xFF);
    at[1] = (uint8_t)(number >> 8);
}

static void same(const char *what, int at, int is, int should)
{
    if (is != should) {
        printf("%s at %d: %d, and not %d\n", what, at, is, should);
        wrong = 1;
    }
}

int main(void)
{
    static const struct {
        int kind, first, last, count, parts, score;
        long long score_millionths;
        struct { int value, key, decimals, text, label, offset; long long millionths; } part[2];
        const char *sites; /* a terminus by its number */
        int sort;
        long long mass;
    } rows[ROWS] = {
        { HWEMIDUK_DECLARED, 0, 0, 1, 2, 0, 0, { { HWEMIDUK_MASS, HWEMIDUK_NO_KEY, 1, 0, 0, 0, 3500000 }, { HWEMIDUK_TEXT, HWEMIDUK_NO_KEY, 0, 4, 0, 0, 0 } }, "C\1C", HWEMIDUK_MASS_STATED, 3500000 },
        { HWEMIDUK_DECLARED, 0, 0, 1, 1, 0, 0, { { HWEMIDUK_TEXT, HWEMIDUK_NO_KEY, 0, 1, 0, 4, 0 }, { 0, 0, 0, 0, 0, 0, 0 } }, "\2AAAAAAAAAAAAAAZ", HWEMIDUK_MASS_NONE, 0 },
        { HWEMIDUK_UNKNOWN, 0, 0, 1, 1, 2, 500000, { { HWEMIDUK_MASS, HWEMIDUK_NO_KEY, 0, 0, 1, 5, 1000000 }, { 0, 0, 0, 0, 0, 0, 0 } }, "", HWEMIDUK_MASS_STATED, 1000000 },
        { HWEMIDUK_UNKNOWN, 0, 0, 2, 2, 0, 0, { { HWEMIDUK_TEXT, HWEMIDUK_NO_KEY, 0, 6, 0, 6, 0 }, { HWEMIDUK_TEXT, HWEMIDUK_INFO, 0, 1, 0, 12, 0 } }, "", HWEMIDUK_MASS_NONE, 0 },
        { HWEMIDUK_LABILE, 0, 0, 1, 1, 0, 0, { { HWEMIDUK_TEXT, HWEMIDUK_NO_KEY, 0, 3, 0, 13, 0 }, { 0, 0, 0, 0, 0, 0, 0 } }, "", HWEMIDUK_MASS_NONE, 0 },
        { HWEMIDUK_NTERM, 0, 0, 1, 1, 0, 0, { { HWEMIDUK_TEXT, HWEMIDUK_U, 0, 9, 0, 16, 0 }, { 0, 0, 0, 0, 0, 0, 0 } }, "", HWEMIDUK_MASS_NONE, 0 },
        { HWEMIDUK_ON_RANGE, 3, 4, 1, 2, 0, 0, { { HWEMIDUK_TEXT, HWEMIDUK_M, 0, 1, 0, 25, 0 }, { HWEMIDUK_MASS, HWEMIDUK_OBS, 2, 0, 0, 0, -2500000 } }, "", HWEMIDUK_MASS_MEASURED, -2500000 },
        { HWEMIDUK_ON_RESIDUE, 5, 5, 1, 1, 3, -1250000, { { HWEMIDUK_REFERENCE, HWEMIDUK_NO_KEY, 0, 0, 1, 26, 0 }, { 0, 0, 0, 0, 0, 0, 0 } }, "", HWEMIDUK_MASS_NONE, 0 },
        { HWEMIDUK_ON_RESIDUE, 5, 5, 1, 2, 0, 0, { { HWEMIDUK_TEXT, HWEMIDUK_NO_KEY, 0, 1, 0, 27, 0 }, { HWEMIDUK_COMPOSITION, HWEMIDUK_GLYCAN, 4, 10, 1, 28, 527184900 } }, "", HWEMIDUK_MASS_STATED, 527184900 },
        { HWEMIDUK_CTERM, 6, 6, 1, 1, 0, 0, { { HWEMIDUK_TEXT, HWEMIDUK_UNIMOD, 0, 2, 0, 39, 0 }, { 0, 0, 0, 0, 0, 0, 0 } }, "", HWEMIDUK_MASS_NONE, 0 },
    };
    static const int sections[5] = { HWEMIDUK_UNSURE_FIRST, HWEMIDUK_UNSURE_NEXT, HWEMIDUK_RANGE_FIRST, HWEMIDUK_RANGE_NEXT, HWEMIDUK_PLAIN };
    static hwemiduk_tables tables;
    static uint8_t expected[HWEMIDUK_BYTES];
    static int64_t numbers[HWEMIDUK_NUMBERS];
    size_t place;
    memset(&tables, 0xA5, sizeof tables);
    same("answer", 0, hwemiduk_read((const uint8_t *)line, strlen(line), HWEMIDUK_OF(&tables), &place), HWEMIDUK_OK);

    wide(expected + HWEMIDUK_RESIDUES_AT, 5);
    expected[HWEMIDUK_BRACKETS_USED_AT] = ROWS;
    memcpy(expected + HWEMIDUK_LETTERS_AT, "ACDEF", 5);
    for (int i = 0; i < 5; i++)
        expected[HWEMIDUK_SECTIONS_AT + i] = (uint8_t)sections[i];
    for (int k = 0; k < ROWS; k++) {
        uint8_t *head = expected + HWEMIDUK_BRACKET_AT(k);
        head[HWEMIDUK_HEAD_KIND] = (uint8_t)rows[k].kind;
        wide(head + HWEMIDUK_HEAD_FIRST, rows[k].first);
        wide(head + HWEMIDUK_HEAD_LAST, rows[k].last);
        head[HWEMIDUK_HEAD_COUNT] = (uint8_t)rows[k].count;
        head[HWEMIDUK_HEAD_PARTS] = (uint8_t)rows[k].parts;
        head[HWEMIDUK_HEAD_SCORE] = (uint8_t)rows[k].score;
        numbers[HWEMIDUK_SCORE_AT(k)] = rows[k].score_millionths;
        for (int j = 0; j < rows[k].parts; j++) {
            uint8_t *part = expected + HWEMIDUK_PART_AT(k, j);
            part[HWEMIDUK_PART_VALUE] = (uint8_t)rows[k].part[j].value;
            part[HWEMIDUK_PART_KEY] = (uint8_t)rows[k].part[j].key;
            part[HWEMIDUK_PART_DECIMALS] = (uint8_t)rows[k].part[j].decimals;
            part[HWEMIDUK_PART_TEXT] = (uint8_t)rows[k].part[j].text;
            part[HWEMIDUK_PART_LABEL] = (uint8_t)rows[k].part[j].label;
            wide(part + HWEMIDUK_PART_OFFSET, rows[k].part[j].offset);
            numbers[HWEMIDUK_MASS_AT(k, j)] = rows[k].part[j].millionths;
        }
        uint8_t *tail = expected + HWEMIDUK_PLACES_AT(k);
        tail[HWEMIDUK_TAIL_PLACES] = (uint8_t)strlen(rows[k].sites);
        memcpy(tail + HWEMIDUK_TAIL_SITES, rows[k].sites, strlen(rows[k].sites));
    }
    memcpy(expected + HWEMIDUK_TEXTS_AT, texts, strlen(texts));
    for (int i = 0; i < HWEMIDUK_BYTES; i++)
        same("byte", i, tables.bytes[i], expected[i]);
    for (int i = 0; i < HWEMIDUK_NUMBERS; i++)
        same("number", i, tables.numbers[i] == numbers[i], 1);

    for (int k = 0; k < ROWS; k++) {
        int64_t mass = 7;
        uint8_t sort = 0xA5;
        same("answer of a mass", k, hwemiduk_bracket_mass(HWEMIDUK_OF(&tables), (size_t)k, &mass, &sort), HWEMIDUK_OK);
        same("sort of a mass", k, sort, rows[k].sort);
        same("mass", k, mass == rows[k].mass, 1);
    }
    same("none", 0, HWEMIDUK_MASS_NONE, 0);
    same("stated", 0, HWEMIDUK_MASS_STATED, 1);
    same("measured", 0, HWEMIDUK_MASS_MEASURED, 2);
    /* w at A and at the C-terminus, Acetyl twice, Hex, Oxidation, y with a measured mass, UNIMOD:35 */
    int64_t total = 7;
    same("answer of the total", 0, hwemiduk_total(HWEMIDUK_OF(&tables), &total, &place), HWEMIDUK_NO_MASS);
    same("lacking", 0, (int)place, 8);
    same("total", 0, total == 7, 1);

    static const uint8_t low_first[] = { 0x34, 0x92 };
    same("two bytes", 0, HWEMIDUK_WIDE_AT(low_first), 0x9234);
    same("residues", HWEMIDUK_RESIDUES_AT, HWEMIDUK_WIDE_AT(tables.bytes + HWEMIDUK_RESIDUES_AT), 5);
    same("N-terminus", 0, HWEMIDUK_N_TERMINUS, 1);
    same("C-terminus", 0, HWEMIDUK_C_TERMINUS, 2);

    /* there is no answer 20 */
    for (int answer = 1; answer <= HWEMIDUK_NO_BLOCKS; answer++)
        if (answer != 20)
            printf("%d\t%s\n", answer, hwemiduk_words((uint8_t)answer));
    same("unknown answers", 20, strcmp(hwemiduk_words(20), hwemiduk_words(255)), 0);
    return wrong;
}
