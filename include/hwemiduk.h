/*
 * Hwemiduk: a register of peptidoforms, one molecule a line, in ProForma 2.1 notation.
 *
 * A line is read into two lent areas, one of bytes and one of numbers; the other calls take the tables in these areas. A register of lines is kept in a lent area of
 * blocks (hwemiduk_blocks_add). Every call answers a number: 0, or the number of a refusal.
 *
 * - What a caller lends to be written (areas, output, rows, entries, positions, a listing, blocks, a placement, single values) a refusal leaves exactly as it was, and success
 *   leaves as it was past what the call says it writes. Only a refusal sets *place; only a refusal with 15 sets *length.
 * - Any bytes and any numbers are answered: junk in the areas is refused with 14, a slice that is too short with 13, blocks that are damaged with 25.
 * - A slice passes as a pointer and the number of its elements, which must be there; slices may be longer than is asked for. NO POINTER MAY BE NULL, not even
 *   with a length of 0, and each is aligned as its type asks. What is written overlaps nothing else that is lent in the same call.
 * - Totals and ledgers are of the modifications only: the masses of the residues themselves are not in them. Only stated masses enter them: one behind Obs is measured.
 *
 * What it needs: a processor and a system of the x86-64 System V convention (Linux), the registers of SSE2, and of the C library `memcpy` and `memset` alone, so that
 * it also links without one. The code is position independent. It has no state, no locks and no thread storage, takes no memory, and does no input or output: calls
 * may run at the same time, on areas of their own.
 *
 * Stack, in KiB, the most that is measured on lines and areas made to take much (tests/stack.c): hwemiduk_version, hwemiduk_limits, hwemiduk_composition and hwemiduk_first_row 1,
 * hwemiduk_verdict and hwemiduk_read 11, hwemiduk_entry and hwemiduk_blocks_add 27, hwemiduk_ledger and hwemiduk_rows 20, hwemiduk_blocks_empty, hwemiduk_blocks_entry and hwemiduk_blocks_survey 1,
 * hwemiduk_blocks_fetch and hwemiduk_blocks_remove 30, every other call 16. Have 64 KiB free.
 *
 * Link libhwemiduk.a or libhwemiduk.so.0 (`make`, `make install`; pkg-config hwemiduk). The number behind .so is raised when a struct here changes its form or its
 * size, when a size or a limit that a macro here names changes, when the tables lie otherwise in the areas, when a call changes its arguments, or when an answer's
 * number changes its meaning. A new call or a new refusal does not raise it: be ready for a number that you do not know.
 */
#ifndef HWEMIDUK_H
#define HWEMIDUK_H

#include <stddef.h>
#include <stdint.h>

#ifdef __cplusplus
extern "C" {
#endif

/* ---- The version of this header, as the file VERSION has it; the number is 10000 * major + 100 * minor + patch. */
#define HWEMIDUK_VERSION "0.1.0"
#define HWEMIDUK_VERSION_NUMBER 100

/* The version of the library that is linked, counted as HWEMIDUK_VERSION_NUMBER is. */
uint32_t hwemiduk_version(void);

/* ---- What the calls answer: 0, or a refusal. docs/SCOPE.md says exactly when each is given. */
enum hwemiduk_answer {
    HWEMIDUK_OK = 0,
    HWEMIDUK_EMPTY_LINE = 1,      /* the line is empty */
    HWEMIDUK_LONG_LINE = 2,       /* the line is longer than 4,096 bytes */
    HWEMIDUK_BAD_BYTE = 3,        /* a byte outside 32 to 126 */
    HWEMIDUK_BAD_ORDER = 4,       /* not of the order of a line */
    HWEMIDUK_TOO_DEEP = 5,        /* pairs nested more than eight deep */
    HWEMIDUK_TOO_MANY = 6,        /* too many residues (254), brackets (64), parts (4), declarations (8) or places (16), a text over 128 bytes or a label over 16 */
    HWEMIDUK_OUT_OF_RANGE = 7,    /* a mass or score of a million or more or with more than 6 decimals, a count outside 1 to 99 */
    HWEMIDUK_NOT_TAKEN = 8,       /* something that is not taken here: Formula, Position, Limit, CoMKP, CoMUP, labels XL.. and BRANCH */
    HWEMIDUK_NAME_OF_DIGITS = 9,  /* prefix U or M with a name of digits only */
    HWEMIDUK_ONLY_INFO = 10,      /* only INFO in a bracket of unknown position or a labile one */
    HWEMIDUK_BAD_LABEL = 11,      /* labels that do not fit: a second one, one defined again, a reference without definition, a count on a labelled bracket, one in an unknown run that nothing refers to */
    HWEMIDUK_MANY_COPIES = 12,    /* more than eight floating copies */
    HWEMIDUK_SHORT_AREA = 13,     /* a lent area is too short */
    HWEMIDUK_NO_TABLES = 14,      /* tables that no accepted line reads to */
    HWEMIDUK_SHORT_OUTPUT = 15,   /* the output is shorter than what is to be written */
    HWEMIDUK_NO_MASS = 16,        /* a modification has no stated mass */
    HWEMIDUK_NO_FURTHER = 17,     /* no placement, no further one, no such row or bracket */
    HWEMIDUK_NOT_ALLOWED = 18,    /* a placement that is not allowed */
    HWEMIDUK_NO_CUTTING = 19,     /* a composition that cannot be cut into listed names and counts */
    HWEMIDUK_DECLARED_INFO = 21,  /* only INFO in a declaration */
    HWEMIDUK_NO_ENTRY = 22,       /* no such entry */
    HWEMIDUK_ENTRY_PRESENT = 23,  /* the entry is present already */
    HWEMIDUK_NO_ROOM = 24,        /* fewer free sound blocks than are needed */
    HWEMIDUK_DAMAGED = 25,        /* damaged: the entry's blocks are not as they should be, or none begins it and some block is unsound */
    HWEMIDUK_NO_BLOCKS = 26       /* the area is not 1 to 128 whole blocks */
};

/* An answer in words. */
static inline const char *hwemiduk_words(uint8_t answer)
{
    switch (answer) {
    case HWEMIDUK_OK: return "accepted";
    case HWEMIDUK_EMPTY_LINE: return "the line is empty";
    case HWEMIDUK_LONG_LINE: return "the line is longer than 4,096 bytes";
    case HWEMIDUK_BAD_BYTE: return "a byte outside 32 to 126";
    case HWEMIDUK_BAD_ORDER: return "not of the order of a line";
    case HWEMIDUK_TOO_DEEP: return "pairs nested more than eight deep";
    case HWEMIDUK_TOO_MANY: return "too many residues (254), brackets (64), parts (4), declarations (8) or places (16), a text over 128 bytes or a label over 16";
    case HWEMIDUK_OUT_OF_RANGE: return "a mass or score of a million or more or with more than 6 decimals, a count outside 1 to 99";
    case HWEMIDUK_NOT_TAKEN: return "something that is not taken here: Formula, Position, Limit, CoMKP, CoMUP, labels XL.. and BRANCH";
    case HWEMIDUK_NAME_OF_DIGITS: return "prefix U or M with a name of digits only";
    case HWEMIDUK_ONLY_INFO: return "only INFO in a bracket of unknown position or a labile one";
    case HWEMIDUK_BAD_LABEL: return "labels that do not fit: a second one, one defined again, a reference without definition, a count on a labelled bracket, one in an unknown run that nothing refers to";
    case HWEMIDUK_MANY_COPIES: return "more than eight floating copies";
    case HWEMIDUK_SHORT_AREA: return "a lent area is too short";
    case HWEMIDUK_NO_TABLES: return "tables that no accepted line reads to";
    case HWEMIDUK_SHORT_OUTPUT: return "the output is shorter than what is to be written";
    case HWEMIDUK_NO_MASS: return "a modification has no stated mass";
    case HWEMIDUK_NO_FURTHER: return "no placement, no further one, no such row or bracket";
    case HWEMIDUK_NOT_ALLOWED: return "a placement that is not allowed";
    case HWEMIDUK_NO_CUTTING: return "a composition that cannot be cut into listed names and counts";
    case HWEMIDUK_DECLARED_INFO: return "only INFO in a declaration";
    case HWEMIDUK_NO_ENTRY: return "no such entry";
    case HWEMIDUK_ENTRY_PRESENT: return "the entry is present already";
    case HWEMIDUK_NO_ROOM: return "fewer free sound blocks than are needed";
    case HWEMIDUK_DAMAGED: return "damaged: the entry's blocks are not as they should be, or none begins it and some block is unsound";
    case HWEMIDUK_NO_BLOCKS: return "the area is not 1 to 128 whole blocks";
    default: return "an answer that this header does not know";
    }
}

/* ---- Limits and sizes. hwemiduk_limits gives all of them; the macros are for arrays of fixed size, and the tests hold them against it. */
#define HWEMIDUK_LINE 4096       /* bytes of a line; a canonical line has no more */
#define HWEMIDUK_ENTRY (HWEMIDUK_LINE + 110)    /* bytes of an entry of the register, its end of line among them; none has more */
#define HWEMIDUK_RESIDUES 254    /* residues of a line */
#define HWEMIDUK_BRACKETS 64     /* brackets of a line */
#define HWEMIDUK_PARTS 4         /* parts of a bracket */
#define HWEMIDUK_DECLARATIONS 8  /* declarations of a line */
#define HWEMIDUK_PLACES 16       /* places of a declaration */
#define HWEMIDUK_COPIES 8        /* floating copies of a line: entries of a placement */
#define HWEMIDUK_POSITIONS (HWEMIDUK_RESIDUES + 2)              /* entries of a ledger, and of positions reached: N-terminus, residues, C-terminus */
#define HWEMIDUK_ROWS (HWEMIDUK_COPIES * HWEMIDUK_POSITIONS)    /* rows of floater and position */
#define HWEMIDUK_PIECES 42       /* pieces of a part's composition: a name has three bytes or more, and a text no more than 128 */
#define HWEMIDUK_SUGARS 24       /* names that a composition is made of (hwemiduk_sugar) */
#define HWEMIDUK_BLOCK 512       /* bytes of a block */
#define HWEMIDUK_BLOCKS 128      /* blocks of an area at most */

typedef struct hwemiduk_limits_t {
    size_t line;          /* bytes of a line, the end of line not counted */
    size_t residues;      /* residues of a line */
    size_t brackets;      /* brackets of a line, square and curly together */
    size_t parts;         /* parts of a bracket */
    size_t text;          /* bytes of a part's text, behind key or prefix */
    size_t label;         /* bytes of a label, without its # */
    size_t depth;         /* pairs [] and {} within each other in a text */
    size_t count;         /* the largest count behind ^ */
    size_t declarations;  /* declarations of a line */
    size_t places;        /* places of a declaration */
    size_t copies;        /* floating copies of a line: entries of a placement */
    size_t rows;          /* rows of floater and position: elements of hwemiduk_site */
    size_t positions;     /* entries of a ledger: elements of int64_t; and of positions reached: elements of hwemiduk_position */
    uint64_t size;        /* masses and scores are below this many units, signs apart: not millionths */
    uint8_t decimals;     /* decimals of a mass or a score */
    size_t bytes;         /* the area of bytes: elements of uint8_t */
    size_t numbers;       /* the area of numbers: elements of int64_t, not bytes */
    size_t block;         /* bytes of a block */
    size_t blocks;        /* blocks of an area at most */
} hwemiduk_limits_t;

/* Writes all limits and sizes. */
void hwemiduk_limits(hwemiduk_limits_t *limits);

/*
 * ---- The tables in the two areas, to the byte
 *
 * The area of bytes: the number of residues, the number of brackets; then, each at its place, letters, sections, rows of brackets, and texts. The number of residues, a
 * position and an offset take two bytes, the low one first (HWEMIDUK_WIDE_AT); every other number in it takes one. The area of numbers has for each bracket the masses of
 * its parts and its score, in millionths. Room that is not used is zero, in both.
 */
#define HWEMIDUK_RESIDUES_AT 0                                                    /* how many residues: two bytes */
#define HWEMIDUK_BRACKETS_USED_AT 2                                               /* how many brackets */
#define HWEMIDUK_LETTERS_AT 3                                                     /* a letter for each residue, in upper case */
#define HWEMIDUK_SECTIONS_AT (HWEMIDUK_LETTERS_AT + HWEMIDUK_RESIDUES)            /* a section for each residue (hwemiduk_section) */
#define HWEMIDUK_BRACKETS_AT (HWEMIDUK_SECTIONS_AT + HWEMIDUK_RESIDUES)           /* a row for each bracket, in order of appearance */
#define HWEMIDUK_BRACKET_HEAD 8                                                   /* bytes before its parts (hwemiduk_head) */
#define HWEMIDUK_PART_ROW 7                                                       /* bytes of a part (hwemiduk_part) */
#define HWEMIDUK_BRACKET_TAIL (1 + HWEMIDUK_PLACES)                               /* bytes behind its parts (hwemiduk_tail) */
#define HWEMIDUK_BRACKET_ROW (HWEMIDUK_BRACKET_HEAD + HWEMIDUK_PARTS * HWEMIDUK_PART_ROW + HWEMIDUK_BRACKET_TAIL)
#define HWEMIDUK_TEXTS_AT (HWEMIDUK_BRACKETS_AT + HWEMIDUK_BRACKETS * HWEMIDUK_BRACKET_ROW)
#define HWEMIDUK_BYTES (HWEMIDUK_TEXTS_AT + HWEMIDUK_LINE)
#define HWEMIDUK_NUMBER_ROW (HWEMIDUK_PARTS + 1)
#define HWEMIDUK_NUMBERS (HWEMIDUK_BRACKETS * HWEMIDUK_NUMBER_ROW)

/*
 * Where the row of bracket k, of its part j and of its places begins in the bytes, and where the part's mass and the bracket's score stand in the numbers; k and j count
 * from 0.
 */
#define HWEMIDUK_BRACKET_AT(k) (HWEMIDUK_BRACKETS_AT + (k) * HWEMIDUK_BRACKET_ROW)
#define HWEMIDUK_PART_AT(k, j) (HWEMIDUK_BRACKET_AT(k) + HWEMIDUK_BRACKET_HEAD + (j) * HWEMIDUK_PART_ROW)
#define HWEMIDUK_PLACES_AT(k) HWEMIDUK_PART_AT(k, HWEMIDUK_PARTS)
#define HWEMIDUK_MASS_AT(k, j) ((k) * HWEMIDUK_NUMBER_ROW + (j))
#define HWEMIDUK_SCORE_AT(k) ((k) * HWEMIDUK_NUMBER_ROW + HWEMIDUK_PARTS)

/* The number that takes two bytes from here on, the low one first: HWEMIDUK_WIDE_AT(tables.bytes + HWEMIDUK_RESIDUES_AT). */
#define HWEMIDUK_WIDE_AT(bytes) ((uint16_t)((bytes)[0] | (bytes)[1] << 8))

/* Both areas in one, and the four arguments that a call takes for them: hwemiduk_total(HWEMIDUK_OF(&tables), &total, &place). */
typedef struct hwemiduk_tables {
    uint8_t bytes[HWEMIDUK_BYTES];
    int64_t numbers[HWEMIDUK_NUMBERS];
} hwemiduk_tables;
#define HWEMIDUK_OF(tables) (tables)->bytes, HWEMIDUK_BYTES, (tables)->numbers, HWEMIDUK_NUMBERS

/* A position: 0 is the N-terminus, 1 to n are the residues, n + 1 is the C-terminus. */
typedef uint16_t hwemiduk_position;

/* The bytes of a bracket's row before its parts. */
enum hwemiduk_head {
    HWEMIDUK_HEAD_KIND = 0,     /* of hwemiduk_kind */
    HWEMIDUK_HEAD_FIRST = 1,    /* first position, two bytes: of a residue, its own; of a range, its first residue's; 0 at the N-terminus, n + 1 at the C-terminus; 0 of an unknown, labile or declared one */
    HWEMIDUK_HEAD_LAST = 3,     /* last position, two bytes: of a range, its last residue's; else the first one again */
    HWEMIDUK_HEAD_COUNT = 5,    /* the count behind ^, 1 to 99; 1 where none is written, and of all that are not of unknown position */
    HWEMIDUK_HEAD_PARTS = 6,    /* how many parts it has, 1 to 4; the rows of the others are zero */
    HWEMIDUK_HEAD_SCORE = 7     /* 0 where its label has no score or it has no label, else one more than the score's decimals */
};

/* The bytes of a part's row. */
enum hwemiduk_part {
    HWEMIDUK_PART_VALUE = 0,         /* of hwemiduk_value */
    HWEMIDUK_PART_KEY = 1,           /* of hwemiduk_key */
    HWEMIDUK_PART_DECIMALS = 2,      /* of a mass, the decimals as written; of a composition 4; else 0 */
    HWEMIDUK_PART_TEXT = 3,          /* bytes of its text, behind key or prefix, of a composition as it is written in the canonical line; 0 of a mass and of a reference */
    HWEMIDUK_PART_LABEL = 4,         /* bytes of its label; 0 where it has none */
    HWEMIDUK_PART_OFFSET = 5         /* where its text begins, counted from HWEMIDUK_TEXTS_AT, two bytes; its label directly follows the text. A mass or reference
                                        with a label has the label there. 0 where it has neither text nor label */
};

/* The bytes of a bracket's row behind its parts. */
enum hwemiduk_tail {
    HWEMIDUK_TAIL_PLACES = 0,    /* how many places it has: of a declaration 1 to 16, else 0 */
    HWEMIDUK_TAIL_SITES = 1      /* its places, in the order in which they are written, one byte each: a letter in upper case, or of hwemiduk_terminus; the others are zero */
};

/* A place of a declaration that is no letter. */
enum hwemiduk_terminus {
    HWEMIDUK_N_TERMINUS = 1,     /* N-term */
    HWEMIDUK_C_TERMINUS = 2      /* C-term */
};

/*
 * Texts and labels are packed in order of appearance, without anything between them. In the numbers, the mass of a part that is a mass or a composition, in millionths,
 * else 0; the score of the bracket's label, in millionths, else 0.
 */
enum hwemiduk_section {
    HWEMIDUK_PLAIN = 0,          /* in no range and no group */
    HWEMIDUK_RANGE_FIRST = 1,    /* the first residue of a range (..) */
    HWEMIDUK_RANGE_NEXT = 2,
    HWEMIDUK_UNSURE_FIRST = 3,   /* the first residue of a group (?..) */
    HWEMIDUK_UNSURE_NEXT = 4
};

enum hwemiduk_kind {
    HWEMIDUK_UNKNOWN = 1,       /* of unknown position: in a run closed by ? */
    HWEMIDUK_LABILE = 2,        /* in {} */
    HWEMIDUK_NTERM = 3,         /* before - */
    HWEMIDUK_ON_RESIDUE = 4,    /* behind a residue */
    HWEMIDUK_ON_RANGE = 5,      /* behind a range (..) */
    HWEMIDUK_CTERM = 6,         /* behind - */
    HWEMIDUK_DECLARED = 7       /* in a declaration <[..]@K,N-term>. These come first: the line's first declaration is bracket 0, its second bracket 1 */
};

enum hwemiduk_value {
    HWEMIDUK_MASS = 1,
    HWEMIDUK_TEXT = 2,        /* a name, an accession or an INFO */
    HWEMIDUK_REFERENCE = 3,   /* a lone reference: its part has a label and nothing else */
    HWEMIDUK_COMPOSITION = 4  /* a glycan composition: a text, in the list's spelling and without counts of 1, and a mass; its key is HWEMIDUK_GLYCAN */
};

enum hwemiduk_key {
    HWEMIDUK_NO_KEY = 0,
    HWEMIDUK_U = 1,
    HWEMIDUK_M = 2,
    HWEMIDUK_R = 3,
    HWEMIDUK_X = 4,
    HWEMIDUK_G = 5,
    HWEMIDUK_C = 6,
    HWEMIDUK_OBS = 7,
    HWEMIDUK_UNIMOD = 8,
    HWEMIDUK_MOD = 9,
    HWEMIDUK_XLMOD = 10,
    HWEMIDUK_RESID = 11,
    HWEMIDUK_GNO = 12,
    HWEMIDUK_INFO = 13,
    HWEMIDUK_GLYCAN = 15    /* 14, 16 and 17 are keys that are not taken here, and stand in no tables */
};

/* ---- Reading and writing */

/*
 * Whether a line is accepted: 0, or the first that is due of 1 to 10, 21, 11, 12 and 19, tried in this order, with the refusal's first place in the line in *place,
 * bytes counted from 0; where the line should go on and ends, it is the line's length.
 */
uint8_t hwemiduk_verdict(const uint8_t *line, size_t line_len, size_t *place);

/*
 * Reads a line: 0 with its tables in the areas; or 13, if an area is shorter than limits.bytes or limits.numbers, with 0 in *place; or 1 to 12, 19 or 21 and *place
 * as hwemiduk_verdict gives them.
 */
uint8_t hwemiduk_read(const uint8_t *line, size_t line_len, uint8_t *bytes, size_t bytes_len, int64_t *numbers, size_t numbers_len, size_t *place);

/*
 * Writes the canonical line of tables: 0 with the line in out, not ended by a zero, and the number of its bytes in *length; or 15 with the length needed in
 * *length; or 13 or 14. out may have any length: asking with a length of 0 tells the length needed.
 */
uint8_t hwemiduk_write(const uint8_t *bytes, size_t bytes_len, const int64_t *numbers, size_t numbers_len, uint8_t *out, size_t out_len, size_t *length);

/*
 * What the register prints of a line with this number, ended by byte 10: 0 with it in out and the number of its bytes in *length; or 15 with the length needed in
 * *length. Every line has an entry, a refused one too; HWEMIDUK_ENTRY bytes are enough for each.
 */
uint8_t hwemiduk_entry(uint64_t number, const uint8_t *line, size_t line_len, uint8_t *out, size_t out_len, size_t *length);

/* ---- Counts: 0 with how many there are in *count; or 13 or 14. */
uint8_t hwemiduk_residues(const uint8_t *bytes, size_t bytes_len, const int64_t *numbers, size_t numbers_len, size_t *count);
uint8_t hwemiduk_brackets(const uint8_t *bytes, size_t bytes_len, const int64_t *numbers, size_t numbers_len, size_t *count);
/* How many floating copies: each is a floater of its own, in order of their brackets. */
uint8_t hwemiduk_floaters(const uint8_t *bytes, size_t bytes_len, const int64_t *numbers, size_t numbers_len, size_t *count);

/*
 * For each floater, in order, its bracket, counted from 0, and which copy of it it is, counted from 1: 0 with the first *count entries of both slices; or 13 (also
 * where one of the two has fewer than limits.copies entries) or 14.
 */
uint8_t hwemiduk_floater_brackets(const uint8_t *bytes, size_t bytes_len, const int64_t *numbers, size_t numbers_len, uint8_t *brackets, size_t brackets_len,
    uint8_t *copies, size_t copies_len, size_t *count);

/*
 * ---- Masses: of the modifications only. The residues' own masses are not in them: the total of a line without modifications is 0.
 *
 * A mass behind Obs is measured, every other mass and each composition is stated. Only stated ones enter total, display and ledger: a modification with only a measured one
 * counts as one without.
 */

/*
 * The sum of the stated masses of all modifications, in millionths of a Dalton, counts multiplied, labile ones too, a declared one once for each position that it reaches
 * (hwemiduk_reached); the residues' own masses are not in it: 0 with it in *millionths; or 16 with how many modifications have no stated mass, those with only a measured
 * one (behind Obs) among them, each copy counted, and each position that a declaration reaches, in *place; or 13 or 14 with 0 in *place.
 */
uint8_t hwemiduk_total(const uint8_t *bytes, size_t bytes_len, const int64_t *numbers, size_t numbers_len, int64_t *millionths, size_t *place);

/* Of which sort the mass of a bracket is. */
enum hwemiduk_mass_sort {
    HWEMIDUK_MASS_NONE = 0,       /* none: no part of it has one */
    HWEMIDUK_MASS_STATED = 1,     /* its first mass or composition that is not behind Obs */
    HWEMIDUK_MASS_MEASURED = 2    /* only measured: its first mass behind Obs, where it has no other. No sum has it */
};

/*
 * The mass that bracket k has by itself, brackets counted from 0; not multiplied by its count, nor by the positions that a declaration reaches. 0 with it in *millionths,
 * 0 where there is none, and with its sort (hwemiduk_mass_sort) in *sort; or 13, 14, or 17, if there is no such bracket, which leave both as they were. The brackets with
 * only a measured mass are those for which *sort is HWEMIDUK_MASS_MEASURED: ask for each from 0 on, until 17 is answered.
 */
uint8_t hwemiduk_bracket_mass(const uint8_t *bytes, size_t bytes_len, const int64_t *numbers, size_t numbers_len, size_t bracket, int64_t *millionths,
    uint8_t *sort);

/*
 * The sum of the stated masses of all modifications for display: 0 with the mass in *daltons and 0 in *missing; or, where modifications have no stated mass, those with only
 * a measured one (behind Obs) among them, also 0, with how many in *missing and 0.0 in *daltons; or 13 or 14.
 */
uint8_t hwemiduk_shown(const uint8_t *bytes, size_t bytes_len, const int64_t *numbers, size_t numbers_len, double *daltons, size_t *missing);

/* ---- Compositions: names of the list of ProForma 2.1, section 10.2, in either case, each perhaps with a count of 1 to 99 without leading zeros. */

/* The name with this number, counted from 0 in the order of the list, in its spelling; empty where there is none. */
static inline const char *hwemiduk_sugar(uint8_t number)
{
    static const char *const names[HWEMIDUK_SUGARS] = {
        "Hex", "HexNAc", "HexS", "HexP", "HexNAcS", "HexN", "HexNS", "dHex", "aHex", "en,aHex", "Neu", "NeuAc", "NeuGc",
        "Sug", "Tri", "Tet", "Pen", "Hep", "Oct", "Non", "Dec", "Fuc", "Sulfate", "Phosphate"
    };
    return number < HWEMIDUK_SUGARS ? names[number] : "";
}

/*
 * Cuts a text, as it stands behind Glycan: in a line or in the texts of an area, into listed names and counts: 0 with two bytes for each piece in pieces, in the order of
 * the text, the number of its name (hwemiduk_sugar) and its count, 1 to 99, which is 1 where none is written, and the number of these bytes in *length; or 15 with the
 * length needed in *length; or 19 where the text cannot be cut so. There is never more than one way to cut a text. It may have any bytes and any length; an empty one has
 * no pieces. 2 * HWEMIDUK_PIECES bytes are enough for each text in the areas, and two bytes for every three of any text.
 */
uint8_t hwemiduk_composition(const uint8_t *text, size_t text_len, uint8_t *pieces, size_t pieces_len, size_t *length);

/* ---- Declarations: <[Oxidation]@M,C-term> at the front of a line puts its modification on each position that a place names, beside what stands there. */

/*
 * The positions that bracket k reaches, brackets counted from 0, as a declaration: those that one of its places names, ascending, each once. 0 with them in the first
 * *count of the positions lent; none are reached by a bracket that is no declaration, nor by a declaration whose places the line has not. Or 13 (also where fewer than
 * limits.positions positions are lent) or 14; or 17, if there is no such bracket.
 */
uint8_t hwemiduk_reached(const uint8_t *bytes, size_t bytes_len, const int64_t *numbers, size_t numbers_len, size_t bracket, hwemiduk_position *positions,
    size_t positions_len, size_t *count);

/*
 * ---- Placements: the position of each floating copy, limits.copies entries, unused ones 0. Of a longer slice the first entries count.
 *
 * In an allowed placement each floating copy stands at a position that it may take (hwemiduk_rows), no two at one, and copies of one bracket, which its count makes, stand in
 * ascending order: they are alike, so that [+1]^2?AC has the one placement 1 2. Brackets side by side are not, however equal: [+1][+1]?AC has 1 2 and 2 1.
 */

/* Whether a placement is an allowed one: 0, or 13, 14 or 18, which copies of one bracket in another than ascending order get too. */
uint8_t hwemiduk_allowed(const uint8_t *bytes, size_t bytes_len, const int64_t *numbers, size_t numbers_len, const hwemiduk_position *placement,
    size_t placement_len);

/*
 * The listing in hand: marked fresh, with zeros, as HWEMIDUK_LISTING gives it; or unmarked, with the placement last handed out. Any other content gets 18. It has 18
 * bytes; the one of padding behind the mark holds nothing: a success may set it, and no call reads it.
 */
typedef struct hwemiduk_listing {
    hwemiduk_position at[HWEMIDUK_COPIES];
    uint8_t mark;
} hwemiduk_listing;

#define HWEMIDUK_FRESH 1
#define HWEMIDUK_UNMARKED 0
#define HWEMIDUK_LISTING { { 0 }, HWEMIDUK_FRESH }

/*
 * Moves a listing on: 0 with the next placement in listing->at, unmarked; or 17 at the last one, or if there is none at all (hwemiduk_why_none says why); or 13, 14 or 18. From a
 * fresh listing, every allowed placement is handed out once, in ascending order; in each, copies of one bracket stand in ascending order. With no floater there is one
 * placement, all zeros.
 */
uint8_t hwemiduk_next(const uint8_t *bytes, size_t bytes_len, const int64_t *numbers, size_t numbers_len, hwemiduk_listing *listing);

/*
 * Why there is no placement: the smallest set of floaters whose permitted positions (hwemiduk_rows), taken together, are fewer than the set; among sets of one size the first in
 * order of their numbers. 0 with the numbers of its floaters, counted from 1 and ascending, in the first *count entries of floaters; *count is 0 exactly where there is a
 * placement. Or 13 (also where floaters has fewer than limits.copies entries) or 14. Of [+1]^3?A these are 1 and 2, which have one position; of [+1]?A[+2] it is 1 alone,
 * which has none. Without any one of them the others of the set can be placed.
 */
uint8_t hwemiduk_why_none(const uint8_t *bytes, size_t bytes_len, const int64_t *numbers, size_t numbers_len, uint8_t *floaters, size_t floaters_len, size_t *count);

/*
 * The ledger of a placement: 0 with the stated mass at each position, in millionths, in the first limits.positions entries; or 16 with how many modifications have no
 * stated mass, those with only a measured one (behind Obs) among them, in *place; or 13, 14 or 18 with 0 in *place.
 */
uint8_t hwemiduk_ledger(const uint8_t *bytes, size_t bytes_len, const int64_t *numbers, size_t numbers_len, const hwemiduk_position *placement,
    size_t placement_len, int64_t *entries, size_t entries_len, size_t *place);

/*
 * ---- Rows: where each floater may stand, floaters counted from 1. A row has 4 bytes; the one of padding between floater and position holds nothing: a success may set it,
 * and no call reads it. So rows and listings are compared by their fields, not by memcmp.
 */
typedef struct hwemiduk_site {
    uint8_t floater;
    hwemiduk_position position;
} hwemiduk_site;

/*
 * The permitted positions: 0 with the rows, ascending, in the first *count of the rows lent; or 13 (also where fewer than limits.rows rows are lent) or 14.
 */
uint8_t hwemiduk_rows(const uint8_t *bytes, size_t bytes_len, const int64_t *numbers, size_t numbers_len, hwemiduk_site *rows, size_t rows_len, size_t *count);

/*
 * The first row of a floater among the first n rows, whatever they hold and in whatever order: 0 with its index, counted from 0, and its position; or 13 where
 * fewer than limits.rows rows are lent; or 17 where there is none. An n above limits.rows is read as limits.rows.
 */
uint8_t hwemiduk_first_row(const hwemiduk_site *rows, size_t rows_len, size_t n, uint8_t floater, size_t *index, hwemiduk_position *position);

/*
 * ---- The register kept in blocks: entries by their numbers, in a lent area of 1 to HWEMIDUK_BLOCKS blocks of HWEMIDUK_BLOCK bytes. All of the slice is the area, and it may be
 * kept in a file as it is. Any number of 32 bits may be an entry's.
 *
 * A block, to the byte; numbers have their low bytes first:
 *   0          its kind (hwemiduk_block_kind)
 *   1, 2       the used length: how many bytes of content it has, 0 to 500
 *   3          the next block of its entry, blocks counted from 0, or 255 where there is none
 *   4 to 7     the number of its entry
 *   8 to 507   content, zero past the used length
 *   508 to 511 the sum of (i + 1) times byte i, i from 0 to 507
 * The content of an entry is its placement, a byte for each of limits.copies positions, and then its canonical line, over its blocks in a row; every block but its last is full.
 * A free block holds zeros up to byte 507, apart from its kind and its next, which is 255.
 *
 * A block is sound where its sum is right and its next is in the area or 255. After one byte of an area that these calls have made changes, whichever it is, the entries with no block
 * touched are fetched as before, and the touched one is refused with 25, as are numbers that no entry has. An entry is damaged (25) where two sound first blocks have its number; where
 * from its sound first block on a block is unsound, of another kind than HWEMIDUK_BLOCK_FURTHER or of another number, or is met twice; where its content is not as said above, its line
 * is not an accepted canonical one, or its placement is none that the line allows; and where no sound first block has its number while any block of the area is unsound. A damaged
 * entry can be neither removed nor added again: fetch each entry that survives and add it to an empty area.
 */
enum hwemiduk_block_kind {
    HWEMIDUK_BLOCK_FREE = 1,
    HWEMIDUK_BLOCK_FIRST = 2,      /* the first of an entry */
    HWEMIDUK_BLOCK_FURTHER = 3     /* a further one. A block of any other kind is never taken, and an entry that leads to one is damaged */
};

/* Makes an empty area, whatever it held: 0 with every block free; or 26. */
uint8_t hwemiduk_blocks_empty(uint8_t *area, size_t area_len);

/*
 * Adds a line under a number, with one placement of it that is allowed (hwemiduk_next has them; of a longer slice the first entries count): 0 with the placement and the
 * canonical line in the free blocks of lowest index, as many as they need. Or 13, if the placement has fewer than limits.copies entries, with 0 in *place; or what
 * hwemiduk_verdict gives the line, with its place in *place; or, tried in this order, 18, 26, 25, 23 where the number has an entry, or 24, with 0 in *place.
 */
uint8_t hwemiduk_blocks_add(uint8_t *area, size_t area_len, uint32_t number, const hwemiduk_position *placement, size_t placement_len, const uint8_t *line,
    size_t line_len, size_t *place);

/*
 * Fetches the entry with this number: 0 with its placement in the first limits.copies entries, its canonical line at the front of out, not ended by a zero, and the number of its
 * bytes in *length; or 13, if the placement has fewer than limits.copies entries, 26, 25 or 22; or 15 with the length needed in *length. out may have any length; HWEMIDUK_LINE bytes
 * are enough for each line.
 */
uint8_t hwemiduk_blocks_fetch(const uint8_t *area, size_t area_len, uint32_t number, hwemiduk_position *placement, size_t placement_len, uint8_t *out, size_t out_len,
    size_t *length);

/* Removes the entry with this number: 0 with its blocks free; or 26, 25 or 22. */
uint8_t hwemiduk_blocks_remove(uint8_t *area, size_t area_len, uint32_t number);

/*
 * The first sound first block from block `from` on, blocks counted from 0: 0 with the block in *block and the number in it in *number; or 26, or 17 where there is none. Asked for
 * again from *block + 1 on, it lists every entry that begins in a sound block; hwemiduk_blocks_fetch says which of them survive.
 */
uint8_t hwemiduk_blocks_entry(const uint8_t *area, size_t area_len, size_t from, size_t *block, uint32_t *number);

/* Counts each block once: 0 with how many are sound and free, first, further, and of no such kind, and how many are unsound, whatever their kind; or 26. */
uint8_t hwemiduk_blocks_survey(const uint8_t *area, size_t area_len, size_t *free, size_t *first, size_t *further, size_t *other, size_t *unsound);

#ifdef __cplusplus
}
#endif

#endif
