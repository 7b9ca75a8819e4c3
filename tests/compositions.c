/*
 * hwemiduk_composition: the pieces of texts, written by hand, into rooms that are longer, just enough and too short, and what no composition is. All that is lent lies
 * on the heap in exactly the sizes asked for.
 */
#include <hwemiduk.h>
#include <stdio.h>
#include <stdlib.h>
#include <string.h>

#define JUNK 0xA5

static int wrong = 0;

static void expect(int holds, const char *text, const char *what)
{
    if (!holds) {
        printf("%s: not so: %s\n", text, what);
        wrong = 1;
    }
}

/* Cuts a text into a room of so many bytes that is full of junk; the room is handed out. */
static uint8_t cut(const char *text, size_t length, size_t size, uint8_t **pieces, size_t *used)
{
    uint8_t *lent = (uint8_t *)malloc(length), *room = (uint8_t *)malloc(size);
    if (length > 0)
        memcpy(lent, text, length);
    memset(room, JUNK, size);
    *used = JUNK;
    uint8_t answer = hwemiduk_composition(lent, length, room, size, used);
    expect(length == 0 || memcmp(lent, text, length) == 0, text, "the text stays");
    free(lent);
    *pieces = room;
    return answer;
}

static int is_junk(const uint8_t *bytes, size_t size)
{
    for (size_t i = 0; i < size; i++)
        if (bytes[i] != JUNK)
            return 0;
    return 1;
}

/* The names and counts, each ended by a blank, as in "HexNAc 1 Hex 2 ". */
static void pieces_are(const char *text, const char *expected)
{
    static char shown[4096];
    size_t needed, used, end = 0;
    uint8_t *pieces;
    expect(cut(text, strlen(text), 200, &pieces, &needed) == HWEMIDUK_OK && needed <= 200 && needed % 2 == 0, text, "it is cut, two bytes a piece");
    shown[0] = 0;
    for (size_t i = 0; i + 1 < needed && i < 200; i += 2)
        end += (size_t)snprintf(shown + end, sizeof shown - end, "%s %d ", hwemiduk_sugar(pieces[i]), pieces[i + 1]);
    expect(strcmp(shown, expected) == 0, text, expected);
    expect(needed <= 200 && is_junk(pieces + needed, 200 - needed), text, "what lies behind the pieces stays");
    free(pieces);
    expect(cut(text, strlen(text), needed, &pieces, &used) == HWEMIDUK_OK && used == needed, text, "as many bytes as are written are enough");
    free(pieces);
    if (needed > 0) {
        expect(cut(text, strlen(text), needed - 1, &pieces, &used) == HWEMIDUK_SHORT_OUTPUT && used == needed, text, "one byte less is too short");
        expect(is_junk(pieces, needed - 1), text, "15 writes no piece");
        free(pieces);
        expect(cut(text, strlen(text), 0, &pieces, &used) == HWEMIDUK_SHORT_OUTPUT && used == needed, text, "no room is too short");
        free(pieces);
    }
}

static void not_cut(const char *text, size_t length)
{
    for (size_t size = 0; size <= 200; size += 100) {
        size_t used;
        uint8_t *pieces;
        expect(cut(text, length, size, &pieces, &used) == HWEMIDUK_NO_CUTTING, text, "it is not cut");
        expect(used == JUNK && is_junk(pieces, size), text, "19 changes nothing");
        free(pieces);
    }
}

int main(void)
{
    static const char *const none[] = { "S", "Hex 2", "Hex0", "Hex01", "Hex100", "5Hex", "HexN1Ac", "+5", "{C8H13N1O5}1Hex2", "HexNAcX", "xHex", "Man5", "2", "en,Hex", "Glycan:Hex", "Hex#a" };
    static char longest[3 * HWEMIDUK_PIECES + 3], names[16 * HWEMIDUK_PIECES];
    size_t used;
    uint8_t *pieces;
    pieces_are("HexNAc1Hex2", "HexNAc 1 Hex 2 ");
    pieces_are("hexnacHEX2", "HexNAc 1 Hex 2 ");
    pieces_are("hex1HEX2Hex", "Hex 1 Hex 2 Hex 1 ");
    pieces_are("HexPenaHex", "Hex 1 Pen 1 aHex 1 ");
    pieces_are("HexP10en,AHEX99", "HexP 10 en,aHex 99 ");
    pieces_are("HexSug", "Hex 1 Sug 1 ");
    pieces_are("HexSSug", "HexS 1 Sug 1 ");
    pieces_are("HexNeuAc", "Hex 1 NeuAc 1 ");
    pieces_are("HexNNeu", "HexN 1 Neu 1 ");
    pieces_are("", "");
    for (int i = 0; i < HWEMIDUK_SUGARS; i++) {
        char expected[32];
        snprintf(expected, sizeof expected, "%s 1 ", hwemiduk_sugar((uint8_t)i));
        pieces_are(hwemiduk_sugar((uint8_t)i), expected);
    }
    expect(hwemiduk_sugar(HWEMIDUK_SUGARS)[0] == 0 && hwemiduk_sugar(255)[0] == 0, "24", "no name has this number");
    for (int i = 0; i < HWEMIDUK_PIECES; i++) {
        strcat(longest, "Hex");
        strcat(names, "Hex 1 ");
    }
    pieces_are(longest, names);
    expect(cut(longest, strlen(longest), 2 * HWEMIDUK_PIECES, &pieces, &used) == HWEMIDUK_OK && used == 2 * HWEMIDUK_PIECES, longest, "HWEMIDUK_PIECES is enough");
    free(pieces);
    for (size_t i = 0; i < sizeof none / sizeof *none; i++)
        not_cut(none[i], strlen(none[i]));
    not_cut("Hex\0", 4);
    not_cut("\377\200", 2);
    return wrong;
}
