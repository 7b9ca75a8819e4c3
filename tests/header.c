/* The header is good C and good C++, links in both, its macros are the limits that the library gives, and its structs have the form that the library's have. */
#include <hwemiduk.h>
#include <hwemiduk.h>
#include <stddef.h>
#include <stdio.h>

static int wrong = 0;

static void same(const char *name, uint64_t macro, uint64_t limit)
{
    if (macro != limit) {
        printf("%s: %llu in the header, and not %llu\n", name, (unsigned long long)macro, (unsigned long long)limit);
        wrong = 1;
    }
}

int main(void)
{
    hwemiduk_limits_t limits;
    hwemiduk_limits(&limits);
    same("HWEMIDUK_VERSION_NUMBER", HWEMIDUK_VERSION_NUMBER, hwemiduk_version());
    same("HWEMIDUK_LINE", HWEMIDUK_LINE, limits.line);
    same("HWEMIDUK_RESIDUES", HWEMIDUK_RESIDUES, limits.residues);
    same("HWEMIDUK_BRACKETS", HWEMIDUK_BRACKETS, limits.brackets);
    same("HWEMIDUK_PARTS", HWEMIDUK_PARTS, limits.parts);
    same("HWEMIDUK_DECLARATIONS", HWEMIDUK_DECLARATIONS, limits.declarations);
    same("HWEMIDUK_PLACES", HWEMIDUK_PLACES, limits.places);
    same("HWEMIDUK_COPIES", HWEMIDUK_COPIES, limits.copies);
    same("HWEMIDUK_POSITIONS", HWEMIDUK_POSITIONS, limits.positions);
    same("HWEMIDUK_ROWS", HWEMIDUK_ROWS, limits.rows);
    same("HWEMIDUK_BYTES", HWEMIDUK_BYTES, limits.bytes);
    same("HWEMIDUK_NUMBERS", HWEMIDUK_NUMBERS, limits.numbers);
    same("HWEMIDUK_BLOCK", HWEMIDUK_BLOCK, limits.block);
    same("HWEMIDUK_BLOCKS", HWEMIDUK_BLOCKS, limits.blocks);
    /* document 01's numbers for the limits that have no macro, which also show that the struct lies as the library writes it */
    same("text", 128, limits.text);
    same("label", 16, limits.label);
    same("depth", 8, limits.depth);
    same("count", 99, limits.count);
    same("size", 1000000, limits.size);
    same("decimals", 6, limits.decimals);
    /* document 02's */
    same("block", 512, limits.block);
    same("blocks", 128, limits.blocks);
    /* the sizes that these give, and the structs, as crates/scope has them */
    same("letters", HWEMIDUK_LETTERS_AT, 3);
    same("sections", HWEMIDUK_SECTIONS_AT, 257);
    same("brackets", HWEMIDUK_BRACKET_AT(0), 511);
    same("bracket's places", HWEMIDUK_PLACES_AT(0), 511 + 36);
    same("bracket's row", HWEMIDUK_BRACKET_AT(1), 511 + 53);
    same("texts", HWEMIDUK_TEXTS_AT, 3903);
    same("bytes", HWEMIDUK_BYTES, 7999);
    same("site", sizeof(hwemiduk_site), 4);
    same("site's position", offsetof(hwemiduk_site, position), 2);
    same("listing", sizeof(hwemiduk_listing), 18);
    same("listing's mark", offsetof(hwemiduk_listing, mark), 16);
    return wrong;
}
