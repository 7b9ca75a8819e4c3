/*
 * Lists the placements of a line with their ledgers, and its total: placements 'M[+16#a]C[#a]'. Copies of one bracket ([+1]^2?AC) stand in ascending order. Where there is no
 * total, it names the brackets with only a measured mass: placements 'A[Obs:+1]'.
 */
#include <hwemiduk.h>
#include <inttypes.h>
#include <stdio.h>
#include <string.h>

static hwemiduk_tables tables;
static int64_t ledger[HWEMIDUK_POSITIONS];

int main(int argc, char **argv)
{
    if (argc != 2) {
        fprintf(stderr, "usage: placements LINE\n");
        return 2;
    }
    size_t place, floaters, missing;
    uint8_t refusal = hwemiduk_read((const uint8_t *)argv[1], strlen(argv[1]), HWEMIDUK_OF(&tables), &place);
    if (refusal != HWEMIDUK_OK) {
        printf("refused: %d at %zu: %s\n", refusal, place, hwemiduk_words(refusal));
        return 1;
    }
    hwemiduk_floaters(HWEMIDUK_OF(&tables), &floaters);
    hwemiduk_listing listing = HWEMIDUK_LISTING;
    while (hwemiduk_next(HWEMIDUK_OF(&tables), &listing) == HWEMIDUK_OK) {
        printf("placement");
        for (size_t i = 0; i < floaters; i++)
            printf(" %d", listing.at[i]);
        printf(":");
        if (hwemiduk_ledger(HWEMIDUK_OF(&tables), listing.at, HWEMIDUK_COPIES, ledger, HWEMIDUK_POSITIONS, &missing) == HWEMIDUK_OK) {
            for (size_t position = 0; position < HWEMIDUK_POSITIONS; position++)
                if (ledger[position] != 0)
                    printf(" %" PRId64 " at %zu", ledger[position], position);
        } else {
            printf(" %zu without a stated mass", missing);
        }
        printf("\n");
    }
    int64_t total;
    if (hwemiduk_total(HWEMIDUK_OF(&tables), &total, &missing) == HWEMIDUK_OK) {
        printf("total: %" PRId64 "\n", total);
        return 0;
    }
    printf("total: %zu without a stated mass", missing);
    int64_t mass;
    uint8_t sort;
    for (size_t k = 0; hwemiduk_bracket_mass(HWEMIDUK_OF(&tables), k, &mass, &sort) == HWEMIDUK_OK; k++)
        if (sort == HWEMIDUK_MASS_MEASURED)
            printf("; bracket %zu only measured: %" PRId64, k, mass);
    printf("\n");
    return 0;
}
