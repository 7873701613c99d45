/*
 * Searches the sheet on standard input and prints of its best assignment the density, how many nets the longest chain of vertical constraints
 * has, and the greater of the two: no wiring in two layers that gives each net one track takes fewer tracks. Where the constraints have a
 * circle this prints 'refused 19' with the lowest net on one, and of a refused sheet its number.
 *
 *     cc examples/constrained-channel.c $(pkg-config --cflags --libs cazdrob) -o constrained-channel
 *     ./constrained-channel < examples/constrained-channel.sheet
 */
#include <cazdrob.h>
#include <stdio.h>
#include <stdlib.h>

int main(void) {
    uint8_t sheet[CAZDROB_SHEET_MAX], columns[CAZDROB_COLUMNS_MAX];
    size_t len = fread(sheet, 1, sizeof sheet, stdin);
    if (ferror(stdin) || getchar() != EOF) {
        fprintf(stderr, "constrained-channel: the input cannot be read, or is longer than any sheet\n");
        return 1;
    }

    size_t cells = cazdrob_cells(sheet, len);
    /* one more than is needed: a refused sheet needs none, and no null pointer may be passed */
    uint16_t *work = malloc((cells + 1) * sizeof *work);
    if (work == NULL) {
        perror("constrained-channel");
        return 1;
    }
    uint32_t density;
    uint32_t refused = cazdrob_search(sheet, len, columns, sizeof columns, work, cells, &density);
    free(work);

    uint32_t chain = 0, bound = 0, net = 0;
    int32_t amount;
    /* a sound sheet has 12 bytes for each terminal and 12 of its trailer; what a search finds is refused with 19 at the most */
    if (!refused) refused = cazdrob_chain(sheet, len, columns, len / 12 - 1, &chain, &bound, &net, &amount);
    if (refused == CAZDROB_CIRCLE)
        printf("refused 19: net %u is on a circle\n", (unsigned)net);
    else if (refused)
        printf("refused %u\n", (unsigned)refused);
    else
        printf("density %u, longest chain %u, bound %u\n", (unsigned)density, (unsigned)chain, (unsigned)bound);
    return 0;
}
