/*
 * Searches the sheet on standard input and prints the routed channel: for each net the columns that it runs from and to, and its track. A
 * net that needs none has 0, such as a straight wire on a CP sheet. Where the best assignment has pins of two nets in a column this prints
 * 'refused 18', and of a refused sheet its number.
 *
 *     cc examples/routed-channel.c $(pkg-config --cflags --libs cazdrob) -o routed-channel
 *     ./routed-channel < examples/routed-channel.sheet
 */
#include <cazdrob.h>
#include <stdio.h>
#include <stdlib.h>

int main(void) {
    uint8_t sheet[CAZDROB_SHEET_MAX], columns[CAZDROB_COLUMNS_MAX];
    size_t len = fread(sheet, 1, sizeof sheet, stdin);
    if (ferror(stdin) || getchar() != EOF) {
        fprintf(stderr, "routed-channel: the input cannot be read, or is longer than any sheet\n");
        return 1;
    }

    size_t cells = cazdrob_cells(sheet, len);
    /* one more than is needed: a refused sheet needs none, and no null pointer may be passed */
    uint16_t *work = malloc((cells + 1) * sizeof *work);
    if (work == NULL) {
        perror("routed-channel");
        return 1;
    }
    uint32_t density;
    uint32_t refused = cazdrob_search(sheet, len, columns, sizeof columns, work, cells, &density);
    free(work);

    struct cazdrob_span spans[CAZDROB_NETS_MAX];
    size_t nets = 0;
    uint32_t tracks = 0;
    int32_t amount;
    /* a sound sheet has 12 bytes for each terminal and 12 of its trailer; what a search finds is never refused with 14 */
    if (!refused) refused = cazdrob_tracks(sheet, len, columns, len / 12 - 1, spans, CAZDROB_NETS_MAX, &nets, &tracks, &amount);
    if (refused) {
        printf("refused %u\n", (unsigned)refused);
        return 0;
    }

    printf("nets %zu, tracks %u\n", nets, (unsigned)tracks);
    printf("  net  from  to  track\n");
    for (const struct cazdrob_span *span = spans; span < spans + nets; span++)
        printf("%5u  %4u  %2u  %5u\n", (unsigned)span->net, (unsigned)span->left, (unsigned)span->right, (unsigned)span->track);
    return 0;
}
