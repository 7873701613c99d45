/*
 * Two rows of standard cells on either side of a channel. The cells of a row keep their order and move whole. This prints where each should
 * stand for the least density, with the columns of its pins; named a file, it also writes the sheet there.
 *
 *     cc examples/standard-cells.c $(pkg-config --cflags --libs cazdrob) -o standard-cells
 *     ./standard-cells standard-cells.sheet
 */
#include <cazdrob.h>
#include <stdio.h>
#include <stdlib.h>

enum { COLUMNS = 22 };
enum { NET_A = 1, NET_Q, NET_N1, NET_N2, NET_CLK, NET_OUT };

/* What a cell of the library brings: its width and, on the edge at the channel, its pins from left to right. */
struct kind {
    const char *name;
    uint8_t width, pins;
    struct {
        const char *name;
        uint8_t offset;
    } pin[3];
};
static const struct kind INV = {"INV", 3, 2, {{"A", 1}, {"Y", 3}}};
static const struct kind NAND2 = {"NAND2", 4, 3, {{"A", 1}, {"B", 2}, {"Y", 3}}};
static const struct kind DFF = {"DFF", 9, 3, {{"D", 2}, {"CK", 5}, {"Q", 8}}};
static const struct kind FEED = {"FEED", 1, 1, {{"F", 1}}};

/* A cell of a row: the columns that its left edge may stand in, as far as it fits the channel, and the nets of its pins. */
struct cell {
    const char *name;
    const struct kind *kind;
    uint64_t edges;
    uint16_t nets[3];
};
#define AT(column) (UINT64_C(1) << ((column) - 1))
#define ANYWHERE UINT64_MAX

/* The clock comes through the upper row in one of three columns, and the output leaves near the right end. */
static const struct cell UPPER[] = {
    {"u1", &NAND2, ANYWHERE, {NET_A, NET_Q, NET_N1}},
    {"u2", &INV, ANYWHERE, {NET_N1, NET_N2}},
    {"f1", &FEED, AT(12) | AT(16) | AT(20), {NET_CLK}},
    {"f2", &FEED, AT(19) | AT(20) | AT(21) | AT(22), {NET_OUT}},
};
/* The flip-flop has three places between the power straps. */
static const struct cell LOWER[] = {
    {"f3", &FEED, ANYWHERE, {NET_A}},
    {"u3", &DFF, AT(2) | AT(6) | AT(10), {NET_N2, NET_CLK, NET_Q}},
    {"u4", &INV, ANYWHERE, {NET_Q, NET_OUT}},
};
enum { UPPERS = sizeof UPPER / sizeof UPPER[0], LOWERS = sizeof LOWER / sizeof LOWER[0] };

/* Writes a row as the list that cazdrob_modules takes, and gives its length. */
static size_t put_row(uint8_t *list, const struct cell *row, size_t cells) {
    uint8_t *at = list;
    for (const struct cell *cell = row; cell < row + cells; cell++) {
        const struct kind *kind = cell->kind;
        /* a left edge from which the cell does not fit would be refused: the last one is COLUMNS - width + 1 */
        uint64_t edges = cell->edges & (AT(COLUMNS - kind->width + 2) - 1);
        *at++ = kind->width;
        *at++ = kind->pins;
        for (unsigned shift = 0; shift < 64; shift += 8) *at++ = edges >> shift & 255;
        for (unsigned i = 0; i < kind->pins; i++) {
            *at++ = kind->pin[i].offset;
            *at++ = cell->nets[i] & 255;
            *at++ = cell->nets[i] >> 8;
        }
    }
    return at - list;
}

/* Prints a line for each cell of a row, and gives the place behind the columns of its pins. */
static const uint8_t *print_row(const char *title, const struct cell *row, size_t cells, const uint8_t *columns) {
    printf("%s\n", title);
    for (const struct cell *cell = row; cell < row + cells; cell++) {
        const struct kind *kind = cell->kind;
        printf("  %s %-5s  left edge %2d  pins", cell->name, kind->name, columns[0] - kind->pin[0].offset + 1);
        for (unsigned i = 0; i < kind->pins; i++) printf("  %-2s %2d", kind->pin[i].name, *columns++);
        printf("\n");
    }
    return columns;
}

static void stop(const char *what, unsigned number) {
    fprintf(stderr, "standard-cells: %s: refused %u\n", what, number);
    exit(1);
}

int main(int argc, char **argv) {
    uint8_t upper[CAZDROB_SIDE_MAX], lower[CAZDROB_SIDE_MAX], sheet[CAZDROB_SHEET_MAX], columns[CAZDROB_COLUMNS_MAX];
    size_t upper_len = put_row(upper, UPPER, UPPERS), lower_len = put_row(lower, LOWER, LOWERS), len;
    uint32_t refused = cazdrob_modules(COLUMNS, upper, upper_len, lower, lower_len, sheet, sizeof sheet, &len);
    if (refused) stop("the sheet of the cells", refused);

    size_t cells = cazdrob_cells(sheet, len);
    uint16_t *work = malloc(cells * sizeof *work);
    if (work == NULL) {
        perror("standard-cells");
        return 1;
    }
    uint32_t density;
    refused = cazdrob_search(sheet, len, columns, sizeof columns, work, cells, &density);
    free(work);
    if (refused) stop("the search", refused);

    printf("a sheet of %zu bytes, searched with %zu work cells\n", len, cells);
    printf("least density %u\n", (unsigned)density);
    print_row("lower row", LOWER, LOWERS, print_row("upper row", UPPER, UPPERS, columns));

    if (argc > 1) {
        FILE *file = fopen(argv[1], "wb");
        if (file == NULL || fwrite(sheet, 1, len, file) != len || fclose(file) != 0) {
            perror(argv[1]);
            return 1;
        }
    }
    return 0;
}
