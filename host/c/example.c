/* Prints the best assignment of the sheet on standard input, or the number of its refusal, as ./run does: example < a.sheet */
#include <cazdrob.h>
#include <stdio.h>
#include <stdlib.h>

/* the number of two bytes at a place of the sheet */
static unsigned number_at(const uint8_t *sheet, size_t at) { return sheet[at] | (unsigned)sheet[at + 1] << 8; }

/* the lines of a side; at `field` the trailer has the offset of its section and then the number of its terminals */
static void print_side(char side, const uint8_t *sheet, size_t field, const uint8_t *columns) {
    size_t start = number_at(sheet, field);
    unsigned terminals = number_at(sheet, field + 2);
    for (unsigned i = 0; i < terminals; i++)
        printf("%c %u net %u col %u\n", side, i + 1, number_at(sheet, start + 12 * i), (unsigned)columns[i]);
}

static void *grown(void *memory, size_t bytes) {
    memory = realloc(memory, bytes);
    if (memory == NULL) {
        perror("example");
        exit(1);
    }
    return memory;
}

int main(void) {
    size_t room = CAZDROB_SHEET_MAX + 1, len = 0;
    uint8_t *sheet = grown(NULL, room);
    for (size_t got; (got = fread(sheet + len, 1, room - len, stdin)) > 0;) {
        len += got;
        if (len == room) sheet = grown(sheet, room *= 2);
    }
    if (ferror(stdin)) {
        perror("example");
        return 1;
    }

    uint8_t columns[CAZDROB_COLUMNS_MAX];
    size_t cells = cazdrob_cells(sheet, len);
    /* one more than is needed: a refused sheet needs none, and no null pointer may be passed */
    uint16_t *work = grown(NULL, (cells + 1) * sizeof *work);
    uint32_t density;
    uint32_t refused = cazdrob_search(sheet, len, columns, sizeof columns, work, cells, &density);
    if (refused) {
        printf("refused %u\n", (unsigned)refused);
    } else {
        size_t trailer = len - 12;
        printf("density %u\n", (unsigned)density);
        print_side('T', sheet, trailer, columns);
        print_side('B', sheet, trailer + 4, columns + number_at(sheet, trailer + 2));
    }
    free(work);
    free(sheet);
    return 0;
}
