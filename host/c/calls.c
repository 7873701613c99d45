/*
 * Tests the C functions: sheet A and others with either mark, tracks, chains, modules, with every byte around the lent buffers held to
 * what it was. Each number that a function can return is seen. Names each case that fails; the last line is 'N passed, M failed'.
 */
#include <cazdrob.h>
#include <stdio.h>
#include <string.h>

static unsigned passed, failed;

#define EXPECT(condition) expect((condition), #condition, __LINE__)
static void expect(int holds, const char *condition, int line) {
    if (holds) {
        passed++;
    } else {
        failed++;
        printf("FAILED: calls.c:%d: %s\n", line, condition);
    }
}

static const uint8_t A[60] = {
    1, 0, 0, 0,   7, 0, 0, 0, 0, 0, 0, 0,   /* T 1 */
    2, 0, 1, 255, 7, 0, 0, 0, 0, 0, 0, 0,   /* T 2 */
    2, 0, 0, 0,   7, 0, 0, 0, 0, 0, 0, 0,   /* B 1 */
    1, 0, 1, 255, 7, 0, 0, 0, 0, 0, 0, 0,   /* B 2 */
    0, 0, 2, 0,   24, 0, 2, 0, 3, 0, 'C', 'P',
};
static const uint8_t EMPTY[12] = {0, 0, 0, 0, 0, 0, 0, 0, 1, 0, 'C', 'P'};
/* three terminals a side on eight columns, all allowed, with ranges that bind */
static const uint8_t BOUND[84] = {
    1, 0, 0, 0,   255, 0, 0, 0, 0, 0, 0, 0, /* T 1 */
    2, 0, 2, 4,   255, 0, 0, 0, 0, 0, 0, 0, /* T 2 */
    3, 0, 1, 1,   255, 0, 0, 0, 0, 0, 0, 0, /* T 3 */
    3, 0, 0, 0,   255, 0, 0, 0, 0, 0, 0, 0, /* B 1 */
    2, 0, 3, 3,   255, 0, 0, 0, 0, 0, 0, 0, /* B 2 */
    1, 0, 1, 255, 255, 0, 0, 0, 0, 0, 0, 0, /* B 3 */
    0, 0, 3, 0,   36, 0, 3, 0, 8, 0, 'C', 'P',
};
/* a straight pair on one column */
static const uint8_t PAIR[36] = {
    7, 0, 0, 0, 1, 0, 0, 0, 0, 0, 0, 0, /* T 1 */
    7, 0, 0, 0, 1, 0, 0, 0, 0, 0, 0, 0, /* B 1 */
    0, 0, 1, 0, 12, 0, 1, 0, 1, 0, 'C', 'P',
};
/* nets that leave, with one pin each, on three columns, all allowed */
static const uint8_t LEAVING[48] = {
    0x61, 0xea, 0, 0,   7, 0, 0, 0, 0, 0, 0, 0, /* T 1, net 60,001: at the left */
    0xff, 0xff, 1, 255, 7, 0, 0, 0, 0, 0, 0, 0, /* T 2, net 65,535: at both ends */
    0x31, 0xf2, 0, 0,   7, 0, 0, 0, 0, 0, 0, 0, /* B 1, net 62,001: at the right */
    0, 0, 2, 0,         24, 0, 1, 0, 3, 0, 'C', 'P',
};
/* four terminals over three on six columns, all allowed */
static const uint8_t ROUTED[96] = {
    4, 0, 0, 0,   63, 0, 0, 0, 0, 0, 0, 0, /* T 1 */
    5, 0, 1, 255, 63, 0, 0, 0, 0, 0, 0, 0, /* T 2 */
    4, 0, 1, 255, 63, 0, 0, 0, 0, 0, 0, 0, /* T 3 */
    6, 0, 1, 255, 63, 0, 0, 0, 0, 0, 0, 0, /* T 4 */
    4, 0, 0, 0,   63, 0, 0, 0, 0, 0, 0, 0, /* B 1 */
    5, 0, 1, 255, 63, 0, 0, 0, 0, 0, 0, 0, /* B 2 */
    6, 0, 1, 255, 63, 0, 0, 0, 0, 0, 0, 0, /* B 3 */
    0, 0, 4, 0,   48, 0, 3, 0, 6, 0, 'C', 'P',
};

/* the modules of docs/FORMAT.md on top, one more at the bottom, and their sheet on five columns */
static const uint8_t TOP[29] = {
    3, 2, 7, 0, 0, 0, 0, 0, 0, 0,  1, 5, 0, 3, 6, 0, /* width 3, left edges 1 to 3; net 5 at offset 1, net 6 at 3 */
    2, 1, 12, 0, 0, 0, 0, 0, 0, 0, 2, 2, 1,          /* width 2, left edges 3 and 4; net 258 at offset 2 */
};
static const uint8_t BOTTOM[13] = {1, 1, 31, 0, 0, 0, 0, 0, 0, 0, 1, 6, 0}; /* width 1, left edges 1 to 5; net 6 */
static const uint8_t MADE[60] = {
    5, 0, 0, 0,   7, 0, 0, 0, 0, 0, 0, 0,   /* T 1 */
    6, 0, 2, 2,   28, 0, 0, 0, 0, 0, 0, 0,  /* T 2 */
    2, 1, 2, 255, 24, 0, 0, 0, 0, 0, 0, 0,  /* T 3 */
    6, 0, 0, 0,   31, 0, 0, 0, 0, 0, 0, 0,  /* B 1 */
    0, 0, 3, 0,   36, 0, 1, 0, 5, 0, 'C', 'P',
};

/* The lent buffers are the middle of longer ones that are full of these. */
enum { FRONT = 16, COLUMNS = 10, CELLS = 300 };
static const uint8_t BYTE = 0xa5;
static const uint16_t CELL = 0x5aa5;
static const uint32_t DENSITY = 0xdeadbeef;
static const int32_t AMOUNT = -0x5aa55aa5;
static const size_t WRITTEN = 0x5aa55aa5;
static const struct cazdrob_span SPAN = {0xa55a, 0x5aa5, 0xa5a5, 0x5a5a};

struct lent {
    uint32_t number, density;
    uint8_t columns[FRONT + COLUMNS + FRONT];
    uint16_t work[FRONT + CELLS + FRONT];
    int sheet_kept;
};

static struct lent search(const uint8_t *sheet, size_t len, size_t columns, size_t cells) {
    struct lent l;
    uint8_t before[64];
    memcpy(before, sheet, len);
    memset(l.columns, BYTE, sizeof l.columns);
    for (size_t i = 0; i < FRONT + CELLS + FRONT; i++) l.work[i] = CELL;
    l.density = DENSITY;
    l.number = cazdrob_search(sheet, len, l.columns + FRONT, columns, l.work + FRONT, cells, &l.density);
    l.sheet_kept = memcmp(before, sheet, len) == 0;
    return l;
}

/* whether the lent part of these bytes begins with the given ones and everything else is unchanged */
static int bytes_are(const uint8_t *all, size_t len, const uint8_t *given, size_t count) {
    for (size_t i = 0; i < len; i++) {
        int in_given = i >= FRONT && i < FRONT + count;
        if (all[i] != (in_given ? given[i - FRONT] : BYTE)) return 0;
    }
    return 1;
}

static int columns_are(const struct lent *l, const uint8_t *list, size_t count) {
    return bytes_are(l->columns, sizeof l->columns, list, count);
}

/* whether so many of the first work cells are 0 and the others unchanged */
static int zeros_are(const struct lent *l, size_t count) {
    for (size_t i = 0; i < FRONT + CELLS + FRONT; i++) {
        int cleared = i >= FRONT && i < FRONT + count;
        if (l->work[i] != (cleared ? 0 : CELL)) return 0;
    }
    return 1;
}

static int found(struct lent l, uint32_t density, const uint8_t *list, size_t count, size_t cells) {
    return l.number == CAZDROB_OK && l.density == density && columns_are(&l, list, count) && zeros_are(&l, cells) && l.sheet_kept;
}

static int refused(struct lent l, uint32_t number, size_t cleared) {
    return l.number == number && l.density == 0 && columns_are(&l, NULL, 0) && zeros_are(&l, cleared) && l.sheet_kept;
}

/* whether a measurement returns the number and leaves the density, the amount and nothing else */
static int measures(const uint8_t *sheet, size_t len, const uint8_t *list, size_t count, uint32_t number, uint32_t wanted, int32_t by) {
    uint32_t density[3] = {DENSITY, DENSITY, DENSITY};
    int32_t amount[3] = {AMOUNT, AMOUNT, AMOUNT};
    return cazdrob_measure(sheet, len, list, count, &density[1], &amount[1]) == number && density[1] == wanted && amount[1] == by &&
           density[0] == DENSITY && density[2] == DENSITY && amount[0] == AMOUNT && amount[2] == AMOUNT;
}

/* whether tracks on so many records return the number and leave these records, the number of tracks, the amount and nothing else */
static int routes(const uint8_t *sheet, size_t len, const uint8_t *list, size_t count, size_t room, uint32_t number,
                  const struct cazdrob_span *records, size_t written, uint32_t wanted, int32_t by) {
    struct cazdrob_span spans[FRONT + CAZDROB_NETS_MAX + FRONT];
    size_t nets[3] = {WRITTEN, WRITTEN, WRITTEN};
    uint32_t tracks[3] = {DENSITY, DENSITY, DENSITY};
    int32_t amount[3] = {AMOUNT, AMOUNT, AMOUNT};
    for (size_t i = 0; i < FRONT + CAZDROB_NETS_MAX + FRONT; i++) spans[i] = SPAN;
    if (cazdrob_tracks(sheet, len, list, count, spans + FRONT, room, &nets[1], &tracks[1], &amount[1]) != number) return 0;
    for (size_t i = 0; i < FRONT + CAZDROB_NETS_MAX + FRONT; i++) {
        const struct cazdrob_span *record = i >= FRONT && i < FRONT + written ? &records[i - FRONT] : &SPAN;
        if (memcmp(&spans[i], record, sizeof SPAN) != 0) return 0;
    }
    return nets[1] == written && tracks[1] == wanted && amount[1] == by && nets[0] == WRITTEN && nets[2] == WRITTEN &&
           tracks[0] == DENSITY && tracks[2] == DENSITY && amount[0] == AMOUNT && amount[2] == AMOUNT;
}

/* whether a call for the chain returns the number and leaves the chain, the bound, the net, the amount and nothing else */
static int chains(const uint8_t *sheet, size_t len, const uint8_t *list, size_t count, uint32_t number, uint32_t wanted, uint32_t least,
                  uint32_t on, int32_t by) {
    uint32_t chain[3] = {DENSITY, DENSITY, DENSITY}, bound[3] = {DENSITY, DENSITY, DENSITY}, net[3] = {DENSITY, DENSITY, DENSITY};
    int32_t amount[3] = {AMOUNT, AMOUNT, AMOUNT};
    if (cazdrob_chain(sheet, len, list, count, &chain[1], &bound[1], &net[1], &amount[1]) != number) return 0;
    for (size_t i = 0; i < 3; i += 2) {
        if (chain[i] != DENSITY || bound[i] != DENSITY || net[i] != DENSITY || amount[i] != AMOUNT) return 0;
    }
    return chain[1] == wanted && bound[1] == least && net[1] == on && amount[1] == by;
}

/* the records of a row of pins held to columns 1, 2 and so on, where net 0 is no pin, and their columns; gives how many pins there are */
static size_t put_row(uint8_t *records, uint8_t *list, const uint16_t *row, size_t columns) {
    size_t pins = 0;
    for (size_t column = 1; column <= columns; column++) {
        uint16_t net = row[column - 1];
        if (net == 0) continue;
        uint8_t *record = records + 12 * pins;
        memset(record, 0, 12);
        record[0] = (uint8_t)net;
        record[1] = (uint8_t)(net >> 8);
        if (pins > 0) record[2] = 1, record[3] = 255;
        record[4 + (column - 1) / 8] = (uint8_t)(1 << (column - 1) % 8);
        list[pins++] = (uint8_t)column;
    }
    return pins;
}

/* whether a call for the chain of two such rows, on a sheet with this last letter, returns the number and leaves the chain, the bound
 * and the net */
static int marked_rows(uint8_t letter, const uint16_t *top, const uint16_t *bottom, size_t columns, uint32_t number, uint32_t wanted,
                       uint32_t least, uint32_t on) {
    uint8_t sheet[CAZDROB_SHEET_MAX], list[CAZDROB_COLUMNS_MAX];
    size_t p = put_row(sheet, list, top, columns), q = put_row(sheet + 12 * p, list + p, bottom, columns), len = 12 * (p + q);
    memset(sheet + len, 0, 12);
    sheet[len + 2] = (uint8_t)p;
    sheet[len + 4] = (uint8_t)(12 * p);
    sheet[len + 5] = (uint8_t)(12 * p >> 8);
    sheet[len + 6] = (uint8_t)q;
    sheet[len + 8] = (uint8_t)columns;
    sheet[len + 10] = 'C';
    sheet[len + 11] = letter;
    return chains(sheet, len + 12, list, p + q, number, wanted, least, on, 0);
}

/* the same with the mark CP */
static int rows(const uint16_t *top, const uint16_t *bottom, size_t columns, uint32_t number, uint32_t wanted, uint32_t least,
                uint32_t on) {
    return marked_rows('P', top, bottom, columns, number, wanted, least, on);
}

/* a list of sheet BOUND that is refused with 14 and this amount, measured, for tracks and for the chain */
static int out_of_range(uint8_t t1, uint8_t t2, uint8_t t3, uint8_t b1, uint8_t b2, uint8_t b3, int32_t by) {
    const uint8_t list[6] = {t1, t2, t3, b1, b2, b3};
    return measures(BOUND, 84, list, 6, CAZDROB_OUT_OF_RANGE, 0, by) &&
           routes(BOUND, 84, list, 6, 3, CAZDROB_OUT_OF_RANGE, NULL, 0, 0, by) &&
           routes(BOUND, 84, list, 6, 0, CAZDROB_OUT_OF_RANGE, NULL, 0, 0, by) &&
           chains(BOUND, 84, list, 6, CAZDROB_OUT_OF_RANGE, 0, 0, 0, by);
}

/* sheet A with one byte changed; every function that reads it gives the number */
static int refuses(size_t at, uint8_t byte, uint32_t number) {
    uint8_t sheet[60];
    static const uint8_t list[4] = {2, 2, 1, 2}; /* 14 of sheet A as it is */
    memcpy(sheet, A, sizeof A);
    sheet[at] = byte;
    return cazdrob_check(sheet, 60) == number && cazdrob_cells(sheet, 60) == 0 && measures(sheet, 60, list, 4, number, 0, 0) &&
           routes(sheet, 60, list, 4, 2, number, NULL, 0, 0, 0) && chains(sheet, 60, list, 4, number, 0, 0, 0, 0) &&
           refused(search(sheet, 60, 4, 144), number, 0);
}

/* whether cazdrob_beyond says, for each length from 1 to 64, 0 of the empty set, and of each column, alone and with all before it, 8 exactly
 * where it is above the length */
static int beyond_exactly(void) {
    for (size_t length = 1; length <= 64; length++) {
        if (cazdrob_beyond(0, length) != 0) return 0;
        for (size_t column = 1; column <= 64; column++) {
            uint64_t alone = (uint64_t)1 << (column - 1), up_to = alone | (alone - 1);
            uint32_t number = column > length ? CAZDROB_BEYOND : 0;
            if (cazdrob_beyond(alone, length) != number || cazdrob_beyond(up_to, length) != number) return 0;
        }
    }
    return 1;
}

/* whether two sides, with a buffer of so many bytes, return the number and leave this sheet, its length and nothing else */
static int makes(size_t length, const uint8_t *top, size_t top_len, const uint8_t *bottom, size_t bottom_len, size_t room, uint32_t number,
                 const uint8_t *made, size_t made_len) {
    uint8_t sheet[FRONT + CAZDROB_SHEET_MAX + FRONT];
    size_t written[3] = {WRITTEN, WRITTEN, WRITTEN};
    memset(sheet, BYTE, sizeof sheet);
    return cazdrob_modules(length, top, top_len, bottom, bottom_len, sheet + FRONT, room, &written[1]) == number &&
           bytes_are(sheet, sizeof sheet, made, made_len) && written[1] == made_len && written[0] == WRITTEN && written[2] == WRITTEN;
}

/* the modules of TOP and BOTTOM with one byte of a side changed are refused with the number */
static int refuses_top(size_t at, uint8_t byte, uint32_t number) {
    uint8_t top[29];
    memcpy(top, TOP, sizeof TOP);
    top[at] = byte;
    return makes(5, top, 29, BOTTOM, 13, 60, number, NULL, 0);
}

static int refuses_bottom(size_t at, uint8_t byte, uint32_t number) {
    uint8_t bottom[13];
    memcpy(bottom, BOTTOM, sizeof BOTTOM);
    bottom[at] = byte;
    return makes(5, TOP, 29, bottom, 13, 60, number, NULL, 0);
}

/* so many modules of so many pins each, in neighbouring columns and of net 1, with no left edge; gives the length of the list */
static size_t put_modules(uint8_t *list, unsigned modules, unsigned pins) {
    uint8_t *at = list;
    for (unsigned m = 0; m < modules; m++) {
        memset(at, 0, 10);
        at[0] = at[1] = (uint8_t)pins;
        at += 10;
        for (unsigned pin = 1; pin <= pins; pin++) {
            *at++ = (uint8_t)pin;
            *at++ = 1;
            *at++ = 0;
        }
    }
    return (size_t)(at - list);
}

/* so many modules of so many pins each, on each side in turn, are refused with the number or make a sheet of this length */
static int many(unsigned modules, unsigned pins, uint32_t number, size_t len) {
    uint8_t list[CAZDROB_SIDE_MAX], sheet[CAZDROB_SHEET_MAX];
    size_t list_len = put_modules(list, modules, pins), on_top = WRITTEN, at_bottom = WRITTEN;
    return cazdrob_modules(64, list, list_len, list, 0, sheet, sizeof sheet, &on_top) == number && on_top == len &&
           cazdrob_modules(64, list, 0, list, list_len, sheet, sizeof sheet, &at_bottom) == number && at_bottom == len;
}

int main(void) {
    static const uint8_t best[4] = {2, 3, 1, 2}, leftmost[4] = {1, 2, 1, 2}, rival[4] = {1, 2, 2, 3};
    static const uint8_t ones[2] = {1, 1}, shared[4] = {2, 2, 1, 3}, zero[4] = {2, 2, 0, 1}, above[4] = {2, 65, 1, 2};
    static const uint8_t bound[6] = {1, 3, 4, 1, 4, 5}, beyond[6] = {5, 2, 3, 1, 4, 9};
    static const uint8_t apart[3] = {1, 2, 2}, together[3] = {1, 2, 1}, past[3] = {2, 3, 1};
    static const uint8_t rising[3] = {1, 2, 3}, spread[6] = {1, 3, 4, 2, 5, 6};
    static const uint8_t again[7] = {1, 2, 3, 5, 1, 4, 6}, pair[7] = {1, 2, 3, 5, 1, 4, 5};
    static const struct cazdrob_span of_best[2] = {{2, 1, 3, 1}, {1, 2, 2, 0}}, of_rival[2] = {{1, 1, 3, 1}, {2, 2, 2, 0}};
    static const struct cazdrob_span counted_best[2] = {{2, 1, 3, 1}, {1, 2, 2, 2}}, counted_rival[2] = {{1, 1, 3, 1}, {2, 2, 2, 2}};
    static const struct cazdrob_span of_straight[1] = {{7, 1, 1, 0}}, counted_straight[1] = {{7, 1, 1, 1}};
    static const struct cazdrob_span of_rising[3] = {{60001, 1, 1, 1}, {65535, 1, 3, 2}, {62001, 3, 3, 1}};
    static const struct cazdrob_span of_turned[3] = {{60001, 1, 2, 1}, {65535, 1, 3, 2}, {62001, 3, 3, 1}};
    static const struct cazdrob_span of_spread[3] = {{1, 1, 6, 1}, {3, 2, 4, 2}, {2, 3, 5, 3}};
    static const struct cazdrob_span of_again[3] = {{4, 1, 3, 1}, {5, 2, 4, 2}, {6, 5, 6, 1}};
    static const struct cazdrob_span of_pair[3] = {{4, 1, 3, 1}, {5, 2, 4, 2}, {6, 5, 5, 0}};
    static const struct cazdrob_span counted_pair[3] = {{4, 1, 3, 1}, {5, 2, 4, 2}, {6, 5, 5, 1}};
    static const struct cazdrob_span of_single[4] = {{4, 1, 3, 1}, {5, 2, 4, 2}, {6, 5, 5, 0}, {7, 6, 6, 0}};
    static const uint8_t ahead[4] = {1, 3, 1, 2};
    static const uint16_t steps[4] = {1, 1, 2, 3}, under[4] = {0, 2, 3, 0}, plain[4] = {4, 1, 2, 3}, leaving[4] = {4, 60001, 2, 3};
    static const uint16_t ends[4] = {1, 1, 2, 0}, right[4] = {0, 2, 62001, 0}, straight[4] = {1, 2, 1, 3};
    static const uint16_t three[6] = {60005, 60006, 60007, 4, 4, 4}, over_three[6] = {4, 4, 4, 62001, 62002, 62003};
    static const uint16_t yk_top[12] = {0, 1, 4, 5, 1, 6, 7, 0, 4, 9, 10, 10}, yk_bottom[12] = {2, 3, 5, 3, 5, 2, 6, 8, 9, 8, 7, 9};
    static const uint16_t into[4] = {1, 0, 8, 9}, from_into[4] = {8, 1, 9, 8}, out[4] = {8, 0, 8, 9}, from_out[4] = {1, 1, 9, 8};
    static const uint16_t between[8] = {1, 8, 9, 8, 2, 5, 6, 5}, from_between[8] = {8, 9, 8, 2, 5, 6, 5, 3};
    static const uint16_t bytes[2] = {512, 257}, swapped[2] = {257, 512}, last[2] = {65535, 65534}, last_swapped[2] = {65534, 65535};
    static const uint16_t wire[3] = {2, 1, 2}, under_wire[3] = {0, 1, 0}, two[4] = {1, 5, 1, 1}, under_two[4] = {2, 5, 2, 0};
    static const uint8_t placed[4] = {1, 3, 5, 3}, bare[10] = {3, 0, 7, 0, 0, 0, 0, 0, 0, 0};
    static const uint8_t nowhere[24] = {6, 0, 0, 0, 0, 0, 0, 0, 0, 0, 0, 0, 0, 0, 0, 0, 0, 0, 1, 0, 5, 0, 'C', 'P'};
    static const uint8_t twice_trailer[12] = {0, 0, 3, 0, 36, 0, 3, 0, 5, 0, 'C', 'P'};
    uint8_t sheet[60], turned[48], single[96], top[29], wider[13], twice[84];
    /* the same sheets with the mark CQ */
    uint8_t counted[60], straight_pair[36], routed[96], leaving_three[48];
    uint16_t long_top[64], long_bottom[64];

    EXPECT(cazdrob_check(A, 60) == 0);
    EXPECT(cazdrob_cells(A, 60) == 144);
    EXPECT(found(search(A, 60, 4, 144), 1, best, 4, 144));
    EXPECT(found(search(A, 60, 10, 200), 1, best, 4, 144));
    EXPECT(cazdrob_check(EMPTY, 12) == 0);
    EXPECT(cazdrob_cells(EMPTY, 12) == 4);
    EXPECT(found(search(EMPTY, 12, 0, 4), 0, NULL, 0, 4));
    /* column 3 empty, and T 1 left of B 1 */
    EXPECT(found(search(LEAVING, 48, 3, 96), 2, apart, 3, 96));

    EXPECT(cazdrob_check(A, 0) == CAZDROB_SHORT);
    EXPECT(cazdrob_check(A, 11) == CAZDROB_SHORT);
    EXPECT(cazdrob_cells(A, 11) == 0);
    EXPECT(refused(search(A, 11, 4, 144), CAZDROB_SHORT, 0));
    /* letters that are nearly a mark */
    EXPECT(refuses(59, 'X', CAZDROB_MARK));
    EXPECT(refuses(59, 'W', CAZDROB_MARK));
    EXPECT(refuses(59, 'O', CAZDROB_MARK));
    EXPECT(refuses(59, 'R', CAZDROB_MARK));
    EXPECT(refuses(59, 'p', CAZDROB_MARK));
    EXPECT(refuses(59, 'q', CAZDROB_MARK));
    EXPECT(refuses(59, 'C', CAZDROB_MARK));
    EXPECT(refuses(59, 0, CAZDROB_MARK));
    EXPECT(refuses(58, 'c', CAZDROB_MARK));
    EXPECT(refuses(58, 'P', CAZDROB_MARK));
    EXPECT(refuses(58, 'Q', CAZDROB_MARK));
    EXPECT(refuses(58, 0, CAZDROB_MARK));
    EXPECT(refuses(56, 0, CAZDROB_LENGTH));
    EXPECT(refuses(56, 65, CAZDROB_LENGTH));
    EXPECT(refuses(50, 65, CAZDROB_COUNT));
    EXPECT(refuses(52, 23, CAZDROB_LAYOUT));
    EXPECT(refuses(24, 0, CAZDROB_NET));
    EXPECT(refuses(3, 1, CAZDROB_DISTANCE));
    EXPECT(refuses(4, 15, CAZDROB_BEYOND));

    EXPECT(beyond_exactly());
    /* numbers of columns that no sheet has */
    EXPECT(cazdrob_beyond(0, 0) == 0);
    EXPECT(cazdrob_beyond(1, 0) == CAZDROB_BEYOND);
    EXPECT(cazdrob_beyond(0, SIZE_MAX) == 0);
    EXPECT(cazdrob_beyond(UINT64_MAX, 65) == 0);
    EXPECT(cazdrob_beyond(UINT64_MAX, 128) == 0);
    EXPECT(cazdrob_beyond(UINT64_MAX, SIZE_MAX) == 0);

    EXPECT(refused(search(A, 60, 3, 144), CAZDROB_COLUMNS, 0));
    EXPECT(refused(search(A, 60, 3, 143), CAZDROB_COLUMNS, 0));
    EXPECT(refused(search(A, 60, 4, 143), CAZDROB_CELLS, 0));
    EXPECT(refused(search(A, 60, 4, 0), CAZDROB_CELLS, 0));
    memcpy(sheet, A, sizeof A);
    sheet[28] = 0; /* B 1 has the empty set */
    EXPECT(cazdrob_check(sheet, 60) == 0);
    EXPECT(refused(search(sheet, 60, 10, 200), CAZDROB_NO_ASSIGNMENT, 144));

    /* in range at both ends and between them, and one column out of each */
    EXPECT(cazdrob_distance(3, 5, 2, 4) == 0);
    EXPECT(cazdrob_distance(3, 6, 2, 4) == 0);
    EXPECT(cazdrob_distance(3, 7, 2, 4) == 0);
    EXPECT(cazdrob_distance(3, 4, 2, 4) == -1);
    EXPECT(cazdrob_distance(3, 8, 2, 4) == 1);
    EXPECT(cazdrob_distance(5, 2, 2, 255) == -5);
    /* bytes that no sheet has: the ends of all amounts, and nothing wraps */
    EXPECT(cazdrob_distance(0, 0, 0, 0) == 0);
    EXPECT(cazdrob_distance(0, 255, 255, 255) == 0);
    EXPECT(cazdrob_distance(255, 0, 255, 255) == -510);
    EXPECT(cazdrob_distance(255, 0, 0, 0) == -255);
    EXPECT(cazdrob_distance(0, 255, 0, 0) == 255);
    EXPECT(cazdrob_distance(0, 255, 0, 254) == 1);
    EXPECT(cazdrob_distance(128, 127, 0, 255) == -1);
    /* least above greatest: too close is tried first */
    EXPECT(cazdrob_distance(0, 1, 9, 2) == -8);
    EXPECT(cazdrob_distance(0, 5, 9, 2) == -4);
    EXPECT(cazdrob_distance(0, 9, 9, 2) == 7);

    EXPECT(measures(A, 60, best, 4, 0, 1, 0));
    EXPECT(measures(A, 60, leftmost, 4, 0, 2, 0));
    EXPECT(measures(A, 60, rival, 4, 0, 1, 0));
    EXPECT(measures(EMPTY, 12, best, 0, 0, 0, 0));
    EXPECT(measures(BOUND, 84, bound, 6, 0, 3, 0));
    /* T 2 crosses every column; T 1 those up to its own and B 1 those from its own on: no column of both, one, two */
    EXPECT(measures(LEAVING, 48, apart, 3, 0, 2, 0));
    EXPECT(measures(LEAVING, 48, together, 3, 0, 3, 0));
    EXPECT(measures(LEAVING, 48, past, 3, 0, 3, 0));
    EXPECT(measures(A, 11, shared, 4, CAZDROB_SHORT, 0, 0));
    EXPECT(measures(A, 60, shared, 3, CAZDROB_LIST_LENGTH, 0, 0));
    EXPECT(measures(A, 60, shared, 0, CAZDROB_LIST_LENGTH, 0, 0));
    EXPECT(measures(A, 60, zero, 4, CAZDROB_NOT_ALLOWED, 0, 0));
    EXPECT(measures(A, 60, above, 4, CAZDROB_NOT_ALLOWED, 0, 0));
    EXPECT(measures(BOUND, 84, beyond, 6, CAZDROB_NOT_ALLOWED, 0, 0));
    EXPECT(measures(A, 60, shared, 4, CAZDROB_OUT_OF_RANGE, 0, -1));
    /* a bad pair on top, and at the bottom */
    EXPECT(out_of_range(5, 2, 3, 1, 4, 5, -5));
    EXPECT(out_of_range(1, 6, 7, 1, 4, 5, 1));
    EXPECT(out_of_range(1, 3, 3, 1, 4, 5, -1));
    EXPECT(out_of_range(1, 3, 8, 1, 4, 5, 4));
    EXPECT(out_of_range(1, 3, 4, 1, 2, 5, -2));
    EXPECT(out_of_range(1, 3, 4, 1, 7, 8, 3));
    EXPECT(out_of_range(1, 3, 4, 2, 5, 4, -2));
    /* several: the first of its side, and top before bottom */
    EXPECT(out_of_range(1, 8, 2, 1, 4, 5, 3));
    EXPECT(out_of_range(1, 3, 4, 1, 8, 8, 4));
    EXPECT(out_of_range(1, 3, 3, 1, 8, 8, -1));
    EXPECT(out_of_range(1, 3, 8, 5, 1, 1, 4));

    EXPECT(sizeof(struct cazdrob_span) == 8);
    EXPECT(offsetof(struct cazdrob_span, net) == 0);
    EXPECT(offsetof(struct cazdrob_span, left) == 2);
    EXPECT(offsetof(struct cazdrob_span, right) == 4);
    EXPECT(offsetof(struct cazdrob_span, track) == 6);
    /* as many records as nets, and more; a net with both pins in one column has track 0 */
    EXPECT(routes(A, 60, best, 4, 2, 0, of_best, 2, 1, 0));
    EXPECT(routes(A, 60, best, 4, CAZDROB_NETS_MAX, 0, of_best, 2, 1, 0));
    EXPECT(routes(A, 60, rival, 4, 4, 0, of_rival, 2, 1, 0));
    EXPECT(routes(EMPTY, 12, best, 0, 0, 0, NULL, 0, 0, 0));
    EXPECT(routes(EMPTY, 12, best, 0, 2, 0, NULL, 0, 0, 0));
    /* nets that leave: T 1 and B 1 cross one column each and share a track, T 2 crosses every column */
    EXPECT(routes(LEAVING, 48, rising, 3, 3, 0, of_rising, 3, 2, 0));
    /* T 1 and T 2 exchanged: the left ends are equal, and the lower net is first */
    memcpy(turned, LEAVING, sizeof LEAVING);
    memcpy(turned, LEAVING + 12, 2);
    memcpy(turned + 12, LEAVING, 2);
    EXPECT(routes(turned, 48, rising, 3, 3, 0, of_turned, 3, 2, 0));
    EXPECT(routes(BOUND, 84, spread, 6, 5, 0, of_spread, 3, 3, 0));
    /* net 4 has three pins, two of them in column 1; net 6 is on the track of net 4, or needs none */
    EXPECT(routes(ROUTED, 96, again, 7, 3, 0, of_again, 3, 2, 0));
    EXPECT(routes(ROUTED, 96, pair, 7, 3, 0, of_pair, 3, 2, 0));
    EXPECT(routes(A, 11, shared, 4, 4, CAZDROB_SHORT, NULL, 0, 0, 0));
    EXPECT(routes(A, 60, leftmost, 3, 4, CAZDROB_LIST_LENGTH, NULL, 0, 0, 0));
    EXPECT(routes(A, 60, leftmost, 0, 0, CAZDROB_LIST_LENGTH, NULL, 0, 0, 0));
    EXPECT(routes(BOUND, 84, pair, 7, 3, CAZDROB_LIST_LENGTH, NULL, 0, 0, 0));
    EXPECT(routes(A, 60, zero, 4, 4, CAZDROB_NOT_ALLOWED, NULL, 0, 0, 0));
    EXPECT(routes(A, 60, above, 4, 1, CAZDROB_NOT_ALLOWED, NULL, 0, 0, 0));
    EXPECT(routes(A, 60, shared, 4, 1, CAZDROB_OUT_OF_RANGE, NULL, 0, 0, -1));
    /* two plain nets in a column; two that leave; two of one pin each, which cross nothing */
    EXPECT(routes(A, 60, leftmost, 4, 2, CAZDROB_TWO_NETS, NULL, 0, 0, 0));
    EXPECT(routes(A, 60, leftmost, 4, 1, CAZDROB_TWO_NETS, NULL, 0, 0, 0));
    EXPECT(routes(A, 60, leftmost, 4, 0, CAZDROB_TWO_NETS, NULL, 0, 0, 0));
    EXPECT(routes(LEAVING, 48, apart, 3, 3, CAZDROB_TWO_NETS, NULL, 0, 0, 0));
    memcpy(single, ROUTED, sizeof ROUTED);
    single[72] = 7; /* the net of B 3 */
    EXPECT(routes(single, 96, again, 7, 4, 0, of_single, 4, 2, 0));
    EXPECT(routes(single, 96, pair, 7, 4, CAZDROB_TWO_NETS, NULL, 0, 0, 0));
    EXPECT(routes(single, 96, again, 7, 3, CAZDROB_SPAN_BUFFER, NULL, 0, 0, 0));
    single[72] = 6, single[73] = 1; /* net 262 under net 6 */
    EXPECT(routes(single, 96, pair, 7, 4, CAZDROB_TWO_NETS, NULL, 0, 0, 0));
    EXPECT(routes(A, 60, best, 4, 1, CAZDROB_SPAN_BUFFER, NULL, 0, 0, 0));
    EXPECT(routes(A, 60, best, 4, 0, CAZDROB_SPAN_BUFFER, NULL, 0, 0, 0));

    /* no net over another */
    EXPECT(chains(EMPTY, 12, best, 0, 0, 0, 0, 0, 0));
    EXPECT(chains(A, 60, best, 4, 0, 0, 1, 0, 0));
    EXPECT(chains(A, 60, rival, 4, 0, 0, 1, 0, 0));
    EXPECT(chains(LEAVING, 48, rising, 3, 0, 0, 2, 0, 0));
    EXPECT(chains(BOUND, 84, spread, 6, 0, 0, 3, 0, 0));
    /* net 1 over net 2; net 1 over net 3, both pins of net 2 in a column; net 1 over nets 3 and 2 */
    EXPECT(chains(A, 60, ahead, 4, 0, 2, 2, 0, 0));
    EXPECT(rows(straight, under, 4, 0, 2, 2, 0));
    EXPECT(chains(BOUND, 84, bound, 6, 0, 3, 3, 0, 0));
    /* net 60,001 over net 62,001, and net 65,535 over it, with one pin each */
    EXPECT(chains(LEAVING, 48, together, 3, 0, 2, 3, 0, 0));
    EXPECT(chains(LEAVING, 48, apart, 3, 0, 2, 2, 0, 0));
    /* a chain longer than the density, as long, shorter */
    EXPECT(rows(steps, under, 4, 0, 3, 3, 0));
    EXPECT(rows(ends, under, 4, 0, 2, 2, 0));
    EXPECT(rows(three, over_three, 6, 0, 3, 4, 0));
    EXPECT(rows(yk_top, yk_bottom, 12, 0, 4, 5, 0));
    /* with one pin, net 1 lies over none and none over net 3; nets that leave count */
    EXPECT(rows(plain, under, 4, 0, 2, 2, 0));
    EXPECT(rows(leaving, under, 4, 0, 3, 3, 0));
    EXPECT(rows(ends, right, 4, 0, 3, 3, 0));
    /* the longest chain that a sheet can have, and the longest circle */
    for (uint16_t k = 0; k < 64; k++) long_top[k] = (uint16_t)(64001 + k), long_bottom[k] = (uint16_t)(64002 + k);
    EXPECT(rows(long_top, long_bottom, 64, 0, 65, 65, 0));
    long_bottom[63] = 64001;
    EXPECT(rows(long_top, long_bottom, 64, CAZDROB_CIRCLE, 0, 0, 64001));
    EXPECT(chains(A, 60, leftmost, 4, CAZDROB_CIRCLE, 0, 0, 1, 0));
    EXPECT(rows(bytes, swapped, 2, CAZDROB_CIRCLE, 0, 0, 257));
    EXPECT(rows(last, last_swapped, 2, CAZDROB_CIRCLE, 0, 0, 65534));
    /* lower nets that only lead into a circle, out of one, from one to another */
    EXPECT(rows(into, from_into, 4, CAZDROB_CIRCLE, 0, 0, 8));
    EXPECT(rows(out, from_out, 4, CAZDROB_CIRCLE, 0, 0, 8));
    EXPECT(rows(between, from_between, 8, CAZDROB_CIRCLE, 0, 0, 5));
    EXPECT(chains(A, 11, leftmost, 4, CAZDROB_SHORT, 0, 0, 0, 0));
    EXPECT(chains(A, 60, leftmost, 3, CAZDROB_LIST_LENGTH, 0, 0, 0, 0));
    EXPECT(chains(A, 60, leftmost, 0, CAZDROB_LIST_LENGTH, 0, 0, 0, 0));
    EXPECT(chains(A, 60, zero, 4, CAZDROB_NOT_ALLOWED, 0, 0, 0, 0));
    EXPECT(chains(A, 60, above, 4, CAZDROB_NOT_ALLOWED, 0, 0, 0, 0));
    EXPECT(chains(A, 60, shared, 4, CAZDROB_OUT_OF_RANGE, 0, 0, 0, -1));
    /* nets 1 and 3 in a circle too, and on A with column 1 not in the set of T 1 */
    EXPECT(out_of_range(1, 3, 5, 1, 4, 5, 1));
    memcpy(sheet, A, sizeof A);
    sheet[4] = 6;
    EXPECT(chains(sheet, 60, leftmost, 4, CAZDROB_NOT_ALLOWED, 0, 0, 0, 0));

    memcpy(counted, A, sizeof A);
    memcpy(straight_pair, PAIR, sizeof PAIR);
    memcpy(routed, ROUTED, sizeof ROUTED);
    memcpy(leaving_three, LEAVING, sizeof LEAVING);
    counted[59] = straight_pair[35] = routed[95] = leaving_three[47] = 'Q';
    EXPECT(cazdrob_check(counted, 60) == 0);
    EXPECT(cazdrob_cells(counted, 60) == 144);
    EXPECT(cazdrob_check(counted, 11) == CAZDROB_SHORT);
    /* every assignment has density 2, and the smallest word leaves column 3 empty */
    EXPECT(found(search(counted, 60, 4, 144), 2, leftmost, 4, 144));
    EXPECT(measures(counted, 60, best, 4, 0, 2, 0));
    EXPECT(measures(counted, 60, leftmost, 4, 0, 2, 0));
    EXPECT(measures(counted, 60, rival, 4, 0, 2, 0));
    EXPECT(measures(counted, 60, zero, 4, CAZDROB_NOT_ALLOWED, 0, 0));
    EXPECT(measures(counted, 60, shared, 4, CAZDROB_OUT_OF_RANGE, 0, -1));
    EXPECT(refused(search(counted, 60, 3, 144), CAZDROB_COLUMNS, 0));
    EXPECT(refused(search(counted, 60, 4, 143), CAZDROB_CELLS, 0));
    /* a straight pair alone, under both marks */
    EXPECT(found(search(PAIR, 36, 2, 16), 0, ones, 2, 16));
    EXPECT(found(search(straight_pair, 36, 2, 16), 1, ones, 2, 16));
    EXPECT(measures(PAIR, 36, ones, 2, 0, 0, 0));
    EXPECT(measures(straight_pair, 36, ones, 2, 0, 1, 0));
    EXPECT(routes(PAIR, 36, ones, 2, 1, 0, of_straight, 1, 0, 0));
    EXPECT(routes(straight_pair, 36, ones, 2, 1, 0, counted_straight, 1, 1, 0));
    EXPECT(chains(PAIR, 36, ones, 2, 0, 0, 0, 0, 0));
    EXPECT(chains(straight_pair, 36, ones, 2, 0, 0, 1, 0, 0));
    /* with one pin a plain net counts nowhere, and nets that leave count as they did */
    straight_pair[12] = 8;
    EXPECT(found(search(straight_pair, 36, 2, 16), 0, ones, 2, 16));
    EXPECT(measures(straight_pair, 36, ones, 2, 0, 0, 0));
    EXPECT(chains(straight_pair, 36, ones, 2, 0, 0, 0, 0, 0));
    single[72] = 7, single[73] = 0, single[95] = 'Q';
    EXPECT(routes(single, 96, again, 7, 4, 0, of_single, 4, 2, 0));
    EXPECT(found(search(leaving_three, 48, 3, 96), 2, apart, 3, 96));
    EXPECT(measures(leaving_three, 48, together, 3, 0, 3, 0));
    EXPECT(routes(leaving_three, 48, rising, 3, 3, 0, of_rising, 3, 2, 0));
    /* a straight wire takes a track: its own under a net that crosses its column, else the lowest */
    EXPECT(routes(counted, 60, best, 4, 2, 0, counted_best, 2, 2, 0));
    EXPECT(routes(counted, 60, rival, 4, 2, 0, counted_rival, 2, 2, 0));
    EXPECT(routes(routed, 96, again, 7, 3, 0, of_again, 3, 2, 0));
    EXPECT(routes(routed, 96, pair, 7, 3, 0, counted_pair, 3, 2, 0));
    EXPECT(routes(counted, 60, leftmost, 4, 2, CAZDROB_TWO_NETS, NULL, 0, 0, 0));
    EXPECT(routes(counted, 60, best, 4, 1, CAZDROB_SPAN_BUFFER, NULL, 0, 0, 0));
    /* what lies over what is the same; the bound has the density of the sheet */
    EXPECT(chains(counted, 60, best, 4, 0, 0, 2, 0, 0));
    EXPECT(chains(counted, 60, ahead, 4, 0, 2, 2, 0, 0));
    EXPECT(chains(counted, 60, leftmost, 4, CAZDROB_CIRCLE, 0, 0, 1, 0));
    EXPECT(chains(counted, 60, shared, 4, CAZDROB_OUT_OF_RANGE, 0, 0, 0, -1));
    EXPECT(rows(wire, under_wire, 3, 0, 0, 1, 0));
    EXPECT(marked_rows('Q', wire, under_wire, 3, 0, 0, 2, 0));
    EXPECT(rows(two, under_two, 4, 0, 2, 2, 0));
    EXPECT(marked_rows('Q', two, under_two, 4, 0, 2, 3, 0));
    EXPECT(marked_rows('Q', yk_top, yk_bottom, 12, 0, 4, 5, 0));
    EXPECT(marked_rows('Q', into, from_into, 4, CAZDROB_CIRCLE, 0, 0, 8));
    EXPECT(marked_rows('X', wire, under_wire, 3, CAZDROB_MARK, 0, 0, 0));

    EXPECT(makes(5, TOP, 29, BOTTOM, 13, 60, 0, MADE, 60));
    EXPECT(makes(5, TOP, 29, BOTTOM, 13, CAZDROB_SHEET_MAX, 0, MADE, 60));
    EXPECT(found(search(MADE, 60, 4, 288), 0, placed, 4, 288));
    EXPECT(makes(1, TOP, 0, BOTTOM, 0, 12, 0, EMPTY, 12));
    EXPECT(many(1, 64, 0, 780));
    EXPECT(many(2, 32, 0, 780));
    EXPECT(many(16, 4, 0, 780));
    /* one list for both sides */
    memcpy(twice, MADE, 36);
    memcpy(twice + 36, MADE, 36);
    memcpy(twice + 72, twice_trailer, 12);
    EXPECT(makes(5, TOP, 29, TOP, 29, 84, 0, twice, 84));
    /* wider than the channel: the empty set passes, and leaves no placement */
    memcpy(wider, BOTTOM, sizeof BOTTOM);
    wider[0] = 6;
    EXPECT(makes(5, TOP, 0, wider, 13, 24, CAZDROB_EDGE, NULL, 0));
    wider[2] = 0;
    EXPECT(makes(5, TOP, 0, wider, 13, 24, 0, nowhere, 24));
    EXPECT(refused(search(nowhere, 24, 1, 72), CAZDROB_NO_ASSIGNMENT, 72));

    EXPECT(makes(0, TOP, 29, BOTTOM, 13, 60, CAZDROB_LENGTH, NULL, 0));
    EXPECT(makes(65, TOP, 29, BOTTOM, 13, 60, CAZDROB_LENGTH, NULL, 0));
    EXPECT(makes(SIZE_MAX, TOP, 28, BOTTOM, 13, 59, CAZDROB_LENGTH, NULL, 0));
    /* no pins */
    EXPECT(makes(5, bare, 10, BOTTOM, 13, 60, CAZDROB_MODULE, NULL, 0));
    EXPECT(makes(5, TOP, 29, bare, 10, 60, CAZDROB_MODULE, NULL, 0));
    /* width and offsets */
    EXPECT(refuses_top(0, 0, CAZDROB_MODULE));
    EXPECT(refuses_top(0, 65, CAZDROB_MODULE));
    EXPECT(refuses_top(10, 0, CAZDROB_MODULE));
    EXPECT(refuses_top(13, 1, CAZDROB_MODULE));
    EXPECT(refuses_top(13, 4, CAZDROB_MODULE));
    EXPECT(refuses_bottom(0, 0, CAZDROB_MODULE));
    EXPECT(refuses_bottom(0, 65, CAZDROB_MODULE));
    EXPECT(refuses_bottom(10, 0, CAZDROB_MODULE));
    EXPECT(refuses_bottom(10, 2, CAZDROB_MODULE));
    /* cut short: in the head and in the pins */
    EXPECT(makes(5, TOP, 1, BOTTOM, 13, 60, CAZDROB_MODULE, NULL, 0));
    EXPECT(makes(5, TOP, 25, BOTTOM, 13, 60, CAZDROB_MODULE, NULL, 0));
    EXPECT(makes(5, TOP, 28, BOTTOM, 13, 60, CAZDROB_MODULE, NULL, 0));
    EXPECT(makes(5, TOP, 29, BOTTOM, 9, 60, CAZDROB_MODULE, NULL, 0));
    EXPECT(makes(5, TOP, 29, BOTTOM, 12, 60, CAZDROB_MODULE, NULL, 0));
    EXPECT(many(17, 1, CAZDROB_MODULE, 0));
    EXPECT(refuses_top(2, 15, CAZDROB_EDGE));
    EXPECT(refuses_top(18, 28, CAZDROB_EDGE));
    EXPECT(refuses_top(9, 128, CAZDROB_EDGE));
    EXPECT(refuses_bottom(2, 63, CAZDROB_EDGE));
    EXPECT(many(2, 33, CAZDROB_COUNT, 0));
    EXPECT(many(13, 5, CAZDROB_COUNT, 0));
    EXPECT(refuses_top(11, 0, CAZDROB_NET));
    EXPECT(refuses_bottom(11, 0, CAZDROB_NET));
    EXPECT(makes(5, TOP, 29, BOTTOM, 13, 59, CAZDROB_SHEET_BUFFER, NULL, 0));
    EXPECT(makes(5, TOP, 29, BOTTOM, 13, 0, CAZDROB_SHEET_BUFFER, NULL, 0));
    EXPECT(makes(1, TOP, 0, BOTTOM, 0, 11, CAZDROB_SHEET_BUFFER, NULL, 0));
    /* several: a left edge on top and a net, a module at the bottom, too short a buffer */
    memcpy(top, TOP, sizeof TOP);
    top[11] = 0;
    EXPECT(makes(5, top, 29, BOTTOM, 13, 59, CAZDROB_NET, NULL, 0));
    top[2] = 15;
    EXPECT(makes(5, top, 29, BOTTOM, 13, 59, CAZDROB_EDGE, NULL, 0));
    EXPECT(makes(5, top, 29, BOTTOM, 12, 59, CAZDROB_MODULE, NULL, 0));
    EXPECT(makes(0, top, 29, BOTTOM, 12, 59, CAZDROB_LENGTH, NULL, 0));

    printf("%u passed, %u failed\n", passed, failed);
    return failed > 0;
}
