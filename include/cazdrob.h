/*
 * Cazdrob: the best pin assignment of a routing channel, for C and C++.
 *
 * docs/FORMAT.md has the rules: how a sheet is written, which assignment is the best one, which track each net of a clean assignment gets,
 * what a chain of vertical constraints is, how two sides of modules become a sheet, what each refusal means.
 *
 * What the caller owes, in every call:
 *   - no pointer is null, not even one with length 0;
 *   - each points to as many elements as its length says (density, amount, nets, tracks, chain, bound, net and written: to one), readable,
 *     and writable where it is not const, and is aligned for its type;
 *   - none has a length of more than PTRDIFF_MAX bytes;
 *   - what is written (columns and work of a search, spans, the sheet that is made, density, amount, nets, tracks, chain, bound, net,
 *     written) overlaps nothing else that is passed;
 *   - during the call no other thread writes what was passed, and none reads what is written. Several threads may pass one sheet.
 * Nothing else is asked: every content of these buffers, every length and every byte has its answer.
 *
 * What is promised:
 *   - the result and what is left in every buffer are as said below, on good input and on bad;
 *   - no memory is allocated, no state is kept between calls, nothing but the buffers is written, and every call returns.
 *
 * The stack is not part of the promise. Measured on x86-64, a search takes less than 20,000 bytes of it, tracks less than 7,000, a chain less
 * than 4,000, the others less than 2,000.
 */
#ifndef CAZDROB_H
#define CAZDROB_H

#include <stddef.h>
#include <stdint.h>

#ifdef __cplusplus
extern "C" {
#endif

/*
 * The numbers that are returned. Of several refusals that apply, the first is given:
 *   - of a sheet: 1 to 5 in turn, then each terminal, top then bottom, for 6, 7 and 8, then 9 to 11 in a search, 12 to 14 in a measurement:
 *     13 over all terminals, then 14 over all pairs, top then bottom;
 *   - of tracks: as of a measurement, then 18 and 9;
 *   - of a chain: as of a measurement, then 19;
 *   - of modules: 3, then 16 over all modules, top then bottom, then 17 likewise, then 4, 6 and 9.
 * 15 is the program's alone.
 */
enum cazdrob_number {
    CAZDROB_OK = 0,
    /* the sheet: given by cazdrob_check, cazdrob_measure, cazdrob_search, cazdrob_tracks and cazdrob_chain; 3, 4 and 6 by cazdrob_modules
     * too, 8 by cazdrob_beyond */
    CAZDROB_SHORT = 1,    /* the sheet is shorter than 12 bytes */
    CAZDROB_MARK = 2,     /* its last two bytes are neither CP nor CQ */
    CAZDROB_LENGTH = 3,   /* L is 0 or above 64 */
    CAZDROB_COUNT = 4,    /* p or q is above 64 */
    CAZDROB_LAYOUT = 5,   /* the sheet's length or the sections' offsets break the rule */
    CAZDROB_NET = 6,      /* a net is 0 */
    CAZDROB_DISTANCE = 7, /* a distance pair breaks its rule */
    CAZDROB_BEYOND = 8,   /* a set names a column above L */
    /* given by cazdrob_search alone */
    CAZDROB_COLUMNS = 9,        /* the column buffer is shorter than p+q bytes */
    CAZDROB_CELLS = 10,         /* the work buffer is shorter than cazdrob_cells says */
    CAZDROB_NO_ASSIGNMENT = 11, /* no assignment exists */
    /* given by cazdrob_measure, cazdrob_tracks and cazdrob_chain */
    CAZDROB_LIST_LENGTH = 12,  /* the list is not p+q long */
    CAZDROB_NOT_ALLOWED = 13,  /* a listed column is not in its terminal's set */
    CAZDROB_OUT_OF_RANGE = 14, /* a distance is out of range, by *amount columns */
    /* given by cazdrob_modules alone; its 9 is the sheet buffer, that of a search the column buffer */
    CAZDROB_SHEET_BUFFER = 9, /* the sheet buffer is shorter than 12(p+q)+12 bytes */
    CAZDROB_MODULE = 16,      /* a module breaks its rule, or a side has more than 16 of them */
    CAZDROB_EDGE = 17,        /* a module's set names a left edge from which it does not fit the channel */
    /* given by cazdrob_tracks alone; its 9 is the array of records */
    CAZDROB_SPAN_BUFFER = 9, /* the array has fewer records than the sheet has nets */
    CAZDROB_TWO_NETS = 18,   /* a column has pins of two nets */
    /* given by cazdrob_chain alone */
    CAZDROB_CIRCLE = 19 /* the vertical constraints have a circle; *net is the lowest net on one */
};

/* Enough for every sound sheet: its bytes, the columns of its terminals, and the records of its nets. */
#define CAZDROB_SHEET_MAX 1548
#define CAZDROB_COLUMNS_MAX 128
#define CAZDROB_NETS_MAX 128

/* Enough for every list of modules that is not refused: 16 modules with 64 pins in all. */
#define CAZDROB_SIDE_MAX 352

/* 0 for a sound sheet, else the number of its refusal, 1 to 8. */
uint32_t cazdrob_check(const uint8_t *sheet, size_t sheet_len);

/*
 * 8 where the set names a column above the last of so many columns, else 0: the test behind 8 of cazdrob_check, for one set. Bit 0 of the
 * set is column 1, bit 63 is column 64. With 0 columns every column of the set is above the last, with 64 or more none is.
 */
uint32_t cazdrob_beyond(uint64_t set, size_t columns);

/* The 16-bit work cells that a search of the sheet needs, (p+1)(q+1)(L+1)(L+1), which is 4 to 17,850,625; 0 for a refused sheet. */
size_t cazdrob_cells(const uint8_t *sheet, size_t sheet_len);

/*
 * By how many columns a terminal's distance to the one before it is out of range, -510 to 255. With d = column - before:
 *   d - least     where d < least, which is tried first: negative, so many columns too close;
 *   d - greatest  where d > greatest: positive, so many columns too far apart;
 *   0             otherwise: in range.
 * The search and the measurement test every distance so.
 */
int32_t cazdrob_distance(uint8_t before, uint8_t column, uint8_t least, uint8_t greatest);

/*
 * The density of a column list: p+q columns, those of the top terminals in order, then those of the bottom terminals. It is the greatest
 * number of nets that cross a column. Nets above 60,000 leave the channel by an end, or by both, and count in every column up to there
 * (docs/FORMAT.md, "Nets that leave"). A plain net whose two pins share a column, a straight wire, counts in that column if the sheet's
 * mark is CQ, and nowhere if it is CP. The least density of a search counts likewise. The sheet and the list may overlap, as neither is
 * written. What density and amount held before plays no part.
 *
 *   returned          *density     *amount
 *   0                 the density  0
 *   14                0            cazdrob_distance of the first pair that is out of range: the top pairs in order, then the bottom pairs
 *   1 to 8, 12 or 13  0            0
 */
uint32_t cazdrob_measure(const uint8_t *sheet, size_t sheet_len,
                         const uint8_t *columns, size_t columns_len,
                         uint32_t *density, int32_t *amount);

/*
 * The best assignment: the least density and, of the assignments that have it, the one with the smallest word. What columns, work and
 * density held before plays no part.
 *
 *   returned  *density           columns                                work
 *   0         the least density  the first p+q bytes are the column     the first cazdrob_cells(...) cells are 0,
 *                                list, the rest is unchanged            the rest is unchanged
 *   11        0                  unchanged                              the same
 *   1 to 10   0                  unchanged                              unchanged
 */
uint32_t cazdrob_search(const uint8_t *sheet, size_t sheet_len,
                        uint8_t *columns, size_t columns_len,
                        uint16_t *work, size_t work_len,
                        uint32_t *density);

/* A net of the sheet, the columns that it runs from and to, and its track. It has 8 bytes. */
struct cazdrob_span {
    uint16_t net;
    uint16_t left;
    uint16_t right;
    uint16_t track; /* from 1; 0 where the net crosses no column, so that it takes no track */
};

/*
 * The tracks of a clean assignment, one in which no column has pins of two nets: exactly as many as its density. A net of one pin is a net
 * like others here, and two pins of one net may share a column. The column list is as in a measurement.
 *
 * Each net of the sheet gets a record, by rising left end and, of equal left ends, by rising net. The ends are the columns of its leftmost
 * and its rightmost pin; a net that leaves the channel at the left has column 1 as its left end, one that leaves at the right column L as
 * its right end. In this order each net gets the lowest track, from 1, on which none before it has a column in common with it, the ends
 * included. A net that crosses no column has the one column of its pins as both ends and gets track 0: a plain one with one pin, and on a
 * CP sheet a straight wire.
 *
 * The refusals, in their order:
 *   1 to 8 and 12 to 14, as of cazdrob_measure;
 *   18  a column has a top pin and a bottom pin of different nets;
 *   9   there are fewer records in spans than nets in the sheet.
 * The sheet and the list may overlap, as neither is written. What spans, nets, tracks and amount held before plays no part.
 *
 *   returned              *nets               *tracks      *amount                spans
 *   0                     the number of nets  the density  0                      the first *nets records are written,
 *                                                                                 the rest is unchanged
 *   14                    0                   0            as of cazdrob_measure  unchanged
 *   1 to 9, 12, 13 or 18  0                   0            0                      unchanged
 */
uint32_t cazdrob_tracks(const uint8_t *sheet, size_t sheet_len,
                        const uint8_t *columns, size_t columns_len,
                        struct cazdrob_span *spans, size_t spans_len,
                        size_t *nets, uint32_t *tracks, int32_t *amount);

/*
 * The longest chain of vertical constraints of an assignment, and the greater of it and the density: a wiring in two layers that gives each
 * net one track takes at least *bound tracks. The column list is as in a measurement.
 *
 * Net a lies over net b where a column has a pin of a on top and a pin of b at the bottom, the two nets are different, and neither is a
 * plain net with one pin on the sheet. A net that leaves the channel counts here with one pin too. A chain is a list of nets in which each
 * lies over the next, a circle a chain of two nets or more whose last net lies over its first. A net that only leads into a circle, out of
 * one or from one to another is not on a circle.
 *
 * The refusals, in their order:
 *   1 to 8 and 12 to 14, as of cazdrob_measure;
 *   19  there is a circle.
 * The sheet and the list may overlap, as neither is written. What chain, bound, net and amount held before plays no part.
 *
 *   returned          *chain                    *bound                  *net                        *amount
 *   0                 the number of nets of     the greater of *chain   0                           0
 *                     the longest chain, or 0   and the density, as of
 *                     where none lies over any  cazdrob_measure
 *   19                0                         0                       the lowest net on a circle  0
 *   14                0                         0                       0                           as of cazdrob_measure
 *   1 to 8, 12 or 13  0                         0                       0                           0
 */
uint32_t cazdrob_chain(const uint8_t *sheet, size_t sheet_len,
                       const uint8_t *columns, size_t columns_len,
                       uint32_t *chain, uint32_t *bound, uint32_t *net, int32_t *amount);

/*
 * Makes the sheet of two sides of modules, such as two rows of standard cells. A module covers some columns, has its pins in fixed places
 * and moves whole. The sheet's assignments are the placements without overlap, one to one: where a module's left edge is in column e, its
 * pin with offset o is in column e + o - 1. The sheet has its top section first, and the mark CP.
 *
 * length is L, the columns of the channel. A side is a list of its modules from left to right, up to the list's end; an empty list is a
 * side with no modules. The two lists may overlap, as neither is written. A module has
 *   1 byte   its width in columns, 1 to 64;
 *   1 byte   the number of its pins;
 *   8 bytes  the set of its allowed left edges: bit 0 of the first byte is column 1, bit 7 of the last byte is column 64;
 *   3 bytes  for each pin: its offset (1 byte; 1 is the module's first column) and its net (2 bytes, the low one first).
 *
 * The refusals, in their order:
 *   3   length is 0 or above 64;
 *   16  a module has no pins, is the seventeenth of its side, has a width of 0 or above 64, has offsets that break
 *       1 <= o1 < o2 < .. <= width, or runs past the list's end;
 *   17  a set names a left edge above L - width + 1, or any at all where the width is above L. An empty set passes; it leaves no placement;
 *   4   a side has more than 64 pins;
 *   6   a net is 0;
 *   9   the sheet buffer is shorter than 12(p+q)+12 bytes, with p pins on top and q at the bottom.
 * What sheet and *written held before plays no part.
 *
 *   returned              *written    sheet
 *   0                     12(p+q)+12  the first *written bytes are the sheet, the rest is unchanged
 *   3, 4, 6, 9, 16 or 17  0           unchanged
 */
uint32_t cazdrob_modules(size_t length,
                         const uint8_t *top, size_t top_len,
                         const uint8_t *bottom, size_t bottom_len,
                         uint8_t *sheet, size_t sheet_len,
                         size_t *written);

#ifdef __cplusplus
}
#endif

#endif
