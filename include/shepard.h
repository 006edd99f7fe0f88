/* Read-level maps by Shepard's interpolation: the library for C.
 *
 * The state is a survey file's bytes, which the caller holds: a function reads the file, makes one call and writes what comes of it to memory that it is lent.
 * Nothing is kept between calls, nothing is allocated, and every function may be called from any thread.
 *
 * Every function answers 0, or the number of the refusal; refused, it leaves everything that it is lent as it was. The numbers, in the order in which they are found:
 *
 *    9  the file has under 12 or over 65,536 bytes
 *   10  its last four bytes are not RLS1
 *   11  its count is above 256
 *   12  its back distance is not 5 times the count, or is more than the bytes before the trailer
 *   13  the sum of its record bytes differs
 *   14  a record is off the domain, and
 *   15  a record is not after the one before: tried record by record, 14 first, so that the first record at fault decides
 *    1  a location is off the domain: x and y are 0 to 4,095
 *    2  a value is out of range: z is -128 to 127
 *    3  an add where a point is already
 *    4  a change or a drop where no point is
 *    5  an add with 256 points present
 *    7  a grid breaks a rule: steps of at least 1, 1 to 64 columns and rows, the last column and row in the domain
 *   16  an Esri ASCII grid whose two steps differ
 *    6  a lookup or a grid with no point present
 *    8  what is lent is too short
 *
 * Of a grid file, in this order:
 *
 *    9  no grid file has its length
 *   10  its last four bytes are not RLG1
 *    7  its grid breaks a rule
 *   12  its back distance or its length does not go with its six numbers
 *    8  the lent cells are too few
 *
 * x is the wear in steps of 16 program/erase cycles, y the rest in steps of 4 hours, z the shift in register steps. Answers, distances and radii count 256ths of a step.
 * A pointer must be valid for its length; one with the length 0 may be anything but NULL. What is written to must overlap nothing else that is passed. Numbers in bytes stand high byte first,
 * signed ones in two's complement.
 */
#ifndef SHEPARD_H
#define SHEPARD_H

#include <stddef.h>
#include <stdint.h>

#ifdef __cplusplus
extern "C" {
#endif

/* The numbers of the refusals. */
enum {
    SHEPARD_OFF_DOMAIN = 1,
    SHEPARD_OUT_OF_RANGE = 2,
    SHEPARD_POINT_THERE = 3,
    SHEPARD_NO_POINT_THERE = 4,
    SHEPARD_FULL = 5,
    SHEPARD_EMPTY = 6,
    SHEPARD_GRID_RULE = 7,
    SHEPARD_TOO_SHORT = 8,
    SHEPARD_FILE_LENGTH = 9,
    SHEPARD_FILE_MAGIC = 10,
    SHEPARD_FILE_COUNT = 11,
    SHEPARD_FILE_BACK = 12,
    SHEPARD_FILE_SUM = 13,
    SHEPARD_RECORD_DOMAIN = 14,
    SHEPARD_RECORD_ORDER = 15,
    SHEPARD_STEPS_DIFFER = 16
};

enum {
    SHEPARD_FILE_MOST = 5 * 256 + 12,           /* bytes of the longest file that is written */
    SHEPARD_RECORDS_LENGTH = 100,               /* bytes to lend for neighbour records: ten of 10 bytes */
    SHEPARD_CELLS_MOST = 64 * 64,               /* cells of the largest grid, 4,096 */
    SHEPARD_GRID_FILE_MOST = 2 * 64 * 64 + 20,  /* bytes of the longest grid file */
    SHEPARD_ESRI_MOST = 14 * 64 * 64 + 90       /* bytes to lend for an Esri ASCII grid, 57,434: none has more */
};

/* How a chosen point bears on the mean: the kind of a neighbour record. */
enum { SHEPARD_COINCIDENT = 0, SHEPARD_INVERSE = 1, SHEPARD_TAPERED = 2, SHEPARD_EDGE = 3 };

/* A measured point. */
typedef struct {
    uint16_t x, y;
    int8_t z;
} shepard_point;

/* A chosen point: its distance in 256ths of a step, and its kind. */
typedef struct {
    uint16_t x, y;
    int8_t z;
    uint32_t distance;
    uint8_t kind;
} shepard_neighbour;

/* The file of a survey of no points to the front of `out`, and its length. 8. */
uint8_t shepard_fresh(uint8_t *out, size_t out_length, size_t *length);

/* How many points the file has. 9 to 15. */
uint8_t shepard_check(const uint8_t *file, size_t file_length, size_t *count);

/* The file of the same points without its preamble. 9 to 15, 8. */
uint8_t shepard_rewrite(const uint8_t *file, size_t file_length, uint8_t *out, size_t out_length, size_t *length);

/* The file with one point more. 9 to 15, 1, 2, 3, 5, 8. */
uint8_t shepard_add(const uint8_t *file, size_t file_length, uint32_t x, uint32_t y, int32_t z,
                    uint8_t *out, size_t out_length, size_t *length);

/* The file with another value at a location. 9 to 15, 1, 2, 4, 8. */
uint8_t shepard_change(const uint8_t *file, size_t file_length, uint32_t x, uint32_t y, int32_t z,
                       uint8_t *out, size_t out_length, size_t *length);

/* The file with a point taken out. 9 to 15, 1, 4, 8. */
uint8_t shepard_drop(const uint8_t *file, size_t file_length, uint32_t x, uint32_t y,
                     uint8_t *out, size_t out_length, size_t *length);

/* The interpolated value at a location, how many points it goes by, and the radius R. 9 to 15, 1, 6. */
uint8_t shepard_lookup(const uint8_t *file, size_t file_length, uint32_t x, uint32_t y,
                       int16_t *answer, size_t *count, uint32_t *radius);

/* The same, and the records of those points in order of choice to the front of `records`, 10 bytes each: x (2), y (2), z (1), distance (4),
 * and kind (1), which is 0 for coincident, 1 for inverse, 2 for tapered and 3 for edge. 9 to 15, 1, 6, 8. */
uint8_t shepard_lookup_neighbours(const uint8_t *file, size_t file_length, uint32_t x, uint32_t y,
                                  uint8_t *records, size_t records_length, int16_t *answer, size_t *count, uint32_t *radius);

/* Lookups at many locations, the file read once: 4 bytes of `locations` each, x (2) and y (2), and 8 bytes of `out` for each: answer (2), count (2), radius (4).
 * Refused as the first lookup that is refused. Fewer than 4 bytes at the end are no location. 9 to 15, 1, 6, 8. */
uint8_t shepard_lookup_many(const uint8_t *file, size_t file_length, const uint8_t *locations, size_t locations_length,
                            uint8_t *out, size_t out_length);

/* The grid file to the front of `out`, and its length. 9 to 15, 7, 6, 8. */
uint8_t shepard_grid_file(const uint8_t *file, size_t file_length, uint16_t x0, uint16_t y0, uint16_t step_x, uint16_t step_y,
                          uint16_t columns, uint16_t rows, uint8_t *out, size_t out_length, size_t *length);

/* The Esri ASCII grid to the front of `out`, and its length: text, with no NUL behind it. After the lines ncols, nrows, xllcenter, yllcenter, cellsize and NODATA_value
 * come the rows, from the highest y down, each cell in register steps with eight decimals, which are exact. 9 to 15, 7, 16, 6, 8. */
uint8_t shepard_esri(const uint8_t *file, size_t file_length, uint16_t x0, uint16_t y0, uint16_t step_x, uint16_t step_y,
                     uint16_t columns, uint16_t rows, uint8_t *out, size_t out_length, size_t *length);

/* The six numbers of a grid file. 9, 10, 7, 12. */
uint8_t shepard_grid_check(const uint8_t *file, size_t file_length, uint16_t *x0, uint16_t *y0, uint16_t *step_x, uint16_t *step_y,
                           uint16_t *columns, uint16_t *rows);

/* The cells of a grid file to the front of `cells`, in 256ths, row by row, y ascending, x ascending within a row, and how many there are.
 * `cells_length` counts cells, not bytes. 9, 10, 7, 12, 8. */
uint8_t shepard_grid_cells(const uint8_t *file, size_t file_length, int16_t *cells, size_t cells_length, size_t *count);

#ifdef __cplusplus
}
#endif

/* Why a call is refused, in words; 9 to 15 of a survey file. */
static inline const char *shepard_refusal_text(uint8_t number) {
    switch (number) {
    case SHEPARD_OFF_DOMAIN: return "the location is off the domain";
    case SHEPARD_OUT_OF_RANGE: return "the value is out of range";
    case SHEPARD_POINT_THERE: return "a point is there already";
    case SHEPARD_NO_POINT_THERE: return "no point is there";
    case SHEPARD_FULL: return "256 points are present";
    case SHEPARD_EMPTY: return "no point is present";
    case SHEPARD_GRID_RULE: return "the grid breaks a rule";
    case SHEPARD_TOO_SHORT: return "what is lent is too short";
    case SHEPARD_FILE_LENGTH: return "it has under 12 or over 65,536 bytes";
    case SHEPARD_FILE_MAGIC: return "its last four bytes are not RLS1";
    case SHEPARD_FILE_COUNT: return "its count is above 256";
    case SHEPARD_FILE_BACK: return "its back distance does not fit";
    case SHEPARD_FILE_SUM: return "the sum of its record bytes differs";
    case SHEPARD_RECORD_DOMAIN: return "a record is off the domain";
    case SHEPARD_RECORD_ORDER: return "a record is not after the one before";
    case SHEPARD_STEPS_DIFFER: return "the two steps of an Esri ASCII grid differ";
    default: return "no such refusal";
    }
}

/* Why a grid file is refused, in words. */
static inline const char *shepard_grid_file_text(uint8_t number) {
    switch (number) {
    case SHEPARD_GRID_RULE: return "its grid breaks a rule";
    case SHEPARD_FILE_LENGTH: return "no grid file has its length";
    case SHEPARD_FILE_MAGIC: return "its last four bytes are not RLG1";
    case SHEPARD_FILE_BACK: return "its back distance or its length does not go with its six numbers";
    default: return shepard_refusal_text(number);
    }
}

static inline uint16_t shepard_word(const uint8_t *b) { return (uint16_t)(b[0] << 8 | b[1]); }

static inline int8_t shepard_signed(uint8_t b) { return (int8_t)(b < 128 ? b : b - 256); }

/* Point i, from 0, of a survey file that was accepted and has `count` points: i must be below `count`. */
static inline shepard_point shepard_point_at(const uint8_t *file, size_t file_length, size_t count, size_t i) {
    const uint8_t *b = file + (file_length - 12 - 5 * (count - i));
    shepard_point point;
    point.x = shepard_word(b);
    point.y = shepard_word(b + 2);
    point.z = shepard_signed(b[4]);
    return point;
}

/* Neighbour i, from 0, of the records of a lookup: i must be below its count. */
static inline shepard_neighbour shepard_neighbour_at(const uint8_t *records, size_t i) {
    const uint8_t *b = records + 10 * i;
    shepard_neighbour neighbour;
    neighbour.x = shepard_word(b);
    neighbour.y = shepard_word(b + 2);
    neighbour.z = shepard_signed(b[4]);
    neighbour.distance = (uint32_t)shepard_word(b + 5) << 16 | shepard_word(b + 7);
    neighbour.kind = b[9];
    return neighbour;
}
#endif
