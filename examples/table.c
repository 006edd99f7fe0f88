/* From points to a table: four points are added to a fresh survey, one is changed, a location is looked up with its neighbours, and a grid is worked out,
 * as a grid file, which is read back, and as text for a plotting tool.
 *
 *   bash build.sh
 *   gcc -Iinclude examples/table.c target/staticlib/libshepard.a -o target/table && target/table
 */
#include "shepard.h"
#include <stdio.h>
#include <stdlib.h>
#include <string.h>

/* The survey is its file's bytes: an edit reads the one and writes the other. */
static uint8_t survey[SHEPARD_FILE_MOST], edited[SHEPARD_FILE_MOST];
static size_t length;

static void accept(const char *what, uint8_t no) {
    if (no == 0) return;
    printf("%s: refused %u: %s\n", what, no, shepard_refusal_text(no));
    exit(1);
}

static void add(uint32_t x, uint32_t y, int32_t z) {
    accept("add", shepard_add(survey, length, x, y, z, edited, sizeof edited, &length));
    memcpy(survey, edited, length);
}

/* Steps and 256ths of a step as a decimal number. */
static double steps(long n) { return (double)n / 256.0; }

static void list(void) {
    size_t count;
    accept("check", shepard_check(survey, length, &count));
    printf("a survey of %zu points\n", count);
    for (size_t i = 0; i < count; i++) {
        shepard_point p = shepard_point_at(survey, length, count, i);
        printf("  (%u, %u) value %d\n", p.x, p.y, p.z);
    }
}

static void lookup(uint32_t x, uint32_t y) {
    uint8_t records[SHEPARD_RECORDS_LENGTH];
    int16_t answer;
    size_t count;
    uint32_t radius;
    accept("lookup", shepard_lookup_neighbours(survey, length, x, y, records, sizeof records, &answer, &count, &radius));
    printf("at (%u, %u): %.3f steps, by %zu points\n", (unsigned)x, (unsigned)y, steps(answer), count);
    for (size_t i = 0; i < count; i++) {
        shepard_neighbour n = shepard_neighbour_at(records, i);
        printf("  (%u, %u) value %d, %.2f off, kind %u\n", n.x, n.y, n.z, steps(n.distance), n.kind);
    }
}

static void grid(void) {
    static uint8_t file[SHEPARD_GRID_FILE_MOST];
    static int16_t cells[SHEPARD_CELLS_MOST];
    uint16_t x0, y0, step_x, step_y, columns, rows;
    size_t written, count;
    accept("grid", shepard_grid_file(survey, length, 0, 0, 1000, 1000, 5, 3, file, sizeof file, &written));
    printf("grid file of %zu bytes\n", written);
    accept("grid check", shepard_grid_check(file, written, &x0, &y0, &step_x, &step_y, &columns, &rows));
    accept("grid cells", shepard_grid_cells(file, written, cells, SHEPARD_CELLS_MOST, &count));
    printf("%u columns and %u rows from (%u, %u), steps of %u and %u\n", columns, rows, x0, y0, step_x, step_y);
    for (size_t i = 0; i < count; i++) printf("%8.3f%s", steps(cells[i]), (i + 1) % columns == 0 ? "\n" : "");
    uint8_t no = shepard_grid_cells(file, written - 1, cells, SHEPARD_CELLS_MOST, &count);
    printf("a byte short: refused %u: %s\n", no, shepard_grid_file_text(no));
}

/* The same grid as text. */
static void esri(void) {
    static uint8_t text[SHEPARD_ESRI_MOST];
    size_t written;
    accept("esri", shepard_esri(survey, length, 0, 0, 1000, 1000, 5, 3, text, sizeof text, &written));
    printf("Esri ASCII grid of %zu bytes\n", written);
    fwrite(text, 1, written, stdout);
}

int main(void) {
    accept("fresh", shepard_fresh(survey, sizeof survey, &length));
    add(100, 200, -3);
    add(900, 250, -12);
    add(1800, 2100, -30);
    add(3900, 1200, -64);
    accept("change", shepard_change(survey, length, 900, 250, -11, edited, sizeof edited, &length));
    memcpy(survey, edited, length);
    uint8_t no = shepard_add(survey, length, 100, 200, 0, edited, sizeof edited, &length);
    printf("twice at one location: refused %u: %s\n", no, shepard_refusal_text(no));
    list();
    lookup(1000, 1000);
    grid();
    esri();
    return 0;
}
