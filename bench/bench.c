/* The proved library beside the plain C reference, in one process: whether they agree, and how long each takes.
 *
 *   bench agree SURVEYS    random surveys: the same answer, count and radius from each, at 256 locations of each survey
 *   bench repeat POINTS N  4,096 random lookups of the library in a random survey of so many points, N times; prints nothing
 *   bench grid POINTS N    the grid file of 64 by 64 over the domain in such a survey, N times; prints nothing
 *   bench text POINTS N    the same as an Esri ASCII grid
 *   bench time ROUNDS      the tables: nanoseconds a lookup, milliseconds a grid of 64 by 64, nanoseconds to work out R0; the best of ROUNDS, the
 *                          variants in turn
 */
#include "reference.h"
#include "shepard.h"
#include <stdio.h>
#include <stdlib.h>
#include <time.h>

static uint64_t seed;

static uint32_t draw(uint32_t below) {
    uint64_t v = (seed += 0x9e3779b97f4a7c15u);
    v = (v ^ v >> 30) * 0xbf58476d1ce4e5b9u;
    v = (v ^ v >> 27) * 0x94d049bb133111ebu;
    return (uint32_t)(((v ^ v >> 31) >> 32) * below >> 32);
}

/* over the domain; up to 255 above x = y; within 32 by 32; on one slanted line; 16 by 16 locations of a lattice */
enum Shape { UNIFORM, DIAGONAL, TIGHT, LINE, LATTICE, SHAPES };

typedef struct { int x, y; } Location;

/* Of a line, rising or falling, 272 of which stay in the domain, or of a lattice. */
static Location step_draw(enum Shape shape) {
    int x = shape == LINE ? 1 + (int)draw(15) : 1 << draw(9), y = shape == LINE ? 1 + (int)draw(15) : 1 << draw(9);
    return (Location){x, shape == LINE && draw(2) ? -y : y};
}

static Location location_draw(enum Shape shape, Location step) {
    static const uint32_t columns[SHAPES] = {[UNIFORM] = DOMAIN, [DIAGONAL] = DOMAIN - 255, [TIGHT] = 32, [LINE] = 273, [LATTICE] = 16};
    static const uint32_t rows[SHAPES] = {[UNIFORM] = DOMAIN, [DIAGONAL] = 256, [TIGHT] = 32, [LINE] = 1, [LATTICE] = 16};
    int i = (int)draw(columns[shape]), j = (int)draw(rows[shape]);
    if (shape == LINE) return (Location){i * step.x, (step.y < 0 ? DOMAIN - 1 : 0) + i * step.y};
    if (shape == LATTICE) return (Location){i * step.x, j * step.y};
    return (Location){i, shape == DIAGONAL ? i + j : j};
}

static int ascending(const void *a, const void *b) {
    uint32_t l = *(const uint32_t *)a, r = *(const uint32_t *)b;
    return (l > r) - (l < r);
}

static void survey_draw(Survey *s, int n, enum Shape shape) {
    uint32_t location[MAX_POINTS];
    Location step = shape < LINE ? (Location){0, 0} : step_draw(shape);
    memset(s, 0, sizeof *s);
    for (int i = 0; i < n;) {
        Location at = location_draw(shape, step);
        uint32_t p = (uint32_t)at.x << 16 | (uint32_t)at.y;
        int taken = 0;
        for (int j = 0; j < i; j++) taken |= location[j] == p;
        if (!taken) location[i++] = p;
    }
    qsort(location, (size_t)n, sizeof *location, ascending);
    for (int i = 0; i < n; i++) {
        s->x[i] = (uint16_t)(location[i] >> 16);
        s->y[i] = (uint16_t)(location[i] & 0xffff);
        s->z[i] = (int8_t)((int)draw(256) - 128);
    }
    s->count = (uint16_t)n;
    s->r0 = initial_radius(s);
}

static unsigned get2(const uint8_t *b) { return (unsigned)b[0] << 8 | b[1]; }
static uint32_t get4(const uint8_t *b) { return (uint32_t)get2(b) << 16 | get2(b + 2); }
static void put2(uint8_t *b, unsigned v) { b[0] = (uint8_t)(v >> 8); b[1] = (uint8_t)v; }

typedef struct { uint8_t bytes[5 * MAX_POINTS + 12]; size_t length; } File;

static void file_of(const Survey *s, File *f) {
    unsigned sum = 0, n = s->count;
    for (unsigned i = 0; i < n; i++) {
        uint8_t *b = f->bytes + 5 * i;
        put2(b, s->x[i]);
        put2(b + 2, s->y[i]);
        b[4] = (uint8_t)s->z[i];
        for (int j = 0; j < 5; j++) sum += b[j];
    }
    uint8_t *trailer = f->bytes + 5 * n;
    put2(trailer, n);
    put2(trailer + 2, 0);
    put2(trailer + 4, 5 * n);
    put2(trailer + 6, sum & 0xffff);
    memcpy(trailer + 8, "RLS1", 4);
    f->length = 5 * n + 12;
}

enum { LOCATIONS = MAX_SIDE * MAX_SIDE };

typedef struct { uint16_t x[LOCATIONS], y[LOCATIONS]; int count; } Locations;
typedef void Lookups(const Survey *, const File *, const Locations *, Answer *);

static void form(const Survey *s, const File *f, const Locations *l, Answer *out) {
    (void)f;
    for (int i = 0; i < l->count; i++) out[i] = lookup_form(*s, l->x[i], l->y[i]);
}

static void kept(const Survey *s, const File *f, const Locations *l, Answer *out) {
    (void)f;
    for (int i = 0; i < l->count; i++) out[i] = lookup_kept(*s, l->x[i], l->y[i]);
}

/* The library reads the file once and answers every location. */
static void proved(const Survey *s, const File *f, const Locations *l, Answer *out) {
    (void)s;
    static uint8_t in[4 * LOCATIONS], found[8 * LOCATIONS];
    for (int i = 0; i < l->count; i++) {
        put2(in + 4 * i, l->x[i]);
        put2(in + 4 * i + 2, l->y[i]);
    }
    if (shepard_lookup_many(f->bytes, f->length, in, 4 * (size_t)l->count, found, sizeof found) != 0) exit(1);
    for (int i = 0; i < l->count; i++)
        out[i] = (Answer){(int16_t)get2(found + 8 * i), (uint16_t)get2(found + 8 * i + 2), get4(found + 8 * i + 4)};
}

/* A grid of 64 by 64 over the whole domain, as a grid file. */
static void proved_grid(const File *f) {
    static uint8_t out[2 * LOCATIONS + 20];
    size_t length;
    if (shepard_grid_file(f->bytes, f->length, 0, 0, 65, 65, MAX_SIDE, MAX_SIDE, out, sizeof out, &length) != 0) exit(1);
}

/* The same grid as an Esri ASCII grid. */
static void proved_text(const File *f) {
    static uint8_t out[SHEPARD_ESRI_MOST];
    size_t length;
    if (shepard_esri(f->bytes, f->length, 0, 0, 65, 65, MAX_SIDE, MAX_SIDE, out, sizeof out, &length) != 0) exit(1);
}

static void grid_locations(Locations *l) {
    for (l->count = 0; l->count < LOCATIONS; l->count++) {
        l->x[l->count] = (uint16_t)(65 * (l->count % MAX_SIDE));
        l->y[l->count] = (uint16_t)(65 * (l->count / MAX_SIDE));
    }
}

static void draw_locations(Locations *l, int n, uint32_t below) {
    for (l->count = 0; l->count < n; l->count++) {
        l->x[l->count] = (uint16_t)draw(below);
        l->y[l->count] = (uint16_t)draw(below);
    }
}

/* What locations are drawn below, so that all points and 8 steps around them are met. */
static uint32_t side_of(const Survey *s) {
    uint32_t most = s->x[s->count - 1];
    for (int i = 0; i < s->count; i++) most = s->y[i] > most ? s->y[i] : most;
    return most + 9 < DOMAIN ? most + 9 : DOMAIN;
}

static int agree(int surveys) {
    static Answer a[LOCATIONS], b[LOCATIONS], c[LOCATIONS];
    static Locations l;
    long lookups = 0, differing = 0;
    seed = 1;
    for (int i = 0; i < surveys; i++) {
        Survey s;
        File f;
        survey_draw(&s, 1 + (int)draw(MAX_POINTS), (enum Shape)(i % SHAPES));
        file_of(&s, &f);
        draw_locations(&l, 256, side_of(&s));
        form(&s, &f, &l, a);
        kept(&s, &f, &l, b);
        proved(&s, &f, &l, c);
        for (int j = 0; j < l.count; j++, lookups++) differing += memcmp(&a[j], &b[j], sizeof *a) != 0 || memcmp(&a[j], &c[j], sizeof *a) != 0;
    }
    printf("agree: %ld lookups, %ld differ\n", lookups, differing);
    return differing != 0;
}

/* For a profiler: what one more repetition takes is what 4,096 lookups take, the file read once among them. */
static int repeat(int points, int times) {
    static Answer out[LOCATIONS];
    static Locations l;
    Survey s;
    File f;
    seed = 3;
    survey_draw(&s, points, UNIFORM);
    file_of(&s, &f);
    draw_locations(&l, LOCATIONS, DOMAIN);
    for (int i = 0; i < times; i++) proved(&s, &f, &l, out);
    return 0;
}

/* The same of a grid: one more repetition is one grid, the file read among it. */
static int repeat_grid(int points, int times, void grid(const File *)) {
    Survey s;
    File f;
    seed = 3;
    survey_draw(&s, points, UNIFORM);
    file_of(&s, &f);
    for (int i = 0; i < times; i++) grid(&f);
    return 0;
}

/* The process's own time, since the machine may be shared. */
static double now(void) {
    struct timespec t;
    clock_gettime(CLOCK_PROCESS_CPUTIME_ID, &t);
    return 1e9 * (double)t.tv_sec + (double)t.tv_nsec;
}

enum { CASES = 8, VARIANTS = 3, RADII = 64 };

static void best(double *least, double began) {
    double t = now() - began;
    if (t < *least) *least = t;
}

static void print_row(const char *name, double times[CASES][VARIANTS], int v) {
    printf("%-36s", name);
    for (int c = 0; c < CASES; c++) printf("%s%8.0f", c == 4 ? "  " : "", times[c][v] / LOCATIONS);
    printf("\n");
}

/* The last variant over another. */
static void print_ratios(const char *name, double times[CASES][VARIANTS], int v) {
    printf("%-36s", name);
    for (int c = 0; c < CASES; c++) printf("%s%8.2f", c == 4 ? "  " : "", times[c][VARIANTS - 1] / times[c][v]);
    printf("\n");
}

static void time_lookups(int rounds, const Survey *surveys, const File *files) {
    static Lookups *const variants[VARIANTS] = {form, kept, proved};
    static double least[CASES][VARIANTS];
    static Locations random;
    static Answer out[LOCATIONS];
    for (int c = 0; c < CASES; c++)
        for (int v = 0; v < VARIANTS; v++) least[c][v] = 1e18;
    draw_locations(&random, LOCATIONS, DOMAIN);
    for (int r = 0; r < rounds; r++)
        for (int c = 0; c < CASES; c++)
            for (int v = 0; v < VARIANTS; v++) {
                double began = now();
                variants[v](&surveys[c], &files[c], &random, out);
                best(&least[c][v], began);
            }
    printf("%-36s%8d%8d%8d%8d  %8d%8d%8d%8d\n", "ns a lookup; points:", 5, 50, 200, 256, 5, 50, 200, 256);
    printf("%-36s%8s%26s%8s\n", "", "uniform", "", "diagonal");
    print_row("form", least, 0);
    print_row("kept", least, 1);
    print_row("proved", least, 2);
    print_ratios("proved / form", least, 0);
    print_ratios("proved / kept", least, 1);
}

/* Of 200 points: form, kept, the library's grid file, and its Esri ASCII grid. */
static void time_grids(int rounds, const Survey *surveys, const File *files) {
    static double grid[2][4];
    static Locations square;
    static Answer out[LOCATIONS];
    for (int i = 0; i < 2; i++) grid[i][0] = grid[i][1] = grid[i][2] = grid[i][3] = 1e18;
    grid_locations(&square);
    for (int r = 0; r < rounds; r++)
        for (int i = 0; i < 2; i++) {
            const Survey *s = &surveys[2 + 4 * i];
            const File *f = &files[2 + 4 * i];
            double began = now();
            form(s, f, &square, out);
            best(&grid[i][0], began);
            began = now();
            kept(s, f, &square, out);
            best(&grid[i][1], began);
            began = now();
            proved_grid(f);
            best(&grid[i][2], began);
            began = now();
            proved_text(f);
            best(&grid[i][3], began);
        }
    printf("\nms a grid of 64 by 64, 200 points    uniform  diagonal\n");
    printf("form                                %8.2f  %8.2f\n", grid[0][0] / 1e6, grid[1][0] / 1e6);
    printf("kept                                %8.2f  %8.2f\n", grid[0][1] / 1e6, grid[1][1] / 1e6);
    printf("proved, as a grid file              %8.2f  %8.2f\n", grid[0][2] / 1e6, grid[1][2] / 1e6);
    printf("proved / form                       %8.2f  %8.2f\n", grid[0][2] / grid[0][0], grid[1][2] / grid[1][0]);
    printf("proved / kept                       %8.2f  %8.2f\n", grid[0][2] / grid[0][1], grid[1][2] / grid[1][1]);
    printf("proved, as an Esri ASCII grid       %8.2f  %8.2f\n", grid[0][3] / 1e6, grid[1][3] / 1e6);
    printf("Esri ASCII grid / grid file         %8.2f  %8.2f\n", grid[0][3] / grid[0][2], grid[1][3] / grid[1][2]);
}

/* Many surveys in turn: a processor learns the branches of one. */
static void time_radii(int rounds) {
    static Survey surveys[2][RADII];
    double least[2] = {1e18, 1e18};
    for (int i = 0; i < 2; i++)
        for (int j = 0; j < RADII; j++) survey_draw(&surveys[i][j], MAX_POINTS, i == 0 ? UNIFORM : DIAGONAL);
    for (int r = 0; r < rounds; r++)
        for (int i = 0; i < 2; i++) {
            double began = now();
            for (int j = 0; j < RADII; j++) surveys[i][j].r0 = initial_radius(&surveys[i][j]);
            best(&least[i], began);
        }
    printf("\nns to work out R0, 256 points        uniform  diagonal\n");
    printf("reference                           %8.0f  %8.0f\n", least[0] / RADII, least[1] / RADII);
}

static void times(int rounds) {
    static const int counts[] = {5, 50, 200, 256};
    static Survey surveys[CASES];
    static File files[CASES];
    seed = 3;
    for (int c = 0; c < CASES; c++) {
        survey_draw(&surveys[c], counts[c % 4], c < 4 ? UNIFORM : DIAGONAL);
        file_of(&surveys[c], &files[c]);
    }
    time_lookups(rounds, surveys, files);
    time_grids(rounds, surveys, files);
    time_radii(rounds);
}

int main(int argc, char **argv) {
    if (argc == 3 && strcmp(argv[1], "agree") == 0) return agree(atoi(argv[2]));
    if (argc == 4 && strcmp(argv[1], "repeat") == 0) return repeat(atoi(argv[2]), atoi(argv[3]));
    if (argc == 4 && strcmp(argv[1], "grid") == 0) return repeat_grid(atoi(argv[2]), atoi(argv[3]), proved_grid);
    if (argc == 4 && strcmp(argv[1], "text") == 0) return repeat_grid(atoi(argv[2]), atoi(argv[3]), proved_text);
    if (argc == 3 && strcmp(argv[1], "time") == 0) return times(atoi(argv[2])), 0;
    fprintf(stderr, "usage: bench agree SURVEYS | repeat POINTS N | grid POINTS N | text POINTS N | time ROUNDS\n");
    return 2;
}
