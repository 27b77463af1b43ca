/* The plots of the benchmark and the picture of the waits: no two texts lie on each other, every
 * text is on the page, a value stands at its own line, and an arrow goes through no box.
 *
 * Use: pictures FOLDER    writes some of the pictures there, for a person to look at; the folder is
 *                         made if it is not there */
#define _POSIX_C_SOURCE 200809L

#include "bench_plot.h"
#include "svg.h"
#include "waits.h"

#include <math.h>
#include <stdlib.h>
#include <string.h>
#include <sys/stat.h>

/* The width of a sheet of A4 or Letter within margins of 10 mm, in SVG's units of 1/96 inch. */
static const double page_width = 718;

static const char *folder;
static unsigned failures, pictures;

static void expect(bool holds, const char *picture, const char *what, const char *words)
{
    if (holds)
        return;
    failures++;
    printf("pictures: %s: %s: %s\n", picture, what, words);
}

/* What holds of every picture. */
static bool read_texts(struct svg *svg, const char *name, const char *source)
{
    pictures++;
    if (!read_svg(svg, source)) {
        expect(false, name, "it cannot be read", "");
        return false;
    }
    struct area page = {0, 0, svg->width, svg->height};
    for (size_t i = 0; i < svg->texts; i++) {
        expect(is_within(&svg->text[i], &page), name, "a text leaves the page", svg->words[i]);
        for (size_t j = 0; j < i; j++)
            expect(!do_overlap(&svg->text[i], &svg->text[j]), name, "texts lie on each other", svg->words[i]);
    }
    return true;
}

/* ---- the plots */

static double distance(const struct area *text, const struct area *circle)
{
    double x = (circle->left + circle->right) / 2, y = (circle->top + circle->bottom) / 2;
    double across = fmax(0, fmax(text->left - x, x - text->right));
    double down = fmax(0, fmax(text->top - y, y - text->bottom));
    return hypot(across, down);
}

/* The points come line by line, and the values after them in the same order. */
static void expect_values(const struct svg *svg, const char *name, size_t values)
{
    size_t first = svg->texts;
    while (first > 0 && svg->text_colour[first - 1][0] != '\0')
        first--;
    expect(svg->circles == values && svg->texts - first == values + 2, name, "values", "their number");
    for (size_t i = 0; i < values && i < svg->circles && first + i < svg->texts; i++) {
        const struct area *text = &svg->text[first + i];
        const char *words = svg->words[first + i];
        expect(strcmp(svg->text_colour[first + i], svg->circle_colour[i]) == 0, name, "a value has another colour",
               words);
        double own = distance(text, &svg->circle[i]);
        double other = distance(text, &svg->circle[(i + values / 2) % values]);
        expect(own < 20 && own <= other, name, "a value stands at the other line", words);
        for (size_t j = 0; j < svg->segments; j++)
            expect(!does_cross(&svg->segment[j], text), name, "a line strikes a value", words);
    }
}

static void try_plot(const char *name, const struct bench_point *points, size_t count)
{
    char path[4096], source[32768];
    struct svg svg;
    snprintf(path, sizeof path, "%s/%s.svg", folder, name);
    if (bench_plot(path, "Run with an image of 512 records", EVENTS_AXIS, points, count) != 0) {
        expect(false, name, "it cannot be written", path);
        return;
    }
    FILE *file = fopen(path, "r");
    source[file == NULL ? 0 : fread(source, 1, sizeof source - 1, file)] = '\0';
    if (file != NULL)
        fclose(file);
    if (read_texts(&svg, name, source))
        expect_values(&svg, name, 2 * count);
}

static void try_plots(void)
{
    static const struct bench_point rising[] = {{1, 22, 25}, {16, 310, 300}, {128, 2500, 2400}, {512, 9800, 10050}};
    static const struct bench_point falling[] = {
        {1, 8050, 8100}, {16, 520, 505}, {64, 150, 140}, {256, 60, 55}, {1024, 40, 38}};
    static const struct bench_point plain_above[] = {
        {1, 4000, 9000}, {16, 280, 600}, {64, 90, 200}, {256, 40, 100}, {1024, 30, 70}};
    static const struct bench_point level[] = {{1, 3000, 3000}, {16, 3000, 3000}, {128, 3010, 3000}, {512, 3000, 3010}};
    static const struct bench_point crossing[] = {{16, 100, 300}, {128, 400, 700}, {512, 1500, 1100}};
    static const struct bench_point wide[] = {
        {1, 999999, 600000}, {16, 60000, 99999}, {64, 5000, 4000}, {256, 300, 310}, {1024, 1, 2}};
    static const struct bench_point powers[] = {{1, 10, 10}, {512, 10, 10}};
#define TRY_PLOT(name, points) try_plot(name, points, sizeof points / sizeof points[0])
    TRY_PLOT("rising", rising);
    TRY_PLOT("falling", falling);
    TRY_PLOT("plain-above", plain_above);
    TRY_PLOT("level", level);
    TRY_PLOT("crossing", crossing);
    TRY_PLOT("wide", wide);
    TRY_PLOT("powers", powers);
}

/* ---- the picture of the waits */

/* What the library would say of threads that wait for these; nobody is PLEX_UNMET. */
static void make_walks(struct walk *walks, const uint8_t *holders)
{
    for (uint8_t thread = 0; thread < PLEX_THREADS; thread++) {
        uint32_t count = 0, met = 0;
        uint8_t next = thread;
        memset(walks[thread].met, PLEX_UNMET, PLEX_MET_SIZE);
        for (; next != PLEX_UNMET && !(met >> next & 1); next = holders[next]) {
            walks[thread].met[count++] = next;
            met |= 1u << next;
        }
        walks[thread].result = count | (next == PLEX_UNMET ? 0 : PLEX_RING);
        walks[thread].lock = 15;
    }
}

static void expect_boxes(const struct svg *svg, const char *name, size_t arrows)
{
    expect(svg->width <= page_width, name, "it is wider than a page", "");
    expect(svg->boxes == PLEX_THREADS && svg->segments == arrows, name, "boxes and arrows", "their number");
    for (size_t j = 0; j < svg->boxes; j++) {
        struct area box = svg->box[j], inside = {box.left + 1, box.top + 1, box.right - 1, box.bottom - 1};
        for (size_t i = 0; i < svg->texts; i++)
            expect(!do_overlap(&svg->text[i], &box) || is_within(&svg->text[i], &box), name,
                   "a text lies on the edge of a box", svg->words[i]);
        for (size_t i = 0; i < svg->segments; i++)
            expect(!does_cross(&svg->segment[i], &inside), name, "an arrow goes through a box", "");
        for (size_t i = 0; i < j; i++)
            expect(!do_overlap(&svg->box[i], &box), name, "boxes lie on each other", "");
    }
}

static void try_waits(const char *name, const uint8_t *holders, bool is_kept)
{
    struct walk walks[PLEX_THREADS];
    uint8_t state[PLEX_STATE_SIZE] = {0};
    char path[4096], *source = NULL;
    size_t size, arrows = 0;
    struct svg svg;
    for (uint32_t thread = 0; thread < PLEX_THREADS; thread++) {
        put16(state + PLEX_STATE_THREADS + PLEX_THREAD_SIZE * thread + PLEX_THREAD_LABEL, 511);
        put16(state + PLEX_STATE_THREADS + PLEX_THREAD_SIZE * thread + PLEX_THREAD_LOCKS, 65535);
    }
    make_walks(walks, holders);
    FILE *stream = open_memstream(&source, &size);
    draw_picture(stream, state, walks);
    fclose(stream);
    for (uint32_t thread = 0; thread < PLEX_THREADS; thread++)
        arrows += holders[thread] != PLEX_UNMET;
    if (read_texts(&svg, name, source))
        expect_boxes(&svg, name, arrows);
    snprintf(path, sizeof path, "%s/%s.svg", folder, name);
    FILE *file = is_kept ? fopen(path, "w") : NULL;
    if (file != NULL && (fputs(source, file) < 0 || fclose(file) != 0))
        expect(false, name, "it cannot be written", path);
    free(source);
}

/* Where an arrow goes depends on its own two threads alone. */
static void try_all_arrows(void)
{
    for (uint32_t pair = 0; pair < PLEX_THREADS * PLEX_THREADS; pair++) {
        uint8_t holders[PLEX_THREADS], waiting = pair % PLEX_THREADS;
        char name[32];
        memset(holders, PLEX_UNMET, sizeof holders);
        holders[waiting] = (uint8_t)(pair / PLEX_THREADS);
        snprintf(name, sizeof name, "thread %u for %u", waiting, holders[waiting]);
        if (holders[waiting] != waiting)
            try_waits(name, holders, false);
    }
}

int main(int argc, char **argv)
{
    static const uint8_t none[] = {255, 255, 255, 255, 255, 255, 255, 255};
    static const uint8_t ring[] = {1, 2, 3, 4, 5, 6, 7, 0}, star[] = {255, 0, 0, 0, 0, 0, 0, 0};
    static const uint8_t mixed[] = {4, 0, 6, 7, 0, 1, 2, 3}, skipping[] = {3, 4, 5, 6, 7, 0, 1, 2};
    if (argc != 2)
        return 2;
    folder = argv[1];
    mkdir(folder, 0777);
    try_plots();
    try_waits("none", none, true);
    try_waits("ring", ring, true);
    try_waits("star", star, true);
    try_waits("mixed", mixed, true);
    try_waits("skipping", skipping, true);
    try_all_arrows();
    printf("pictures: %u tried, %u faults\n", pictures, failures);
    return failures != 0;
}
