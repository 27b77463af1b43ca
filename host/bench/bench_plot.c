/* The plot is drawn by hand: a frame, a tick for each point's number, a tick for each power of ten of
 * nanoseconds, and a line for each engine with its values. */
#include "bench_plot.h"

#include <math.h>
#include <stdio.h>

/* The points keep away from the frame, so that there is room for their values. */
enum { WIDTH = 720, HEIGHT = 460, LEFT = 90, RIGHT = 690, TOP = 60, BOTTOM = 390, ROOM_ACROSS = 66, ROOM_DOWN = 36 };
enum engine { PLEX, PLAIN, ENGINES };

static const char *const colours[] = {[PLEX] = "#1f5fa8", [PLAIN] = "#c4571b"};
static const char *const names[] = {[PLEX] = "proved engine (plex)", [PLAIN] = "plain C engine"};

/* What is counted across, and what is timed. */
static const struct {
    const char *across, *timed;
} axis_words[] = {[RECORDS_AXIS] = {"records in the image", "a call"},
                  [PAIR_AXIS] = {"records in each image", "a call"},
                  [EVENTS_AXIS] = {"events in a call", "an event"}};

/* The ends of the axes, as logarithms to base ten. */
struct axes {
    double number_low, number_high, ns_low, ns_high;
};

static struct axes axes_for(const struct bench_point *points, size_t count)
{
    double low = points[0].plain_ns, high = points[0].plain_ns;
    for (size_t i = 0; i < count; i++) {
        low = fmin(low, fmin(points[i].plex_ns, points[i].plain_ns));
        high = fmax(high, fmax(points[i].plex_ns, points[i].plain_ns));
    }
    return (struct axes){log10((double)points[0].number), log10((double)points[count - 1].number), floor(log10(low)),
                         fmax(ceil(log10(high)), floor(log10(low)) + 1)};
}

static double x_of(const struct axes *axes, size_t number)
{
    double share = (log10((double)number) - axes->number_low) / (axes->number_high - axes->number_low);
    return LEFT + ROOM_ACROSS + share * (RIGHT - LEFT - 2 * ROOM_ACROSS);
}

static double y_of(const struct axes *axes, double ns)
{
    double share = (log10(ns) - axes->ns_low) / (axes->ns_high - axes->ns_low);
    return BOTTOM - ROOM_DOWN - share * (BOTTOM - TOP - 2 * ROOM_DOWN);
}

static double ns_of(const struct bench_point *point, enum engine engine)
{
    return engine == PLEX ? point->plex_ns : point->plain_ns;
}

static void draw_frame(FILE *file, const char *title, enum bench_axis axis)
{
    fprintf(file,
            "<svg xmlns=\"http://www.w3.org/2000/svg\" width=\"%d\" height=\"%d\" "
            "viewBox=\"0 0 %d %d\" font-family=\"sans-serif\" font-size=\"13\">\n",
            WIDTH, HEIGHT, WIDTH, HEIGHT);
    fprintf(file, "<rect width=\"%d\" height=\"%d\" fill=\"white\"/>\n", WIDTH, HEIGHT);
    fprintf(file, "<text x=\"%d\" y=\"28\" font-size=\"16\">%s</text>\n", LEFT, title);
    fprintf(file,
            "<rect x=\"%d\" y=\"%d\" width=\"%d\" height=\"%d\" fill=\"none\" "
            "stroke=\"black\"/>\n",
            LEFT, TOP, RIGHT - LEFT, BOTTOM - TOP);
    fprintf(file,
            "<text x=\"%d\" y=\"%d\" text-anchor=\"middle\">"
            "%s (logarithmic)</text>\n",
            (LEFT + RIGHT) / 2, BOTTOM + 45, axis_words[axis].across);
    fprintf(file,
            "<text transform=\"translate(16 %d) rotate(-90)\" "
            "text-anchor=\"middle\">time %s, ns (logarithmic)</text>\n",
            (TOP + BOTTOM) / 2, axis_words[axis].timed);
}

static void draw_ticks(FILE *file, const struct axes *axes, const struct bench_point *points, size_t count)
{
    for (size_t i = 0; i < count; i++) {
        double x = x_of(axes, points[i].number);
        fprintf(file, "<path d=\"M%.1f %d V%d\" stroke=\"#ddd\"/>\n", x, TOP, BOTTOM);
        fprintf(file, "<text x=\"%.1f\" y=\"%d\" text-anchor=\"middle\">%zu</text>\n", x, BOTTOM + 20,
                points[i].number);
    }
    for (double power = axes->ns_low; power <= axes->ns_high; power++) {
        double y = y_of(axes, pow(10, power));
        fprintf(file, "<path d=\"M%d %.1f H%d\" stroke=\"#ddd\"/>\n", LEFT, y, RIGHT);
        fprintf(file, "<text x=\"%d\" y=\"%.1f\" text-anchor=\"end\">%.0f</text>\n", LEFT - 8, y + 4, pow(10, power));
    }
}

static void draw_line(FILE *file, const struct axes *axes, const struct bench_point *points, size_t count,
                      enum engine engine)
{
    fprintf(file, "<polyline fill=\"none\" stroke=\"%s\" stroke-width=\"2\" points=\"", colours[engine]);
    for (size_t i = 0; i < count; i++)
        fprintf(file, "%.1f,%.1f ", x_of(axes, points[i].number), y_of(axes, ns_of(&points[i], engine)));
    fprintf(file, "\"/>\n");
    for (size_t i = 0; i < count; i++)
        fprintf(file, "<circle cx=\"%.1f\" cy=\"%.1f\" r=\"4\" fill=\"%s\"/>\n", x_of(axes, points[i].number),
                y_of(axes, ns_of(&points[i], engine)), colours[engine]);
}

/* How far the lines go down the page from the point before to the point after. */
static double fall_at(const struct axes *axes, const struct bench_point *points, size_t count, size_t i)
{
    const struct bench_point *before = &points[i == 0 ? 0 : i - 1];
    const struct bench_point *after = &points[i + 1 == count ? i : i + 1];
    return (y_of(axes, after->plex_ns) - y_of(axes, before->plex_ns) + y_of(axes, after->plain_ns) -
            y_of(axes, before->plain_ns)) /
           2;
}

/* Of the two values at a point, the greater stands above its line and the other below its own, each
 * on the side that the lines lead away from. */
static void draw_values(FILE *file, const struct axes *axes, const struct bench_point *points, size_t count,
                        enum engine engine)
{
    static const char *const anchors[] = {"end", "middle", "start"};
    for (size_t i = 0; i < count; i++) {
        double own = ns_of(&points[i], engine), other = ns_of(&points[i], 1 - engine);
        double fall = fall_at(axes, points, count, i);
        int is_above = own > other || (own == other && engine == PLEX);
        int side = fabs(fall) < 12 ? 0 : (fall > 0) == is_above ? 1 : -1;
        fprintf(file, "<text x=\"%.1f\" y=\"%.1f\" text-anchor=\"%s\" fill=\"%s\">%.0f</text>\n",
                x_of(axes, points[i].number) + 5 * side, y_of(axes, own) + (is_above ? -9 : 19), anchors[1 + side],
                colours[engine], own);
    }
}

int bench_plot(const char *path, const char *title, enum bench_axis axis, const struct bench_point *points,
               size_t count)
{
    FILE *file = fopen(path, "w");
    if (file == NULL)
        return -1;
    struct axes axes = axes_for(points, count);
    draw_frame(file, title, axis);
    draw_ticks(file, &axes, points, count);
    for (enum engine engine = 0; engine < ENGINES; engine++)
        draw_line(file, &axes, points, count, engine);
    for (enum engine engine = 0; engine < ENGINES; engine++)
        draw_values(file, &axes, points, count, engine);
    for (enum engine engine = 0; engine < ENGINES; engine++)
        fprintf(file, "<text x=\"%d\" y=\"%d\" fill=\"%s\">%s</text>\n", LEFT + 190 * (int)engine, TOP - 10,
                colours[engine], names[engine]);
    fprintf(file, "</svg>\n");
    int failed = ferror(file);
    return fclose(file) != 0 || failed ? -1 : 0;
}
