/* The picture of the waits: each thread has a fixed place on a circle, so that no box lies on
 * another, and an arrow goes from a thread that waits to the one that it waits for. A thread waits
 * for one lock at a time, so its box has room for it, and the arrows need no labels. */
#include "waits.h"

#include <math.h>

enum {
    WIDTH = 716,
    HEIGHT = 660,
    RADIUS = 283,
    BOX_WIDTH = 130,
    BOX_HEIGHT = 76,
    FONT_SIZE = 12,
    LINE_HEIGHT = 16,
    FIRST_LINE = 20, /* from the top of a box */
    BESIDE = 4       /* from the line between two middles to the arrow */
};
static const double eighth_turn = 0.78539816339744831;
static const char wait_colour[] = "black", ring_colour[] = "#c01818", other_colour[] = "#a0a0a0";

struct point {
    double x, y;
};

static struct point moved(struct point from, struct point direction, double length)
{
    return (struct point){from.x + direction.x * length, from.y + direction.y * length};
}

/* The middle of a thread's box; thread 0 is at the top, and the others follow clockwise. */
static struct point middle_of(uint32_t thread)
{
    struct point centre = {WIDTH / 2.0, HEIGHT / 2.0};
    struct point outward = {sin(thread * eighth_turn), -cos(thread * eighth_turn)};
    return moved(centre, outward, RADIUS);
}

/* How far it is along one axis from a place in the box to its edge. */
static double along_axis(double half, double place, double direction)
{
    if (fabs(direction) < 1e-9)
        return INFINITY;
    return ((direction > 0 ? half : -half) - place) / direction;
}

/* How far it is from a place in a box, given from its middle, to its edge. */
static double to_edge(struct point place, struct point direction)
{
    return fmin(along_axis(BOX_WIDTH / 2.0, place.x, direction.x), along_axis(BOX_HEIGHT / 2.0, place.y, direction.y));
}

static const char *colour_of(const struct walk *walks, uint32_t thread)
{
    if (is_on_ring(walks, thread))
        return ring_colour;
    return is_in_waits(walks, thread) ? wait_colour : other_colour;
}

static void draw_box(FILE *stream, const uint8_t *state, const struct walk *walks, uint32_t thread)
{
    struct point middle = middle_of(thread);
    double left = middle.x - BOX_WIDTH / 2.0, top = middle.y - BOX_HEIGHT / 2.0;
    char lines[BOX_LINES][BOX_LINE_SIZE];
    write_box(lines, state, walks, thread);
    fprintf(stream,
            "<rect x=\"%.1f\" y=\"%.1f\" width=\"%d\" height=\"%d\" rx=\"4\" "
            "fill=\"#f4f6f8\" stroke=\"%s\"/>\n",
            left, top, BOX_WIDTH, BOX_HEIGHT, colour_of(walks, thread));
    for (int i = 0; i < BOX_LINES; i++)
        fprintf(stream,
                "<text x=\"%.1f\" y=\"%.1f\" text-anchor=\"middle\" fill=\"%s\">%s"
                "</text>\n",
                middle.x, top + FIRST_LINE + LINE_HEIGHT * i, colour_of(walks, thread), lines[i]);
}

/* From edge to edge, and to the right of the line between the middles, so that two threads that
 * wait for each other have two arrows. */
static void draw_arrow(FILE *stream, const struct walk *walks, uint32_t thread)
{
    struct point from = middle_of(thread), to = middle_of(walks[thread].met[1]);
    double length = hypot(to.x - from.x, to.y - from.y);
    struct point ahead = {(to.x - from.x) / length, (to.y - from.y) / length};
    struct point right = {-ahead.y, ahead.x}, back = {-ahead.x, -ahead.y};
    struct point place = moved((struct point){0, 0}, right, BESIDE);
    struct point first = moved(moved(from, place, 1), ahead, to_edge(place, ahead));
    struct point last = moved(moved(to, place, 1), back, to_edge(place, back));
    fprintf(stream,
            "<path d=\"M%.1f %.1f L%.1f %.1f\" stroke=\"%s\" stroke-width=\"1.5\" "
            "marker-end=\"url(#%s)\"/>\n",
            first.x, first.y, last.x, last.y, colour_of(walks, thread), is_on_ring(walks, thread) ? "ring" : "wait");
}

static void draw_head(FILE *stream, const char *name, const char *colour)
{
    fprintf(stream,
            "<marker id=\"%s\" viewBox=\"0 0 10 10\" refX=\"9\" refY=\"5\" "
            "markerWidth=\"7\" markerHeight=\"7\" orient=\"auto\">"
            "<path d=\"M0 0 L10 5 L0 10 Z\" fill=\"%s\"/></marker>\n",
            name, colour);
}

void draw_picture(FILE *stream, const uint8_t *state, const struct walk *walks)
{
    bool any = false;
    fprintf(stream,
            "<svg xmlns=\"http://www.w3.org/2000/svg\" width=\"%d\" height=\"%d\" "
            "viewBox=\"0 0 %d %d\" font-family=\"sans-serif\" font-size=\"%d\">\n<defs>\n",
            WIDTH, HEIGHT, WIDTH, HEIGHT, FONT_SIZE);
    draw_head(stream, "wait", wait_colour);
    draw_head(stream, "ring", ring_colour);
    fprintf(stream, "</defs>\n<rect width=\"%d\" height=\"%d\" fill=\"white\"/>\n", WIDTH, HEIGHT);
    for (uint32_t thread = 0; thread < PLEX_THREADS; thread++) {
        draw_box(stream, state, walks, thread);
        if (does_wait(&walks[thread]))
            draw_arrow(stream, walks, thread);
        any |= does_wait(&walks[thread]);
    }
    if (!any)
        fprintf(stream, "<text x=\"%d\" y=\"%d\" text-anchor=\"middle\">no thread waits</text>\n", WIDTH / 2,
                HEIGHT / 2);
    fprintf(stream, "</svg>\n");
}
