#include "svg.h"

#include <math.h>
#include <stdio.h>
#include <stdlib.h>
#include <string.h>

/* Wider than the letters of common fonts are, as parts of the font's size. */
static const double letter_width = 0.62, ascent = 0.8, descent = 0.25;

/* The value of an attribute on its line, or an empty string. */
static void get_word(const char *line, const char *name, char word[SVG_WORD])
{
    char sought[SVG_WORD];
    snprintf(sought, sizeof sought, " %s=\"", name);
    const char *found = strstr(line, sought);
    found = found == NULL ? "" : found + strlen(sought);
    snprintf(word, SVG_WORD, "%.*s", (int)strcspn(found, "\""), found);
}

static double get_number(const char *line, const char *name, double otherwise)
{
    char word[SVG_WORD];
    get_word(line, name, word);
    return word[0] != '\0' ? atof(word) : otherwise;
}

/* Turned texts go upward. */
static bool read_text(struct svg *svg, const char *line)
{
    const char *words = strchr(line, '>') + 1;
    char anchor[SVG_WORD], *kept = svg->words[svg->texts];
    double x = get_number(line, "x", 0), y = get_number(line, "y", 0);
    bool is_turned = sscanf(line, "<text transform=\"translate(%lf %lf) rotate(-90)\"", &x, &y) == 2;
    double size = get_number(line, "font-size", svg->font_size);
    snprintf(kept, SVG_WORD, "%.*s", (int)strcspn(words, "<"), words);
    get_word(line, "fill", svg->text_colour[svg->texts]);
    get_word(line, "text-anchor", anchor);
    double length = letter_width * size * (double)strlen(kept);
    double before = strcmp(anchor, "middle") == 0 ? length / 2 : strcmp(anchor, "end") == 0 ? length : 0;
    svg->text[svg->texts++] =
        is_turned ? (struct area){x - ascent * size, y - length + before, x + descent * size, y + before}
                  : (struct area){x - before, y - ascent * size, x - before + length, y + descent * size};
    return true;
}

static bool read_box(struct svg *svg, const char *line)
{
    double x = get_number(line, "x", 0), y = get_number(line, "y", 0);
    svg->box[svg->boxes++] = (struct area){x, y, x + get_number(line, "width", 0), y + get_number(line, "height", 0)};
    return true;
}

static bool read_circle(struct svg *svg, const char *line)
{
    double x = get_number(line, "cx", 0), y = get_number(line, "cy", 0), r = get_number(line, "r", 0);
    get_word(line, "fill", svg->circle_colour[svg->circles]);
    svg->circle[svg->circles++] = (struct area){x - r, y - r, x + r, y + r};
    return true;
}

static bool read_segments(struct svg *svg, const char *line)
{
    struct area segment = {0};
    const char *next = strstr(line, " points=\"");
    if (next == NULL)
        return false;
    next += strlen(" points=\"");
    for (int length, points = 0; sscanf(next, "%lf,%lf %n", &segment.right, &segment.bottom, &length) == 2;
         next += length, points++) {
        if (points > 0 && svg->segments < SVG_MOST) {
            get_word(line, "stroke", svg->segment_colour[svg->segments]);
            svg->segment[svg->segments++] = segment;
        }
        segment.left = segment.right;
        segment.top = segment.bottom;
    }
    return svg->segments < SVG_MOST;
}

/* An arrow; the heads of arrows are not on lines of their own. */
static bool read_arrow(struct svg *svg, const char *line)
{
    struct area arrow;
    if (strstr(line, "marker-end=") == NULL)
        return true;
    if (svg->segments == SVG_MOST ||
        sscanf(line, "<path d=\"M%lf %lf L%lf %lf\"", &arrow.left, &arrow.top, &arrow.right, &arrow.bottom) != 4)
        return false;
    svg->segment[svg->segments++] = arrow;
    return true;
}

static bool read_page(struct svg *svg, const char *line)
{
    svg->width = get_number(line, "width", 0);
    svg->height = get_number(line, "height", 0);
    svg->font_size = get_number(line, "font-size", 0);
    return svg->width > 0 && svg->height > 0;
}

static bool read_line(struct svg *svg, const char *line)
{
    if (svg->texts == SVG_MOST || svg->boxes == SVG_MOST || svg->circles == SVG_MOST)
        return false;
    if (strncmp(line, "<svg ", 5) == 0)
        return read_page(svg, line);
    if (strncmp(line, "<text ", 6) == 0)
        return read_text(svg, line);
    if (strncmp(line, "<rect ", 6) == 0 && strstr(line, " rx=") != NULL)
        return read_box(svg, line);
    if (strncmp(line, "<circle ", 8) == 0)
        return read_circle(svg, line);
    if (strncmp(line, "<path ", 6) == 0)
        return read_arrow(svg, line);
    return strncmp(line, "<polyline ", 10) != 0 || read_segments(svg, line);
}

bool read_svg(struct svg *svg, const char *source)
{
    memset(svg, 0, sizeof *svg);
    for (const char *end; (end = strchr(source, '\n')) != NULL; source = end + 1) {
        char line[1024];
        snprintf(line, sizeof line, "%.*s", (int)(end - source), source);
        if (!read_line(svg, line))
            return false;
        if (strcmp(line, "</svg>") == 0)
            return svg->width > 0;
    }
    return false;
}

bool do_overlap(const struct area *one, const struct area *other)
{
    return one->left < other->right && other->left < one->right && one->top < other->bottom && other->top < one->bottom;
}

bool is_within(const struct area *inner, const struct area *outer)
{
    return inner->left >= outer->left && inner->right <= outer->right && inner->top >= outer->top &&
           inner->bottom <= outer->bottom;
}

bool does_cross(const struct area *line, const struct area *area)
{
    enum { PIECES = 1000 };
    for (int i = 0; i <= PIECES; i++) {
        double share = (double)i / PIECES;
        double x = line->left + share * (line->right - line->left);
        double y = line->top + share * (line->bottom - line->top);
        if (x > area->left && x < area->right && y > area->top && y < area->bottom)
            return true;
    }
    return false;
}
