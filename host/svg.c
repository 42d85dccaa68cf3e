#include "svg.h"
#include "names.h"

#include <math.h>
#include <stdarg.h>
#include <stdio.h>
#include <string.h>

void add_box(struct text *text, const char *class, const char *fill, double x, double y, double width, double height)
{
    add(text, "<rect class='%s' fill='%s' x='%.1f' y='%.2f' width='%.1f' height='%.2f'/>\n", class, fill, x, y, width,
        height);
}

void define_hatching(struct text *text)
{
    add(text, "<pattern id='hatching' width='5' height='5' patternUnits='userSpaceOnUse' patternTransform='rotate(45)'>\n"
              "<path d='M0 0v5' stroke='#fff' stroke-width='2' stroke-opacity='.45'/></pattern>\n");
}

void add_hatching(struct text *text, double x, double y, double width, double height)
{
    add_box(text, "hatching", "url(#hatching)", x, y, width, height);
}

void add_path(struct text *text, const char *class, const char *fill, const char *format, ...)
{
    char path[400];
    va_list values;
    va_start(values, format);
    vsnprintf(path, sizeof path, format, values);
    va_end(values);
    add(text, "<path class='%s' fill='%s' d='%s'/>\n", class, fill, path);
}

void add_words(struct text *text, const char *class, double x, double y, const char *format, ...)
{
    char words[400];
    va_list values;
    va_start(values, format);
    vsnprintf(words, sizeof words, format, values);
    va_end(values);
    add(text, "<text class='%s' x='%.1f' y='%.1f'>%s</text>\n", class, x, y, words);
}

static double width_of(enum letters letters, const unsigned char *c)
{
    if (*c >= 0xf0)
        return 1.3;
    if (*c >= 0x80)
        return 1.1;
    if (letters == LABEL)
        return 0.61;
    if (*c == '%')
        return 1.3;
    if (strchr("@MWmw", *c) != NULL)
        return 1.1;
    if ((*c >= 'A' && *c <= 'Z') || strchr("#&+<=>^~", *c) != NULL)
        return 0.88;
    return strchr(" !'(),-.:;[]`fijlrt|", *c) != NULL ? 0.55 : 0.72;
}

static const char cut_off[] = "...";

double name_width(enum letters letters, const char *name)
{
    const unsigned char *c = (const unsigned char *)name;
    double width = 0;
    for (; *c != '\0'; c += character(c) > 0 ? character(c) : 1)
        width += width_of(letters, c);
    return width;
}

void add_name(struct text *text, enum letters letters, const char *name, double room)
{
    const unsigned char *c = (const unsigned char *)name;
    if (name_width(letters, name) <= room)
        room = HUGE_VAL;
    else
        room -= name_width(letters, cut_off);
    while (*c != '\0') {
        size_t length = character(c);
        room -= width_of(letters, c);
        if (room < 0) {
            add(text, "%s", cut_off);
            return;
        }
        if (strchr("&<>", *c) != NULL)
            add(text, "&#%d;", *c);
        else if (length == 0 || is_obeyed(c))
            add(text, "?");
        else
            add(text, "%.*s", (int)length, (const char *)c);
        c += length > 0 ? length : 1;
    }
}

static const char style[] =
    "<style>\n"
    "text{font-family:'DejaVu Sans Mono','Liberation Mono',Menlo,Consolas,monospace;font-size:11px;fill:#222}\n"
    ".title,.words,.caption,.small,.number,.entry\n"
    "{font-family:'DejaVu Sans','Liberation Sans',Verdana,Arial,sans-serif}\n"
    ".title{font-size:20px;font-weight:bold}.words{font-size:12px;fill:#444}.caption{font-size:11px;fill:#666}\n"
    ".right{text-anchor:end}.middle,.small,.number{text-anchor:middle}\n"
    ".small{font-size:10px;fill:#666;paint-order:stroke;stroke:#fff;stroke-width:4px;stroke-linejoin:round}\n"
    ".number{font-size:10px;font-weight:bold;fill:#fff}\n"
    ".entry{font-weight:bold;paint-order:stroke;stroke:#fff;stroke-width:3px;stroke-linejoin:round}\n"
    ".block{stroke:#fff;stroke-width:.7}.band{opacity:.22}.tear{stroke:#8a8a84;stroke-width:1.1}\n"
    ".leader{stroke:#b4b4ae;stroke-width:.8}.edge{stroke:#fff;stroke-width:2.4}"
    ".mark{stroke:#fff;stroke-width:.8}.bar{stroke:#444;stroke-width:1.2}\n"
    ".lost{fill:#c2201a;font-weight:bold}\n"
    "</style>\n";

struct bytes whole_picture(const char *name, double width, double height, struct text drawn)
{
    struct text whole = { NULL, 0, 0 };
    add(&whole, "<svg xmlns='http://www.w3.org/2000/svg' width='%.0f' height='%.0f' viewBox='0 0 %.0f %.0f'>\n", width,
        height, width, height);
    add(&whole, "<title>Memory map of ");
    add_name(&whole, TITLE, name, HUGE_VAL);
    add(&whole, "</title>\n%s<rect width='100%%' height='100%%' fill='#fff'/>\n", style);
    memcpy(more_room(&whole, drawn.length), drawn.at, drawn.length);
    whole.length += drawn.length;
    add(&whole, "</svg>\n");
    return as_bytes(whole);
}
