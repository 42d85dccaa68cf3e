/* The few kinds of SVG elements that the picture is made of. */
#ifndef SVG_H
#define SVG_H

#include "text.h"

/* The letters of the title and of the labels, and their sizes as in the style. */
enum letters { TITLE, LABEL };
#define TITLE_SIZE 20.0
#define WORDS_SIZE 12.0 /* of words under the title, in thinner letters of the same kind */
#define LABEL_SIZE 11.0

void add_box(struct text *text, const char *class, const char *fill, double x, double y, double width, double height);

/* Lines that lie over a box; they are defined once, before. */
void define_hatching(struct text *text);
void add_hatching(struct text *text, double x, double y, double width, double height);

/* `format` is the path, as printf would write it. */
__attribute__((format(printf, 4, 5))) void add_path(struct text *text, const char *class, const char *fill,
                                                    const char *format, ...);

__attribute__((format(printf, 5, 6))) void add_words(struct text *text, const char *class, double x, double y,
                                                     const char *format, ...);

/* A name's width, in sizes of its letters: rather too much than too little, since
 * nobody knows what letters the reader has. */
double name_width(enum letters letters, const char *name);

/* The name of a file or section inside an element: what XML or UTF-8 does not allow, and
 * what is obeyed and not shown, becomes '?'. The end of a name that is wider than the room
 * becomes "...". */
void add_name(struct text *text, enum letters letters, const char *name, double room);

/* The picture's beginning and end, around what was drawn. */
struct bytes whole_picture(const char *name, double width, double height, struct text drawn);

#endif
