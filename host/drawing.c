#include "drawing.h"
#include "svg.h"

#include <stdio.h>
#include <string.h>

/* The most of a name in a tool tip, in sizes of its letters; MOST_NAME bytes are wider. */
#define TIP 40.0

const char in_place[] = "#5b84b1";
const char mixed[] = "#6f6f68";
const char left_out[] = "#c3cedb";
const char gap_open[] = "#f1f1ee";
const char *const elsewhere[COLOURS] = { "#dd7a31", "#b8487a", "#7d5ab5", "#2f8f83", "#b08a1e", "#c9524e" };

const char *colour_of(const struct box *box)
{
    return box->mixed ? mixed : is_moved(box) ? elsewhere[box->blocks->number % COLOURS] : in_place;
}

const char *plural(uint64_t number)
{
    return number == 1 ? "" : "s";
}

const char *grouped(uint64_t number)
{
    static char shown[4][32];
    static unsigned turn;
    char digits[24];
    char *to = shown[turn++ % 4];
    char *start = to;
    int length = snprintf(digits, sizeof digits, "%llu", (unsigned long long)number);
    for (int i = 0; i < length; i++) {
        if (i > 0 && (length - i) % 3 == 0)
            *to++ = ',';
        *to++ = digits[i];
    }
    *to = '\0';
    return start;
}

const char *shown(struct range range)
{
    static char text[2][32];
    static unsigned turn;
    char *to = text[turn++ % 2];
    snprintf(to, sizeof text[0], "%08X\u2013%08X", (unsigned)range.from, (unsigned)(range.to - 1));
    return to;
}

void draw_gap(struct text *text, const struct stretch *gap, double x, double y, double width)
{
    uint64_t bytes = gap->range.to - gap->range.from;
    y += gap->y;
    add_box(text, "gap", gap->folded ? "#fff" : gap_open, x, y, width, gap->height);
    for (int edge = 0; gap->folded && edge < 2; edge++) {
        const char *tooth = edge == 0 ? "l4 2.5l4 -2.5" : "l4 -2.5l4 2.5";
        add(text, "<path class='tear' fill='none' d='M%.1f %.1f", x - 4, edge == 0 ? y + 1.5 : y + gap->height - 1.5);
        for (double at = 0; at < width + 8; at += 8)
            add(text, "%s", tooth);
        add(text, "'/>\n");
    }
    if (gap->height >= 12)
        add_words(text, "small", x + width / 2, y + gap->height / 2 + 3.5, "%s byte%s", grouped(bytes), plural(bytes));
}

const char *numbered(const struct picture *picture, const struct box *box)
{
    static char text[32];
    if (box->count == 1)
        snprintf(text, sizeof text, "%u", box->blocks->number);
    else
        snprintf(text, sizeof text, "%s %ss", grouped(box->count), picture->program->part);
    return text;
}

void draw_name(struct picture *picture, const struct box *box, double x, double y)
{
    const char *name = name_of(picture->program, box, NAME / LABEL_SIZE);
    if (name[0] == '\0')
        return;
    add(&picture->text, "<text x='%.1f' y='%.1f'>", x, y);
    add_name(&picture->text, LABEL, name, NAME / LABEL_SIZE);
    add(&picture->text, "</text>\n");
}

/* The numbers of a box's blocks where they follow one another, else "". */
static const char *numbers_of(const struct box *box)
{
    static char text[32];
    uint32_t first = box->blocks->number;
    for (size_t i = 1; i < box->count; i++)
        if (box->blocks[i].number != first + i)
            return "";
    if (box->count == 1)
        snprintf(text, sizeof text, "%u", first);
    else
        snprintf(text, sizeof text, "%u\u2013%u", first, (unsigned)(first + box->count - 1));
    return text;
}

static void add_tip(struct picture *picture, const struct box *box)
{
    struct text *text = &picture->text;
    const char *name = name_of(picture->program, box, TIP), *numbers = numbers_of(box);
    if (box->count == 1)
        add(text, "<title>%s %s", picture->program->part, numbers);
    else
        add(text, "<title>%s%s%s", numbered(picture, box), numbers[0] != '\0' ? ", " : "", numbers);
    if (name[0] != '\0')
        add(text, ", ");
    add_name(text, LABEL, name, TIP);
    add(text, ": %s byte%s, loaded at %s, ", grouped(box->bytes), plural(box->bytes), shown(loaded_range(box)));
    if (box->mixed)
        add(text, "%s run elsewhere</title>\n", grouped(box->moves));
    else
        add(text, "run%s at %s</title>\n", box->count == 1 ? "s" : "", shown(run_range(box)));
}

void draw_box(struct picture *picture, const struct box *box, double x, double y, double width, double height)
{
    struct text *text = &picture->text;
    const char *numbers = numbers_of(box);
    add(text, "<g>");
    add_tip(picture, box);
    add_box(text, "block", colour_of(box), x, y, width, height);
    if (box->count > 1)
        add_hatching(text, x, y, width, height);
    if (height >= 12 && width >= 7 * (double)strlen(numbers) + 2)
        add_words(text, "number", x + width / 2, y + height / 2 + 3.5, "%s", numbers);
    add(text, "</g>\n");
}

void draw_mark(struct picture *picture, double x, double y)
{
    const char *colour = picture->start == LOADED_AND_RUNS ? "#111" : "#c2201a";
    if (picture->start == ONLY_RUNS)
        add_path(&picture->text, "mark", colour, "M%.1f %.1fl-9 -5v10z", x, y);
    else
        add_path(&picture->text, "mark", colour, "M%.1f %.1fl9 -5v10z", x, y);
}
