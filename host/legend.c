/* The legend: it speaks of what is drawn, and of nothing else. */
#include "drawing.h"
#include "svg.h"

#define SAMPLE 24.0 /* a sign is so wide, */
#define HIGH 12.0   /* and so high; */
#define WORDS (MARGIN + SAMPLE + 10) /* its words begin here */

static int occurs(const struct picture *picture, const char *colour)
{
    const struct boxes *boxes = &picture->layout.boxes;
    for (size_t i = 0; i < boxes->count; i++)
        if (colour_of(&boxes->at[i]) == colour)
            return 1;
    return 0;
}

static double explain_colours(struct picture *picture, double y)
{
    struct text *text = &picture->text;
    const char *part = picture->program->part, *moved[COLOURS];
    size_t count = 0;
    for (size_t i = 0; i < COLOURS; i++)
        if (occurs(picture, elsewhere[i]))
            moved[count++] = elsewhere[i];
    if (occurs(picture, in_place)) {
        add_box(text, "sample", in_place, MARGIN, y - 10, SAMPLE, HIGH);
        add_words(text, "words", WORDS, y, "%s that runs where it is loaded", part);
        y += LEGEND_ROW;
    }
    for (size_t i = 0; i < count; i++) {
        double width = SAMPLE / (double)count;
        add_box(text, "sample", moved[i], MARGIN + width * (double)i, y - 10, width, HIGH);
    }
    if (count > 0) {
        add_words(text, "words", WORDS, y,
                  "%s that runs elsewhere: its band leads there; no other is drawn on the right", part);
        y += LEGEND_ROW;
    }
    if (occurs(picture, mixed)) {
        add_box(text, "sample", mixed, MARGIN, y - 10, SAMPLE, HIGH);
        add_words(text, "words", WORDS, y, "%ss some or all of which run elsewhere; where is not drawn", part);
        y += LEGEND_ROW;
    }
    return y;
}

static double explain_several(struct picture *picture, double y)
{
    const struct boxes *boxes = &picture->layout.boxes;
    const struct box *box = boxes->at;
    if (boxes->reach == 0)
        return y;
    while (box->count == 1)
        box++;
    add_box(&picture->text, "sample", colour_of(box), MARGIN, y - 10, SAMPLE, HIGH);
    add_hatching(&picture->text, MARGIN, y - 10, SAMPLE, HIGH);
    add_words(&picture->text, "words", WORDS, y,
              "%ss that lie within %s addresses, drawn together without the gaps between them", picture->program->part,
              grouped(boxes->reach));
    return y + LEGEND_ROW;
}

static double explain_left_out(struct picture *picture, double y)
{
    const struct layout *layout = &picture->layout;
    int more = 0;
    for (size_t i = 0; i < layout->count; i++)
        more |= layout->panels[i].lanes > MOST_LANES;
    if (!more)
        return y;
    add_box(&picture->text, "sample", left_out, MARGIN, y - 10, SAMPLE, HIGH);
    add_words(&picture->text, "words", WORDS, y, "%ss that there is no room to draw; they are listed beside",
              picture->program->part);
    return y + LEGEND_ROW;
}

static int has_gaps(const struct axis *axis, int folded)
{
    for (size_t i = 0; i < axis->count; i++)
        if (!axis->stretches[i].used && axis->stretches[i].folded == folded)
            return 1;
    return 0;
}

static double explain_gaps(struct picture *picture, double y, int folded)
{
    struct text *text = &picture->text;
    const struct layout *layout = &picture->layout;
    int left = 0, right = 0;
    for (size_t i = 0; i < layout->count; i++) {
        left |= has_gaps(&layout->panels[i].loaded, folded);
        right |= has_gaps(&layout->panels[i].run, folded);
    }
    if (!left && !right)
        return y;
    if (folded) {
        add_path(text, "tear", "none", "M%.1f %.1fl4 2.5l4 -2.5l4 2.5l4 -2.5l4 2.5l4 -2.5", MARGIN, y - 9);
        add_path(text, "tear", "none", "M%.1f %.1fl4 -2.5l4 2.5l4 -2.5l4 2.5l4 -2.5l4 2.5", MARGIN, y + 1);
    } else
        add_box(text, "sample", gap_open, MARGIN, y - 10, SAMPLE, HIGH);
    add_words(text, "words", WORDS, y, "gap%s: %s", folded ? ", folded" : "",
              !right  ? "nothing is loaded there"
              : !left ? "no band leads there"
                      : "on the left nothing is loaded there, on the right no band leads there");
    return y + LEGEND_ROW;
}

static double explain_entry(struct picture *picture, double y)
{
    if (!picture->marked)
        return y;
    draw_mark(picture, MARGIN + 12, y - 4);
    add_words(&picture->text, "words", WORDS, y, "entry point%s",
              picture->start == LOADED_AND_RUNS ? ""
              : picture->start == ONLY_LOADED   ? ", where what is loaded runs elsewhere"
                                                : ", where nothing is loaded");
    return y + LEGEND_ROW;
}

static double explain_scale(struct picture *picture, double y)
{
    const struct layout *layout = &picture->layout;
    uint64_t bytes = 1;
    int enlarged = 0;
    for (size_t i = 0; i < layout->boxes.count; i++)
        enlarged |= (double)layout->boxes.at[i].bytes * layout->scale < LEAST_HEIGHT;
    while ((double)bytes * layout->scale < 12)
        bytes *= 2;
    double height = (double)bytes * layout->scale;
    double line = y - 10 + height / 2 + 4;
    add_path(&picture->text, "bar", "none", "M%.1f %.1fh8m-4 0v%.1fm-4 0h8", MARGIN + 8, y - 10, height);
    if (enlarged)
        add_words(&picture->text, "words", WORDS, line, "%s byte%s; a %s under %s bytes is drawn larger than it is",
                  grouped(bytes), plural(bytes), picture->program->part,
                  grouped((uint64_t)(LEAST_HEIGHT / layout->scale) + 1));
    else
        add_words(&picture->text, "words", WORDS, line, "%s byte%s", grouped(bytes), plural(bytes));
    return y + LEGEND_ROW + (height > 16 ? height - 16 : 0);
}

double draw_legend(struct picture *picture, double y)
{
    y = explain_colours(picture, y);
    y = explain_several(picture, y);
    y = explain_left_out(picture, y);
    y = explain_gaps(picture, y, 0);
    y = explain_gaps(picture, y, 1);
    y = explain_entry(picture, y);
    return picture->program->count > 0 ? explain_scale(picture, y) : y;
}
