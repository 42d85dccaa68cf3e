#include "picture.h"
#include "drawing.h"
#include "left_out.h"
#include "names.h"
#include "svg.h"

#include <stdio.h>
#include <stdlib.h>

/* A thin line from a label to its block. */
static void draw_leader(struct text *text, double label_x, double label_y, double x, double y)
{
    double step = x > label_x ? 5 : -5;
    add_path(text, "leader", "none", "M%.1f %.1fH%.1fL%.1f %.1fH%.1f", label_x, label_y, label_x + step, x - step, y, x);
}

static void draw_label(struct picture *picture, const struct panel *panel, const struct box *box, double y)
{
    struct text *text = &picture->text;
    double number = panel->x + picture->layout.numbers;
    add_words(text, "right", number, y, "%s", numbered(picture, box));
    draw_name(picture, box, number + SPACE, y);
    add_words(text, "left", number + SPACE + picture->layout.names, y, "%s", shown(loaded_range(box)));
    add_words(text, "right", loaded_x(&picture->layout, panel) - 30, y, "%s", grouped(box->bytes));
}

static void draw_loaded(struct picture *picture, const struct panel *panel, double y)
{
    double x = loaded_x(&picture->layout, panel);
    double *labels = room_of(panel->count, sizeof *labels), *middles = room_of(panel->count, sizeof *middles);
    for (size_t i = 0; i < panel->loaded.count; i++)
        if (!panel->loaded.stretches[i].used)
            draw_gap(&picture->text, &panel->loaded.stretches[i], x, y, COLUMN);
    for (size_t i = 0; i < panel->count; i++) {
        struct range range = loaded_range(&panel->boxes[i]);
        double top = y_at(&panel->loaded, range.from), end = y_at(&panel->loaded, range.to);
        draw_box(picture, &panel->boxes[i], x, y + top, COLUMN, end - top);
        labels[i] = middles[i] = (top + end) / 2;
    }
    spread(labels, panel->count, ROW, picture->layout.height);
    for (size_t i = 0; i < panel->count; i++) {
        draw_label(picture, panel, &panel->boxes[i], y + labels[i] + 4);
        draw_leader(&picture->text, x - 26, y + labels[i], x, y + middles[i]);
    }
    free(labels);
    free(middles);
}

static int holds(const struct axis *axis, uint64_t address)
{
    return address >= axis->stretches[0].range.from && address < axis->stretches[axis->count - 1].range.to;
}

/* Where execution begins: beside the block that is loaded there, or else beside the one
 * that runs there. If there is none, beside the address in the loaded memory, if that is
 * drawn. */
static void draw_entry(struct picture *picture, const struct panel *panel, double y)
{
    const struct box *box = picture->layout.boxes.entered;
    uint64_t entry = picture->program->entry;
    double x = loaded_x(&picture->layout, panel) + COLUMN;
    int here = box != NULL ? box >= panel->boxes && box < panel->boxes + panel->count : holds(&panel->loaded, entry);
    if (!here)
        return;
    if (picture->start == ONLY_RUNS) {
        x += BANDS;
        y += run_at(panel, entry);
        add_words(&picture->text, "entry right lost", x - 13, y + 4, "entry");
    } else {
        y += y_at(&panel->loaded, entry);
        add_words(&picture->text, picture->start == LOADED_AND_RUNS ? "entry" : "entry lost", x + 13, y + 4, "entry");
    }
    draw_mark(picture, x, y);
    picture->marked = 1;
}

static void draw_captions(struct picture *picture, const struct panel *panel, double y)
{
    struct text *text = &picture->text;
    const struct layout *layout = &picture->layout;
    const char *part = picture->program->part;
    double x = panel->x + layout->numbers;
    add_words(text, "caption right", x, y, "%s", part);
    if (layout->names > 0)
        add_words(text, "caption", x + SPACE, y, "name");
    add_words(text, "caption", x + SPACE + layout->names, y, "loaded at");
    x = loaded_x(layout, panel);
    add_words(text, "caption right", x - 30, y, "bytes");
    add_words(text, "caption middle", x + COLUMN / 2, y, "memory as loaded");
    if (panel->moves == 0)
        return;
    x = run_x(layout, panel);
    add_words(text, "caption middle", x + layout->run_width / 2, y, "what runs elsewhere");
    add_words(text, "caption", x + layout->run_width + 26, y, "runs at");
    if (layout->names > 0)
        add_words(text, "caption", x + layout->run_width + RUN_NAME, y, "name");
    add_words(text, "caption right", panel->x + layout->panel_width - 16, y, "%s", part);
}

/* What is wrong with an entry point is told in words, so that nobody overlooks it. */
static void draw_lost_entry(struct picture *picture, double y)
{
    struct text words = { NULL, 0, 0 };
    add_entered(&words, picture->program);
    add_words(&picture->text, "words lost", MARGIN, y, "%s", words.at);
    free(words.at);
}

/* What is not drawn because of its name, in one line, as far as the page reaches. Answers where that ends. */
static double draw_left_out(struct picture *picture, double y, double width)
{
    const struct program *program = picture->program;
    struct text words = { NULL, 0, 0 };
    if (program->skipped.patterns.count == 0)
        return y;
    add(&words, "left out by name: ");
    add_left_out_in_short(&words, program);
    add(&picture->text, "<text class='words' x='%.1f' y='%.1f'>", MARGIN, y + 18);
    add_name(&picture->text, TITLE, words.at, (width - 2 * MARGIN) / WORDS_SIZE);
    add(&picture->text, "</text>\n");
    free(words.at);
    return y + 18;
}

/* Answers where the head ends. */
static double draw_head(struct picture *picture, double width)
{
    const struct program *program = picture->program;
    struct text *text = &picture->text;
    double y = 62;
    char what[80], order[32] = "";
    uint64_t bytes = 0;
    if (program->order != 0)
        snprintf(order, sizeof order, " in byte order %u", program->order);
    for (size_t i = 0; i < program->count; i++)
        bytes += program->blocks[i].size;
    add(text, "<text class='title' x='%.1f' y='42'>", MARGIN);
    add_name(text, TITLE, last_part(program->path), (width - 2 * MARGIN) / TITLE_SIZE);
    add(text, "</text>\n");
    if (program->part[0] == 's')
        snprintf(what, sizeof what, "COFF file, %zu of %u section%s loaded", program->count, program->sections,
                 plural(program->sections));
    else
        snprintf(what, sizeof what, "boot image%s, %s block%s", order, grouped(program->count), plural(program->count));
    add_words(text, "words", MARGIN, y, "%s \u00b7 %s byte%s \u00b7 entry point %08X", what, grouped(bytes),
              plural(bytes), program->entry);
    y = draw_left_out(picture, y, width);
    if (picture->start != LOADED_AND_RUNS)
        draw_lost_entry(picture, y += 18);
    return y + 12;
}

struct bytes picture_of(struct program *program)
{
    struct picture picture = { .program = program, .start = entered_in(program).start };
    double width = 560;
    sort_by_load(program);
    if (program->count > 0) {
        picture.layout = lay_out(program);
        double right = picture.layout.panels[picture.layout.count - 1].x + picture.layout.panel_width + MARGIN;
        width = right > width ? right : width;
    }
    if (picture.layout.boxes.reach > 0)
        define_hatching(&picture.text);
    double head = draw_head(&picture, width), top = head + CAPTIONS;
    if (program->count == 0)
        add_words(&picture.text, "words", MARGIN, top, "Nothing is loaded.");
    for (size_t i = 0; i < picture.layout.count; i++) {
        const struct panel *panel = &picture.layout.panels[i];
        draw_captions(&picture, panel, head + 16);
        if (panel->moves > 0)
            draw_run(&picture, panel, top);
        draw_loaded(&picture, panel, top);
        draw_entry(&picture, panel, top);
    }
    double end = draw_legend(&picture, top + picture.layout.height + 34);
    return whole_picture(last_part(program->path), width, end + 8, picture.text);
}
