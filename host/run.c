/* The right side of the picture: the boxes that run elsewhere than they are loaded. */
#include "drawing.h"
#include "svg.h"

#include <stdlib.h>

/* A band from where a box is loaded to where it runs. */
static void draw_band(struct picture *picture, const struct panel *panel, const struct box *box, double y, double end)
{
    struct range loaded = loaded_range(box), run = run_range(box);
    double x = loaded_x(&picture->layout, panel) + COLUMN, bend = x + BANDS / 2, to = x + BANDS;
    double a = y + y_at(&panel->loaded, loaded.from), b = y + y_at(&panel->loaded, loaded.to);
    double c = y + run_at(panel, run.from), d = y + run_at(panel, run.to);
    add_path(&picture->text, "band", colour_of(box),
             "M%.1f %.1fC%.1f %.1f %.1f %.1f %.1f %.1fH%.1fV%.1fH%.1fC%.1f %.1f %.1f %.1f %.1f %.1fZ", x, a, bend, a, bend, c,
             to, c, end, d, to, bend, d, bend, b, x, b);
}

/* Boxes that meet, and those that meet these, make a row. For each box, how many
 * lanes its row has further right: these stand between the box and its label. */
static size_t *lanes_between(const struct panel *panel)
{
    size_t *between = room_of(panel->moves, sizeof *between);
    for (size_t first = 0, next; first < panel->moves; first = next) {
        uint64_t end = run_range(panel->moved[first]).to;
        size_t last = panel->lane[first];
        for (next = first + 1; next < panel->moves && run_range(panel->moved[next]).from < end; next++) {
            uint64_t to = run_range(panel->moved[next]).to;
            end = to > end ? to : end;
            last = panel->lane[next] > last ? panel->lane[next] : last;
        }
        for (size_t i = first; i < next; i++)
            between[i] = last - panel->lane[i];
    }
    return between;
}

/* A thin line from a label to the right edge of its box; or where other boxes
 * stand between, over them and down to its top, each such line at a height of its
 * own, and with a white edge that keeps it visible over what it may cross. */
static void draw_run_leader(struct text *text, double right, double label_y, double x, double y, size_t between)
{
    double from = right + 22, to = right + 5, level = y - LEVEL * (double)between;
    if (between == 0)
        add_path(text, "leader", "none", "M%.1f %.1fH%.1fL%.1f %.1fH%.1f", from, label_y, from - 5, to, y, x);
    for (int line = 0; between > 0 && line < 2; line++)
        add_path(text, line == 0 ? "edge" : "leader", "none", "M%.1f %.1fH%.1fL%.1f %.1fH%.1fV%.1f", from, label_y,
                 from - 5, to, level, x, y);
}

static void draw_run_labels(struct picture *picture, const struct panel *panel, double y)
{
    struct text *text = &picture->text;
    double x = run_x(&picture->layout, panel), right = x + picture->layout.run_width;
    double width = lane_width(&picture->layout, panel);
    double *labels = room_of(panel->moves, sizeof *labels);
    size_t *between = lanes_between(panel);
    for (size_t i = 0; i < panel->moves; i++) {
        struct range range = run_range(panel->moved[i]);
        labels[i] = (run_at(panel, range.from) + run_at(panel, range.to)) / 2;
        /* run ranges ascend by their beginnings, their middles need not */
        if (i > 0 && labels[i] < labels[i - 1])
            labels[i] = labels[i - 1];
    }
    spread(labels, panel->moves, ROW, picture->layout.height);
    for (size_t i = 0; i < panel->moves; i++) {
        struct range range = run_range(panel->moved[i]);
        double top = y + run_at(panel, range.from), middle = (top + y + run_at(panel, range.to)) / 2;
        double left = x + (double)panel->lane[i] * width, end = panel->lane[i] < MOST_LANES ? left + width : right;
        draw_run_leader(text, right, y + labels[i], between[i] > 0 ? left + width / 2 : end,
                        between[i] > 0 ? top : middle, between[i]);
        add_words(text, "left", right + 26, y + labels[i] + 4, "%s", shown(range));
        draw_name(picture, panel->moved[i], right + RUN_NAME, y + labels[i] + 4);
        add_words(text, "right", panel->x + picture->layout.panel_width - 16, y + labels[i] + 4, "%s",
                  numbered(picture, panel->moved[i]));
    }
    free(labels);
    free(between);
}

static void draw_more(struct picture *picture, const struct panel *panel, size_t count, double y, double height)
{
    double x = run_x(&picture->layout, panel) + MOST_LANES * LANE;
    add_box(&picture->text, "more", left_out, x, y, MORE, height);
    add_words(&picture->text, "small", x + MORE / 2, y + height / 2 + 3.5, "+%zu more", count);
}

/* In place of the boxes that found no lane, how many blocks they are; where they meet or
 * lie too close for words of their own, together. */
static void draw_left_out(struct picture *picture, const struct panel *panel, double y)
{
    double top = 0, end = 0;
    size_t count = 0;
    for (size_t i = 0; i < panel->moves; i++) {
        struct range range = run_range(panel->moved[i]);
        double from = run_at(panel, range.from), to = run_at(panel, range.to);
        if (panel->lane[i] < MOST_LANES)
            continue;
        if (count > 0 && from >= end) {
            draw_more(picture, panel, count, y + top, end - top);
            count = 0;
        }
        if (count == 0) {
            top = from;
            end = from + ROW;
        }
        end = to > end ? to : end;
        count += panel->moved[i]->count;
    }
    if (count > 0)
        draw_more(picture, panel, count, y + top, end - top);
}

/* Bands lie under the boxes, leaders over them. */
void draw_run(struct picture *picture, const struct panel *panel, double y)
{
    double x = run_x(&picture->layout, panel);
    double width = lane_width(&picture->layout, panel);
    for (size_t i = 0; i < panel->moves; i++)
        draw_band(picture, panel, panel->moved[i], y, x + (double)panel->lane[i] * width);
    for (size_t i = 0; i < panel->run.count; i++)
        if (!panel->run.stretches[i].used)
            draw_gap(&picture->text, &panel->run.stretches[i], x, y + panel->run_y, picture->layout.run_width);
    for (size_t i = 0; i < panel->moves; i++) {
        struct range range = run_range(panel->moved[i]);
        double top = run_at(panel, range.from), end = run_at(panel, range.to);
        if (panel->lane[i] < MOST_LANES)
            draw_box(picture, panel->moved[i], x + (double)panel->lane[i] * width, y + top, width, end - top);
    }
    draw_left_out(picture, panel, y);
    draw_run_labels(picture, panel, y);
}
