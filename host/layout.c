#include "layout.h"
#include "svg.h"

#include <stdlib.h>

static int compare_runs(const void *left, const void *right)
{
    const struct box *a = *(const struct box *const *)left, *b = *(const struct box *const *)right;
    uint64_t a_run = run_range(a).from, b_run = run_range(b).from;
    return a_run != b_run ? (a_run > b_run) - (a_run < b_run) : (a > b) - (a < b);
}

/* Boxes whose run addresses meet, overlays for one, stand in lanes side by side. */
static void find_lanes(struct panel *panel)
{
    uint64_t free_from[MOST_LANES] = { 0 };
    panel->lane = room_of(panel->moves, sizeof *panel->lane);
    for (size_t i = 0; i < panel->moves; i++) {
        struct range range = run_range(panel->moved[i]);
        size_t mine = 0;
        while (mine < MOST_LANES && free_from[mine] > range.from)
            mine++;
        if (mine < MOST_LANES)
            free_from[mine] = range.to;
        panel->lanes = mine + 1 > panel->lanes ? mine + 1 : panel->lanes;
        panel->lane[i] = mine;
    }
}

/* A panel that is not the first begins where the one before it ends. */
static struct panel make_panel(const struct box *boxes, size_t count, int first)
{
    struct panel panel = { .boxes = boxes, .count = count, .moved = room_of(count, sizeof *panel.moved) };
    struct use *uses = room_of(count + 1, sizeof *uses);
    size_t used = 0;
    if (!first) {
        uses[0].range.from = uses[0].range.to = loaded_range(boxes - 1).to;
        used++;
    }
    for (size_t i = 0; i < count; i++, used++) {
        uses[used].range = loaded_range(&boxes[i]);
        uses[used].bytes = boxes[i].bytes;
    }
    panel.loaded = make_axis(uses, used);
    for (size_t i = 0; i < count; i++) {
        if (!is_moved(&boxes[i]))
            continue;
        uses[panel.moves].range = run_range(&boxes[i]);
        uses[panel.moves].bytes = boxes[i].bytes;
        panel.moved[panel.moves++] = &boxes[i];
    }
    panel.run = make_axis(uses, panel.moves);
    qsort(panel.moved, panel.moves, sizeof *panel.moved, compare_runs);
    find_lanes(&panel);
    free(uses);
    return panel;
}

static size_t gaps_in(struct axis axis)
{
    size_t gaps = 0;
    for (size_t i = 0; i < axis.count; i++)
        gaps += !axis.stretches[i].used;
    return gaps;
}

/* Splits the boxes into `count` panels, and says how high they want to be. */
static double split(struct layout *layout, size_t count)
{
    const struct boxes *boxes = &layout->boxes;
    size_t each = (boxes->count + count - 1) / count;
    double wanted = 40 + 45 * (double)(each < 6 ? each : 6);
    layout->count = 0;
    layout->panels = room_of(count, sizeof *layout->panels);
    layout->fold = each > 24 ? 15 : 26;
    for (size_t from = 0; from < boxes->count; from += each) {
        size_t length = boxes->count - from < each ? boxes->count - from : each;
        struct panel panel = make_panel(boxes->at + from, length, from == 0);
        double rows = (double)length * ROW + (double)gaps_in(panel.loaded) * layout->fold;
        wanted = rows > wanted ? rows : wanted;
        layout->panels[layout->count++] = panel;
    }
    return wanted;
}

/* Over the memory as run, for the leaders that come from above. */
static double headroom(const struct panel *panel)
{
    return panel->lanes > 1 ? LEVEL * (double)panel->lanes : 0;
}

/* The height of the highest memory at a scale. */
static double highest(struct layout *layout, double scale, int run)
{
    double height = 0;
    for (size_t i = 0; i < layout->count; i++) {
        struct panel *panel = &layout->panels[i];
        lay_axis(&panel->loaded, scale, layout->fold);
        lay_axis(&panel->run, scale, layout->fold);
        if (panel->loaded.height > height)
            height = panel->loaded.height;
        if (run && headroom(panel) + panel->run.height > height)
            height = headroom(panel) + panel->run.height;
        if (run && (double)panel->count * ROW > height)
            height = (double)panel->count * ROW;
    }
    return height;
}

/* The memory as run stands where its bands lead least up or down. */
static void level_bands(struct layout *layout, struct panel *panel)
{
    double sum = 0;
    for (size_t i = 0; i < panel->moves; i++) {
        struct range loaded = loaded_range(panel->moved[i]), run = run_range(panel->moved[i]);
        sum += y_at(&panel->loaded, loaded.from) - y_at(&panel->run, run.from);
    }
    double least = headroom(panel), most = layout->height - panel->run.height;
    double level = panel->moves == 0 ? 0 : sum / (double)panel->moves;
    panel->run_y = level > most ? most : level < least ? least : level;
}

/* One scale for all, at which the highest loaded memory is as high as wanted. */
static void find_scale(struct layout *layout, double wanted)
{
    double low = 1e-9, high = 40;
    for (int i = 0; i < 100; i++) {
        double middle = low + (high - low) / 2;
        if (highest(layout, middle, 0) < wanted)
            low = middle;
        else
            high = middle;
    }
    layout->scale = low;
    layout->height = highest(layout, low, 1);
}

static double run_width(size_t lanes)
{
    double wanted = lanes > MOST_LANES ? MOST_LANES * LANE + MORE : (double)lanes * LANE;
    return wanted > RUN_COLUMN ? wanted : RUN_COLUMN;
}

double lane_width(const struct layout *layout, const struct panel *panel)
{
    return panel->lanes > MOST_LANES ? LANE : layout->run_width / (double)panel->lanes;
}

/* The labels give as much room to names as they need. */
static void measure_labels(struct layout *layout, const struct program *program)
{
    double longest = 0;
    for (size_t i = 0; i < layout->boxes.count; i++) {
        double width = name_width(LABEL, name_of(program, &layout->boxes.at[i], NAME / LABEL_SIZE)) * LABEL_SIZE;
        longest = width > longest ? width : longest;
    }
    layout->numbers = layout->boxes.reach > 0 ? COUNT : NUMBER;
    if (longest > 0)
        layout->names = SPACE + (longest < LEAST_NAME ? LEAST_NAME : longest > NAME ? NAME : longest);
}

static double page_width(const struct layout *layout, size_t panels)
{
    return 2 * MARGIN + (double)panels * (layout->panel_width + BETWEEN) - BETWEEN;
}

/* As many panels side by side as make the picture about as wide as a screen. */
struct layout lay_out(const struct program *program)
{
    struct layout made = { .boxes = boxes_of(program) }, *layout = &made;
    size_t count = 1;
    for (size_t i = 0; i < layout->boxes.count; i++)
        layout->moves += (size_t)is_moved(&layout->boxes.at[i]);
    measure_labels(layout, program);
    double wanted = split(layout, 1);
    layout->run_width = run_width(layout->panels[0].lanes);
    layout->panel_width = LABELS + layout->numbers + layout->names + COLUMN;
    layout->panel_width +=
        layout->moves > 0 ? BANDS + layout->run_width + RUN_LABELS + layout->numbers + layout->names : ENTRY;
    while (count < layout->boxes.count && wanted > 700 && wanted > 0.9 * (double)count * layout->panel_width &&
           page_width(layout, count + 1) <= MOST_WIDTH)
        wanted = split(layout, ++count);
    find_scale(layout, wanted);
    for (size_t i = 0; i < layout->count; i++) {
        layout->panels[i].x = MARGIN + (double)i * (layout->panel_width + BETWEEN);
        level_bands(layout, &layout->panels[i]);
    }
    return made;
}

double loaded_x(const struct layout *layout, const struct panel *panel)
{
    return panel->x + LABELS + layout->numbers + layout->names;
}

double run_x(const struct layout *layout, const struct panel *panel)
{
    return loaded_x(layout, panel) + COLUMN + BANDS;
}

double run_at(const struct panel *panel, uint64_t address)
{
    return panel->run_y + y_at(&panel->run, address);
}
