/* The lesson as a picture. */
#include "lesson.h"

enum { WIDTH = 1080, TALL = 800, LEFT = 36, GAP = 126, TOP = 140, DOWN = 92, NODE_W = 96, NODE_H = 34, PANELS = 534, PANEL_H = 218 };

static const char path_colour[] = "#1f5fbf", witness_colour[] = "#c2570c", seed_colour[] = "#2a7d3f", ink[] = "#222", grey[] = "#9aa0a6";

static unsigned x_of(unsigned level, unsigned index) { return LEFT + (2 * index + 1) * (LEAVES >> level) * GAP / 2; }
static unsigned y_of(unsigned level) { return TOP + DOWN * level; }

static void words(FILE *out, unsigned x, unsigned y, const char *how, const char *text)
{
    fprintf(out, "<text x=\"%u\" y=\"%u\" %s>%s</text>\n", x, y, how, text);
}

static void box(FILE *out, unsigned x, unsigned y, unsigned w, unsigned h, const char *how)
{
    fprintf(out, "<rect x=\"%u\" y=\"%u\" width=\"%u\" height=\"%u\" rx=\"8\" %s/>\n", x, y, w, h, how);
}

static const char *colour_of(enum role role) { return role == ON_PATH ? path_colour : role == WITNESS ? witness_colour : grey; }

/* The half that a held seed grows, and the seed's name. */
static void draw_seed(const struct lesson *lesson, FILE *out, unsigned level)
{
    unsigned beside = lesson_beside(lesson, level), first = lesson_first(level, beside), last = lesson_last(level, beside);
    unsigned x = x_of(HEIGHT, first) - GAP / 2 + 4, w = (last - first + 1) * GAP - 8, y = y_of(level) - NODE_H / 2 - 10;
    char text[64];
    box(out, x, y, w, y_of(HEIGHT) + 92 - y, "fill=\"#e9f5ec\" stroke=\"#2a7d3f\" stroke-dasharray=\"6 4\"");
    sprintf(text, "from seed %c", lesson_seed(lesson, first));
    words(out, x + w / 2, y_of(HEIGHT) + 80, "text-anchor=\"middle\" font-size=\"13\" fill=\"#2a7d3f\"", text);
}

static void draw_line(const struct lesson *lesson, FILE *out, unsigned level, unsigned index)
{
    int on = lesson_role(lesson, level, index) == ON_PATH;
    fprintf(out, "<line x1=\"%u\" y1=\"%u\" x2=\"%u\" y2=\"%u\" stroke=\"%s\" stroke-width=\"%d\"/>\n", x_of(level - 1, index / 2), y_of(level - 1) + NODE_H / 2,
        x_of(level, index), y_of(level) - NODE_H / 2, on ? path_colour : grey, on ? 5 : 1);
}

static void draw_node(const struct lesson *lesson, FILE *out, unsigned level, unsigned index)
{
    enum role role = lesson_role(lesson, level, index);
    char how[160];
    sprintf(how, "fill=\"%s\" stroke=\"%s\"", role == OTHER ? "#fff" : colour_of(role), colour_of(role));
    box(out, x_of(level, index) - NODE_W / 2, y_of(level) - NODE_H / 2, NODE_W, NODE_H, how);
    sprintf(how, "text-anchor=\"middle\" font-family=\"monospace\" font-size=\"17\" fill=\"%s\"", role == OTHER ? "#5f6368" : "#fff");
    words(out, x_of(level, index), y_of(level) + 6, how, lesson_node(lesson, level, index));
}

static void draw_step(const struct lesson *lesson, FILE *out, unsigned leaf)
{
    char text[32];
    int past = leaf < lesson->step, now = leaf == lesson->step;
    const char *how = now ? "text-anchor=\"middle\" font-weight=\"bold\" fill=\"#1f5fbf\"" : past ? "text-anchor=\"middle\" fill=\"#9aa0a6\"" : "text-anchor=\"middle\" fill=\"#222\"";
    sprintf(text, "step %u", leaf);
    words(out, x_of(HEIGHT, leaf), y_of(HEIGHT) + 42, how, text);
    if (past || now)
        words(out, x_of(HEIGHT, leaf), y_of(HEIGHT) + 62, how, past ? "secret gone" : "secret held");
}

static void draw_tree(const struct lesson *lesson, FILE *out)
{
    unsigned level, index;
    char text[16];
    for (level = 1; level <= HEIGHT; level++)
        if (lesson_goes_left(lesson, level))
            draw_seed(lesson, out, level);
    for (level = 1; level <= HEIGHT; level++)
        for (index = 0; index < 1u << level; index++)
            draw_line(lesson, out, level, index);
    for (level = 0; level <= HEIGHT; level++)
        for (index = 0; index < 1u << level; index++)
            draw_node(lesson, out, level, index);
    for (index = 0; index < LEAVES; index++)
        draw_step(lesson, out, index);
    for (level = 1; level <= HEIGHT; level++) {
        sprintf(text, "level %u", level);
        words(out, LEFT, y_of(level) - DOWN / 2 + 5, "font-size=\"13\" fill=\"#9aa0a6\"", text);
    }
    words(out, x_of(0, 0) + NODE_W / 2 + 12, y_of(0) + 6, "fill=\"#1f5fbf\"", "the root, which everyone knows");
}

static void draw_head(const struct lesson *lesson, FILE *out)
{
    static const char *const names[] = {"the path to this step", "its witnesses: the halves it does not take", "a half that a held seed still grows"};
    const char *const colours[] = {path_colour, witness_colour, "#e9f5ec"};
    char text[96], how[96];
    unsigned i, x = LEFT;
    sprintf(text, "A tree of height %d at step %u", HEIGHT, lesson->step);
    words(out, LEFT, 40, "font-size=\"26\" font-weight=\"bold\" fill=\"#222\"", text);
    words(out, LEFT, 66, "fill=\"#222\"", "Each node is the hash of the two below it; a leaf is the hash of its step's vk. Six digits of each are shown.");
    for (i = 0; i < 3; i++, x += i == 1 ? 220 : 380) {
        sprintf(how, "fill=\"%s\" stroke=\"%s\"", colours[i], i == 2 ? seed_colour : colours[i]);
        box(out, x, 82, 22, 16, how);
        words(out, x + 30, 95, "fill=\"#222\"", names[i]);
    }
}

/* Rule 5, at the move to the next step. */
static void draw_move(const struct lesson *lesson, FILE *out, unsigned y)
{
    unsigned next = lesson->step + 1;
    char text[160];
    sprintf(text, "The move to step %u (rule 5): %s and %s part at level %u.", next, lesson_binary(lesson->step), lesson_binary(next), lesson_parting(lesson, next));
    words(out, LEFT + 18, y, "fill=\"#222\"", text);
    sprintf(text, "Above that nothing changes. There seed %c is used up.", lesson_seed(lesson, next));
    words(out, LEFT + 18, y + 22, "fill=\"#222\"", text);
}

static void draw_held(const struct lesson *lesson, FILE *out)
{
    unsigned level, y = PANELS + 62;
    char text[160];
    sprintf(text, "What a table at step %u still holds (rule 4)", lesson->step);
    words(out, LEFT + 18, PANELS + 32, "font-size=\"17\" font-weight=\"bold\" fill=\"#222\"", text);
    for (level = 1; level <= HEIGHT; level++, y += 27) {
        unsigned beside = lesson_beside(lesson, level), first = lesson_first(level, beside);
        if (lesson_goes_left(lesson, level))
            sprintf(text, "level %u: left. Both hashes, and seed %c: %s", level, lesson_seed(lesson, first), lesson_steps(first, lesson_last(level, beside)));
        else
            sprintf(text, "level %u: right. Both hashes; zeros where the seed was", level);
        words(out, LEFT + 18, y, lesson_goes_left(lesson, level) ? "fill=\"#2a7d3f\"" : "fill=\"#222\"", text);
    }
    sprintf(text, "leaf: the secret of step %u, and its vk %s", lesson->step, lesson_vk(lesson, lesson->step));
    words(out, LEFT + 18, y, "fill=\"#1f5fbf\"", text);
    if (lesson->step + 1 < LEAVES)
        draw_move(lesson, out, y + 36);
    else
        words(out, LEFT + 18, y + 36, "fill=\"#222\"", "The last step: no seed is held any more, and no move leads on.");
}

/* One line of the climb: what is hashed, in the colours of the tree, and what comes of it. */
static void draw_joined(FILE *out, unsigned y, const char *digit, const char *a, enum role ra, const char *b, enum role rb, const char *is)
{
    unsigned x = WIDTH / 2 + 18;
    words(out, x, y, "fill=\"#222\"", digit);
    fprintf(out, "<text x=\"%u\" y=\"%u\" font-family=\"monospace\" font-size=\"16\" fill=\"%s\">H(<tspan fill=\"%s\">%s</tspan>", x + 170, y, ink, colour_of(ra), a);
    if (b != NULL)
        fprintf(out, ", <tspan fill=\"%s\">%s</tspan>", colour_of(rb), b);
    fprintf(out, ") = <tspan font-weight=\"bold\" fill=\"%s\">%s</tspan></text>\n", path_colour, is);
}

static void draw_climb(const struct lesson *lesson, FILE *out)
{
    unsigned up, y = PANELS + 62;
    char text[128];
    sprintf(text, "The climb to the root: %u is %s (rule 6)", lesson->step, lesson_binary(lesson->step));
    words(out, WIDTH / 2 + 18, PANELS + 32, "font-size=\"17\" font-weight=\"bold\" fill=\"#222\"", text);
    draw_joined(out, y, "start with vk", lesson_vk(lesson, lesson->step), ON_PATH, NULL, OTHER, lesson_short(lesson->climbed[0]));
    for (up = 0; up < HEIGHT; up++) {
        int left = (lesson->step >> up & 1) == 0;
        const char *self = lesson_short(lesson->climbed[up]), *witness = lesson_short(lesson->witnesses[up]);
        sprintf(text, "digit %d: it goes %s", !left, left ? "left" : "right");
        y += 27;
        draw_joined(out, y, text, left ? self : witness, left ? ON_PATH : WITNESS, left ? witness : self, left ? WITNESS : ON_PATH, lesson_short(lesson->climbed[up + 1]));
    }
    sprintf(text, "It ends at the root, %s: the path fits.", lesson_short(lesson->root));
    words(out, WIDTH / 2 + 18, y + 36, "fill=\"#222\"", text);
}

void show_svg(const struct lesson *lesson, FILE *out)
{
    fprintf(out, "<svg xmlns=\"http://www.w3.org/2000/svg\" viewBox=\"0 0 %d %d\" font-family=\"sans-serif\" font-size=\"15\">\n", WIDTH, TALL);
    fprintf(out, "<title>A tree of height %d at step %u</title>\n<rect width=\"%d\" height=\"%d\" fill=\"#fff\"/>\n", HEIGHT, lesson->step, WIDTH, TALL);
    draw_head(lesson, out);
    draw_tree(lesson, out);
    box(out, LEFT, PANELS, WIDTH / 2 - LEFT - 9, PANEL_H, "fill=\"#f6f7f9\"");
    box(out, WIDTH / 2, PANELS, WIDTH / 2 - LEFT, PANEL_H, "fill=\"#f6f7f9\"");
    draw_held(lesson, out);
    draw_climb(lesson, out);
    words(out, LEFT, TALL - 14, "font-size=\"14\" fill=\"#c2570c\"", "To train by, never a desk's key: the plain engine keeps the secret of every step.");
    fputs("</svg>\n", out);
}
