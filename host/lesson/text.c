/* The lesson on a terminal of 80 columns. */
#include "lesson.h"

#include <string.h>

/* Columns of a leaf and of the tree, and its rows: a level, and the lines down to the next. */
enum { CELL = 9, COLUMNS = CELL * LEAVES, ROWS = 2 * HEIGHT + 1 };

struct glyph {
    const char *sign; /* NULL is a blank */
    enum role role;
};

static const char *const before_role[] = {" ", "[", "<"}, *const after_role[] = {" ", "]", ">"};
static const char *const colour[] = {"\033[2m", "\033[1;34m", "\033[1;33m"};
/* Every text of one sign, so that a glyph can point to it. */
static char signs[128][2];

static unsigned centre(unsigned level, unsigned index) { return (2 * index + 1) * (LEAVES >> level) * CELL / 2; }

static void put(struct glyph *row, unsigned at, const char *sign, enum role role)
{
    row[at].sign = sign;
    row[at].role = role;
}

static void put_word(struct glyph *row, unsigned at, const char *word, enum role role)
{
    for (; *word != '\0'; word++, at++) {
        signs[(unsigned char)*word & 127][0] = *word;
        put(row, at, signs[(unsigned char)*word & 127], role);
    }
}

static void put_node(const struct lesson *lesson, struct glyph *row, unsigned level, unsigned index)
{
    enum role role = lesson_role(lesson, level, index);
    unsigned at = centre(level, index) - SHORT / 2 - 1;
    put_word(row, at, before_role[role], role);
    put_word(row, at + 1, lesson_node(lesson, level, index), role);
    put_word(row, at + 1 + SHORT, after_role[role], role);
}

/* The lines from a node to the two below it; the half that the path takes is marked. */
static void put_lines(const struct lesson *lesson, struct glyph *row, unsigned level, unsigned index)
{
    unsigned from = centre(level + 1, 2 * index), middle = centre(level, index), to = centre(level + 1, 2 * index + 1), at;
    enum role left = lesson_role(lesson, level + 1, 2 * index), right = lesson_role(lesson, level + 1, 2 * index + 1);
    for (at = from; at <= to; at++)
        put(row, at, "─", (at < middle ? left : right) == ON_PATH ? ON_PATH : OTHER);
    put(row, from, "┌", left == ON_PATH ? ON_PATH : OTHER);
    put(row, to, "┐", right == ON_PATH ? ON_PATH : OTHER);
    put(row, middle, "┴", lesson_role(lesson, level, index) == ON_PATH ? ON_PATH : OTHER);
}

static void print_row(const struct glyph *row, FILE *out, int colours)
{
    unsigned at;
    for (at = 0; at < COLUMNS; at++)
        if (row[at].sign == NULL)
            fputc(' ', out);
        else if (colours)
            fprintf(out, "%s%s\033[0m", colour[row[at].role], row[at].sign);
        else
            fputs(row[at].sign, out);
}

static void show_levels(const struct lesson *lesson, FILE *out, int colours)
{
    static struct glyph rows[ROWS][COLUMNS];
    unsigned level, index;
    memset(rows, 0, sizeof rows);
    for (level = 0; level <= HEIGHT; level++)
        for (index = 0; index < 1u << level; index++) {
            put_node(lesson, rows[2 * level], level, index);
            if (level < HEIGHT)
                put_lines(lesson, rows[2 * level + 1], level, index);
        }
    for (level = 0; level < ROWS; level++) {
        print_row(rows[level], out, colours);
        if (level % 2 == 0)
            fprintf(out, level == 0 ? " root" : " level %u", level / 2);
        fputc('\n', out);
    }
}

static void show_steps(const struct lesson *lesson, FILE *out)
{
    unsigned i;
    for (i = 0; i < LEAVES; i++)
        fprintf(out, " step %u  ", i);
    fputc('\n', out);
    for (i = 0; i < LEAVES; i++)
        if (i < lesson->step)
            fputs("  gone   ", out);
        else if (i == lesson->step)
            fputs("  HERE   ", out);
        else
            fprintf(out, " seed %c  ", lesson_seed(lesson, i));
    fputs(" secrets\n", out);
}

static const char *marked(char *room, const char *word, enum role role)
{
    sprintf(room, "%s%s%s", before_role[role], word, after_role[role]);
    return room;
}

static void show_level_held(const struct lesson *lesson, FILE *out, unsigned level)
{
    char seed[64], l[SHORT + 3], r[SHORT + 3];
    unsigned beside = lesson_beside(lesson, level), left = beside & ~1u;
    int goes_left = lesson_goes_left(lesson, level);
    if (goes_left)
        sprintf(seed, "seed %c, grows %s", lesson_seed(lesson, lesson_first(level, beside)), lesson_steps(lesson_first(level, beside), lesson_last(level, beside)));
    else
        sprintf(seed, "zeros: that half has been entered");
    fprintf(out, "  level %u  goes %-5s  %-35s %s %s\n", level, goes_left ? "left" : "right", seed,
        marked(l, lesson_node(lesson, level, left), lesson_role(lesson, level, left)),
        marked(r, lesson_node(lesson, level, left + 1), lesson_role(lesson, level, left + 1)));
}

static void show_held(const struct lesson *lesson, FILE *out)
{
    unsigned level;
    fprintf(out, "\nWhat a table at step %u still holds (rule 4), from the root down:\n\n", lesson->step);
    fprintf(out, "           path        seed of the right half               left     right\n");
    for (level = 1; level <= HEIGHT; level++)
        show_level_held(lesson, out, level);
    fprintf(out, "  leaf     the secret of step %u, and its vk %s\n\n", lesson->step, lesson_vk(lesson, lesson->step));
    if (lesson->step > 0)
        fprintf(out, "Gone for ever: the secrets of %s, and every seed that they grew from.\n", lesson_steps(0, lesson->step - 1));
    else
        fprintf(out, "Nothing is gone yet: every later step still grows from a seed that is held.\n");
}

/* Rule 5, at the move to the next step. */
static void show_move(const struct lesson *lesson, FILE *out)
{
    unsigned next = lesson->step + 1, level, beside;
    if (next == LEAVES) {
        fprintf(out, "This is the last step. No seed is held any more, so no move leads on.\n");
        return;
    }
    level = lesson_parting(lesson, next);
    beside = lesson_beside(lesson, level);
    fprintf(out, "The move to step %u (rule 5): %u is %s, %u is %s, so the paths part at level %u.\n", next, lesson->step, lesson_binary(lesson->step), next, lesson_binary(next), level);
    fprintf(out, "Levels above it stay. There seed %c grows %s, and zeros take its place.\n", lesson_seed(lesson, next), lesson_steps(lesson_first(level, beside), lesson_last(level, beside)));
}

static void show_climb(const struct lesson *lesson, FILE *out)
{
    unsigned up;
    char a[SHORT + 3], b[SHORT + 3], c[SHORT + 3];
    fprintf(out, "\nA signature at step %u is vk, Ed25519's 64 bytes and the witnesses (rule 6).\n", lesson->step);
    fprintf(out, "Whoever has the root climbs to it, by the digits of %u, %s, from the right:\n\n", lesson->step, lesson_binary(lesson->step));
    fprintf(out, "  start                      H(vk %s)              = %s\n", lesson_vk(lesson, lesson->step), marked(a, lesson_short(lesson->climbed[0]), ON_PATH));
    for (up = 0; up < HEIGHT; up++) {
        int left = (lesson->step >> up & 1) == 0;
        const char *self = marked(a, lesson_short(lesson->climbed[up]), ON_PATH), *witness = marked(b, lesson_short(lesson->witnesses[up]), WITNESS);
        fprintf(out, "  digit %d: it goes %-5s     H(%s then %s) = %s\n", !left, left ? "left" : "right", left ? self : witness, left ? witness : self,
            marked(c, lesson_short(lesson->climbed[up + 1]), ON_PATH));
    }
    fprintf(out, "\nThat is the root, %s: the path fits.\n", lesson_short(lesson->root));
}

void show_text(const struct lesson *lesson, FILE *out, int colours)
{
    fprintf(out, "A tree of height %d at step %u. Each node is the hash of the two below it;\n", HEIGHT, lesson->step);
    fprintf(out, "a leaf is the hash of its step's vk. Hashes show their first %d digits.\n", SHORT);
    fprintf(out, "[ ] the path to step %u    < > its witnesses: the halves it does not take\n\n", lesson->step);
    show_levels(lesson, out, colours);
    show_steps(lesson, out);
    show_held(lesson, out);
    show_move(lesson, out);
    show_climb(lesson, out);
    fprintf(out, "\nTo train by, never a desk's key: this engine keeps the secret of every step.\n");
}
