#include "lesson.h"

#include <string.h>

static size_t node_at(unsigned level, unsigned index)
{
    return KES_DIGEST_SIZE * (((size_t)1 << level) - 1 + index);
}

static size_t leaf_at(unsigned leaf)
{
    return node_at(HEIGHT + 1, 0) + 2 * KES_DIGEST_SIZE * (size_t)leaf;
}

/* H(a then b), where b may be nothing. */
static int join(const uint8_t *a, const uint8_t *b, uint8_t *out)
{
    uint8_t text[2 * KES_DIGEST_SIZE];
    memcpy(text, a, KES_DIGEST_SIZE);
    if (b != NULL)
        memcpy(text + KES_DIGEST_SIZE, b, KES_DIGEST_SIZE);
    return kes_hash(text, b == NULL ? KES_DIGEST_SIZE : sizeof text, out, KES_DIGEST_SIZE) == KES_DONE;
}

/* Rule 6: from vk upwards, itself on the left where that digit of the step is 0, lowest digit first. */
static int climb(struct lesson *lesson)
{
    unsigned up;
    if (!join(lesson->table + leaf_at(lesson->step) + KES_SEED_SIZE, NULL, lesson->climbed[0]))
        return 0;
    for (up = 0; up < HEIGHT; up++) {
        const uint8_t *self = lesson->climbed[up], *witness = lesson->witnesses[up];
        int left = (lesson->step >> up & 1) == 0;
        if (!join(left ? self : witness, left ? witness : self, lesson->climbed[up + 1]))
            return 0;
    }
    return memcmp(lesson->climbed[HEIGHT], lesson->root, sizeof lesson->root) == 0;
}

int lesson_learn(struct lesson *lesson, unsigned step)
{
    uint8_t seed[KES_SEED_SIZE];
    uint64_t tally = 0;
    size_t i;
    for (i = 0; i < sizeof seed; i++)
        seed[i] = (uint8_t)i;
    lesson->step = step;
    return kes_plain_fill(HEIGHT, seed, sizeof seed, lesson->table, sizeof lesson->table, &tally) == KES_DONE
        && kes_plain_root(HEIGHT, lesson->table, sizeof lesson->table, lesson->root, sizeof lesson->root) == KES_DONE
        && kes_plain_path(HEIGHT, lesson->table, sizeof lesson->table, step, lesson->witnesses[0], sizeof lesson->witnesses) == KES_DONE
        && climb(lesson);
}

unsigned lesson_beside(const struct lesson *lesson, unsigned level)
{
    return lesson->step >> (HEIGHT - level) ^ 1u;
}

enum role lesson_role(const struct lesson *lesson, unsigned level, unsigned index)
{
    if (index == lesson->step >> (HEIGHT - level))
        return ON_PATH;
    return level > 0 && index == lesson_beside(lesson, level) ? WITNESS : OTHER;
}

int lesson_goes_left(const struct lesson *lesson, unsigned level)
{
    return (lesson->step >> (HEIGHT - level) & 1) == 0;
}

unsigned lesson_first(unsigned level, unsigned index) { return index << (HEIGHT - level); }
unsigned lesson_last(unsigned level, unsigned index) { return ((index + 1) << (HEIGHT - level)) - 1; }

unsigned lesson_parting(const struct lesson *lesson, unsigned later)
{
    unsigned level = 1;
    while (lesson->step >> (HEIGHT - level) == later >> (HEIGHT - level))
        level++;
    return level;
}

char lesson_seed(const struct lesson *lesson, unsigned later)
{
    unsigned level, parting = lesson_parting(lesson, later);
    char letter = 'A';
    for (level = 1; level < parting; level++)
        letter = (char)(letter + lesson_goes_left(lesson, level));
    return letter;
}

/* So many texts may be in use at once. */
enum { ROOMS = 16 };

const char *lesson_steps(unsigned first, unsigned last)
{
    static char rooms[ROOMS][32];
    static unsigned turn;
    char *room = rooms[turn++ % ROOMS];
    sprintf(room, first == last ? "step %u" : "steps %u to %u", first, last);
    return room;
}

const char *lesson_short(const uint8_t *hash)
{
    static char rooms[ROOMS][SHORT + 1];
    static unsigned turn;
    char *room = rooms[turn++ % ROOMS];
    size_t i;
    for (i = 0; i < SHORT / 2; i++)
        sprintf(room + 2 * i, "%02x", hash[i]);
    return room;
}

const char *lesson_node(const struct lesson *lesson, unsigned level, unsigned index)
{
    return lesson_short(lesson->table + node_at(level, index));
}

const char *lesson_vk(const struct lesson *lesson, unsigned leaf)
{
    return lesson_short(lesson->table + leaf_at(leaf) + KES_SEED_SIZE);
}

const char *lesson_binary(unsigned step)
{
    static char rooms[ROOMS][HEIGHT + 1];
    static unsigned turn;
    char *room = rooms[turn++ % ROOMS];
    unsigned i;
    for (i = 0; i < HEIGHT; i++)
        room[i] = (step >> (HEIGHT - 1 - i) & 1) ? '1' : '0';
    return room;
}
