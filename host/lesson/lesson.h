/* One tree of height 3 at a chosen step, for those who learn rules 4 to 6: the whole of it by the plain engine, and the climb from the
 * step's leaf to the root by kes_hash alone. A lesson, never a desk's key. */
#ifndef LESSON_H
#define LESSON_H

#include <stdint.h>
#include <stdio.h>

#include "kes.h"

/* Level 0 is the root, level HEIGHT the leaves. */
enum { HEIGHT = 3, LEAVES = 8, SHORT = 6 };

struct lesson {
    unsigned step;
    uint8_t table[KES_PLAIN_TABLE_SIZE(HEIGHT)];
    uint8_t root[KES_DIGEST_SIZE];
    uint8_t witnesses[HEIGHT][KES_DIGEST_SIZE]; /* from the leaf upwards */
    uint8_t climbed[HEIGHT + 1][KES_DIGEST_SIZE]; /* H(vk), and what each witness leads to */
};

/* What a node is at the lesson's step. */
enum role { OTHER, ON_PATH, WITNESS };

/* Grows the tree and climbs it. Answers 0 if the climb has not ended at the root. */
int lesson_learn(struct lesson *lesson, unsigned step);

enum role lesson_role(const struct lesson *lesson, unsigned level, unsigned index);

/* Whether the path goes left from the level above to this one, 1 to HEIGHT. */
int lesson_goes_left(const struct lesson *lesson, unsigned level);

/* The first and the last step under a node. */
unsigned lesson_first(unsigned level, unsigned index);
unsigned lesson_last(unsigned level, unsigned index);

/* The node beside the path at a level: the half that the path does not take. */
unsigned lesson_beside(const struct lesson *lesson, unsigned level);

/* The letter of the seed that a later step grows from: A for the one held nearest to the root. */
char lesson_seed(const struct lesson *lesson, unsigned later);

/* The level at which the paths to this step and to a later one part (rule 5). */
unsigned lesson_parting(const struct lesson *lesson, unsigned later);

/* A range of steps in words. */
const char *lesson_steps(unsigned first, unsigned last);

/* The first digits of a node's hash, and of a leaf's vk; each call has a room of its own for some calls. */
const char *lesson_node(const struct lesson *lesson, unsigned level, unsigned index);
const char *lesson_vk(const struct lesson *lesson, unsigned leaf);
const char *lesson_short(const uint8_t *hash);

/* The step in binary, HEIGHT digits. */
const char *lesson_binary(unsigned step);

void show_text(const struct lesson *lesson, FILE *out, int colours);
void show_svg(const struct lesson *lesson, FILE *out);

#endif
