#include <string.h>

#include <sodium.h>

#include "../../desk/adapter.h"
#include "kes.h"
#include "plain_kes.h"

enum { NODE = 32, LEVEL = 3 * NODE, LEAF = 2 * NODE, SIGNED = 3 * NODE, HEADER = 16, WINDOWS = 2, TREES = 3 };

/* Two heights or three, the top tree's first. A part of a key begins at any of them, and is all that is below. */
struct heights {
    size_t trees, h[TREES];
};

struct header {
    struct heights of;
    size_t step, needs[WINDOWS];
};

/* Where the pieces of a part of two trees or more begin: the tree, its sum signature, the next seed, and the part below. */
static size_t tree_size(size_t h) { return LEVEL * h + LEAF; }
static size_t sum_size(size_t h) { return SIGNED + NODE * h; }
static size_t vouched_at(size_t h) { return tree_size(h); }
static size_t next_at(size_t h) { return vouched_at(h) + sum_size(h); }
static size_t below_at(size_t h) { return next_at(h) + NODE; }

static struct heights two(uint64_t h1, uint64_t h2)
{
    struct heights of = {2, {h1, h2, 0}};
    return of;
}

static struct heights three(uint64_t h1, uint64_t h2, uint64_t h3)
{
    struct heights of = {3, {h1, h2, h3}};
    return of;
}

static struct heights below(struct heights of)
{
    struct heights rest = {of.trees - 1, {of.h[1], of.h[2], 0}};
    return rest;
}

static int fit(struct heights of)
{
    return of.trees == 2 ? KES_HEIGHTS_FIT(of.h[0], of.h[1]) : KES3_HEIGHTS_FIT(of.h[0], of.h[1], of.h[2]);
}

static size_t table_size(struct heights of)
{
    return of.trees == 2 ? kes_table_size(of.h[0], of.h[1]) : kes3_table_size(of.h[0], of.h[1], of.h[2]);
}

static size_t signature_size(struct heights of)
{
    return of.trees == 2 ? kes_signature_size(of.h[0], of.h[1]) : kes3_signature_size(of.h[0], of.h[1], of.h[2]);
}

/* The steps of a part, 1 where nothing is below. A height that it has not is 0. */
static size_t steps(struct heights of) { return (size_t)1 << (of.h[0] + of.h[1] + of.h[2]); }

static void hash(const uint8_t *bytes, size_t len, uint8_t *out)
{
    crypto_generichash(out, NODE, bytes, len, NULL, 0);
}

/* One of the two seeds that come from a seed; out may be that seed. */
static void side(uint8_t which, const uint8_t *seed, uint8_t *out)
{
    uint8_t bytes[1 + NODE];
    bytes[0] = which;
    memcpy(bytes + 1, seed, NODE);
    hash(bytes, sizeof bytes, out);
}

/* Below, what grows or signs answers whether every asking was answered; where one was not, what it wrote is worthless. */

static int subtree_hash(const uint8_t *seed, size_t h, uint8_t *out, uint64_t *tally)
{
    uint8_t below[NODE], hashes[2 * NODE];
    if (h == 0) {
        if (desk_ed25519_public_key((*tally)++, seed, below) != 1)
            return 0;
        hash(below, NODE, out);
        return 1;
    }
    side(0, seed, below);
    if (!subtree_hash(below, h - 1, hashes, tally))
        return 0;
    side(1, seed, below);
    if (!subtree_hash(below, h - 1, hashes + NODE, tally))
        return 0;
    hash(hashes, sizeof hashes, out);
    return 1;
}

/* Writes the tree that grows from a seed, at step t, and its root. The half beside the path is hashed, the other grown: one pass. */
static int grow(const uint8_t *seed, size_t h, size_t t, uint8_t *tree, uint8_t *root, uint64_t *tally)
{
    uint8_t left[NODE];
    size_t half = (size_t)1 << h >> 1;
    if (h == 0) {
        memcpy(tree, seed, NODE);
        if (desk_ed25519_public_key((*tally)++, seed, tree + NODE) != 1)
            return 0;
        hash(tree + NODE, NODE, root);
        return 1;
    }
    side(0, seed, left);
    side(1, seed, tree);
    if (t < half) {
        if (!grow(left, h - 1, t, tree + LEVEL, tree + NODE, tally) || !subtree_hash(tree, h - 1, tree + 2 * NODE, tally))
            return 0;
    } else {
        if (!subtree_hash(left, h - 1, tree + NODE, tally) || !grow(tree, h - 1, t - half, tree + LEVEL, tree + 2 * NODE, tally))
            return 0;
        memset(tree, 0, NODE);
    }
    hash(tree + NODE, 2 * NODE, root);
    return 1;
}

static void root_of(const uint8_t *tree, size_t h, uint8_t *root)
{
    hash(tree + NODE, h == 0 ? NODE : 2 * NODE, root);
}

/* Answers the count of the rules, by which the move inside the new half grows t more, and 0 where an asking was not answered. */
static size_t move_tree(uint8_t *tree, size_t h, size_t from, size_t to, uint64_t *tally)
{
    size_t bit = 63 - (size_t)__builtin_clzll(from ^ to), half = (size_t)1 << bit, t = to % half;
    uint8_t *level = tree + LEVEL * (h - 1 - bit), unused[NODE];
    if (!grow(level, bit, t, level + LEVEL, unused, tally))
        return 0;
    memset(level, 0, NODE);
    return half + t;
}

static int sum_sign(const uint8_t *tree, size_t h, size_t t, const uint8_t *message, size_t len, uint8_t *out, uint64_t *tally)
{
    const uint8_t *leaf = tree + LEVEL * h;
    size_t bit;
    if (desk_ed25519_sign((*tally)++, leaf, message, len, out + NODE) != 1)
        return 0;
    memcpy(out, leaf + NODE, NODE);
    for (bit = 0; bit < h; bit++) {
        const uint8_t *level = tree + LEVEL * (h - 1 - bit);
        memcpy(out + SIGNED + NODE * bit, level + (t >> bit & 1 ? NODE : 2 * NODE), NODE);
    }
    return 1;
}

static int path_fits(const uint8_t *root, size_t h, size_t t, const uint8_t *signature)
{
    uint8_t x[NODE], joined[2 * NODE];
    size_t bit;
    hash(signature, NODE, x);
    for (bit = 0; bit < h; bit++) {
        size_t own = NODE * (t >> bit & 1);
        memcpy(joined + own, x, NODE);
        memcpy(joined + (NODE - own), signature + SIGNED + NODE * bit, NODE);
        hash(joined, sizeof joined, x);
    }
    return memcmp(x, root, NODE) == 0;
}

static int leaf_accepts(const uint8_t *message, size_t len, const uint8_t *signature)
{
    return crypto_sign_verify_detached(signature + NODE, message, len, signature) == 0;
}

static size_t get_four(const uint8_t *at) { return at[0] | (size_t)at[1] << 8 | (size_t)at[2] << 16 | (size_t)at[3] << 24; }

static void put_four(uint8_t *at, size_t number)
{
    size_t i;
    for (i = 0; i < 4; i++)
        at[i] = (uint8_t)(number >> 8 * i);
}

static int read_header(const uint8_t *table, size_t len, struct header *found)
{
    size_t i;
    if (len < HEADER || (table[2] != 2 && (table[2] != 1 || table[3] != 0)))
        return 0;
    found->of = table[2] == 2 ? three(table[0], table[1], table[3]) : two(table[0], table[1]);
    if (!fit(found->of) || len != table_size(found->of))
        return 0;
    for (i = 0; i < WINDOWS; i++)
        if ((found->needs[i] = get_four(table + 8 + 4 * i)) > steps(found->of))
            return 0;
    return (found->step = get_four(table + 4)) < steps(found->of);
}

static void put_header(uint8_t *table, struct heights of)
{
    memset(table, 0, HEADER);
    table[0] = (uint8_t)of.h[0];
    table[1] = (uint8_t)of.h[1];
    table[2] = (uint8_t)(of.trees - 1);
    table[3] = (uint8_t)of.h[2];
}

static uint64_t done(size_t count) { return (uint64_t)count << 32 | KES_DONE; }

/* The leaf signs the root of what is below for the last time. */
static int seal(uint8_t *part, size_t h, size_t t, const uint8_t *root, uint64_t *tally)
{
    if (!sum_sign(part, h, t, root, NODE, part + vouched_at(h), tally))
        return 0;
    memset(part + LEVEL * h, 0, NODE);
    return 1;
}

/* A step that is jumped over still advances the stored seed. */
static void advance(uint8_t *stored, size_t jumped)
{
    for (; jumped > 0; jumped--)
        side(1, stored, stored);
}

/* Writes the part that grows from a seed, at step t, and its root: each tree at its step, in one pass. */
static int grow_part(const uint8_t *seed, struct heights of, size_t t, uint8_t *part, uint8_t *root, uint64_t *tally)
{
    uint8_t top[NODE], stored[NODE], vouched[NODE];
    size_t i = t / steps(below(of)), inner = t % steps(below(of)), h = of.h[0];
    if (of.trees == 1)
        return grow(seed, h, t, part, root, tally);
    side(0, seed, top);
    side(1, seed, stored);
    advance(stored, i);
    side(1, stored, part + next_at(h));
    side(0, stored, stored);
    return grow(top, h, i, part, root, tally) && grow_part(stored, below(of), inner, part + below_at(h), vouched, tally)
        && seal(part, h, i, vouched, tally);
}

/* The rules' count of a part that is grown new, at step t: each tree's leaves, and as many as its step. */
static size_t count_grown(struct heights of, size_t t)
{
    size_t wide = steps(below(of)), own = ((size_t)1 << of.h[0]) + t / wide;
    return of.trees == 1 ? own : own + count_grown(below(of), t % wide);
}

/* The top tree moves, and what is below grows anew. */
static size_t move_across(uint8_t *part, struct heights of, size_t i, size_t new_i, size_t inner, uint64_t *tally)
{
    uint8_t stored[NODE], vouched[NODE];
    size_t h = of.h[0], count = move_tree(part, h, i, new_i, tally);
    memcpy(stored, part + next_at(h), NODE);
    advance(stored, new_i - i - 1);
    side(1, stored, part + next_at(h));
    side(0, stored, stored);
    if (count == 0 || !grow_part(stored, below(of), inner, part + below_at(h), vouched, tally) || !seal(part, h, new_i, vouched, tally))
        return 0;
    return count + count_grown(below(of), inner);
}

/* Answers as move_tree. */
static size_t move_part(uint8_t *part, struct heights of, size_t from, size_t to, uint64_t *tally)
{
    size_t wide = steps(below(of));
    if (of.trees == 1)
        return move_tree(part, of.h[0], from, to, tally);
    if (from / wide == to / wide)
        return move_part(part + below_at(of.h[0]), below(of), from % wide, to % wide, tally);
    return move_across(part, of, from / wide, to / wide, to % wide, tally);
}

/* In a copy, since the table stays where an asking is not answered. */
static uint64_t make_with(struct heights of, uint8_t *seed, size_t seed_len, uint8_t *table, size_t table_len, uint64_t *tally)
{
    uint8_t unused[NODE], copy[KES_TABLE_MAX];
    if (!fit(of))
        return KES_HEIGHT;
    if (seed_len != KES_SEED_SIZE)
        return KES_SEED_OR_KEY;
    if (table_len != table_size(of))
        return KES_LENGTH;
    put_header(copy, of);
    if (!grow_part(seed, of, 0, copy + HEADER, unused, tally))
        return KES_UNANSWERED;
    memcpy(table, copy, table_len);
    memset(seed, 0, NODE);
    return done(count_grown(of, 0));
}

uint64_t plain_make(uint64_t h1, uint64_t h2, uint8_t *seed, size_t seed_len, uint8_t *table, size_t table_len, uint64_t *tally)
{
    return make_with(two(h1, h2), seed, seed_len, table, table_len, tally);
}

uint64_t plain3_make(uint64_t h1, uint64_t h2, uint64_t h3, uint8_t *seed, size_t seed_len, uint8_t *table, size_t table_len, uint64_t *tally)
{
    return make_with(three(h1, h2, h3), seed, seed_len, table, table_len, tally);
}

uint32_t plain_read_key(const uint8_t *table, size_t table_len, uint8_t *key, size_t key_len)
{
    struct header at;
    if (!read_header(table, table_len, &at))
        return KES_TABLE;
    if (key_len != KES_KEY_SIZE)
        return KES_LENGTH;
    root_of(table + HEADER, at.of.h[0], key);
    return KES_DONE;
}

/* In a copy too. */
uint64_t plain_move(uint8_t *table, size_t table_len, uint64_t step, uint64_t *tally)
{
    uint8_t copy[KES_TABLE_MAX];
    struct header at;
    size_t count;
    if (!read_header(table, table_len, &at))
        return KES_TABLE;
    if (step >= steps(at.of))
        return KES_PAST_END;
    if (step <= at.step)
        return KES_NOT_LATER;
    if (step > at.needs[0] || step > at.needs[1])
        return KES_NOT_RELEASED;
    memcpy(copy, table, table_len);
    count = move_part(copy + HEADER, at.of, at.step, step, tally);
    if (count == 0)
        return KES_UNANSWERED;
    put_four(copy + 4, step);
    memcpy(table, copy, table_len);
    return done(count);
}

uint32_t plain_release(uint8_t *table, size_t table_len, uint64_t window, uint64_t step)
{
    struct header at;
    if (!read_header(table, table_len, &at))
        return KES_TABLE;
    if (window >= WINDOWS)
        return KES_WINDOW;
    if (step < at.needs[window] || step > steps(at.of))
        return KES_LOWERED;
    put_four(table + 8 + 4 * window, step);
    return KES_DONE;
}

/* The signatures that are stored, and the roots of what is below each, in their places. */
static void put_vouched(const uint8_t *part, struct heights of, uint8_t *sums, uint8_t *roots)
{
    size_t h = of.h[0];
    if (of.trees == 1)
        return;
    memcpy(sums, part + vouched_at(h), sum_size(h));
    root_of(part + below_at(h), of.h[1], roots);
    put_vouched(part + below_at(h), below(of), sums + sum_size(h), roots + NODE);
}

uint32_t plain_sign(const uint8_t *table, size_t table_len, const uint8_t *message, size_t message_len, uint8_t *signature, size_t signature_len, uint64_t *tally)
{
    uint8_t last[SIGNED + NODE * KES_HEIGHT_MAX], *roots;
    struct header at;
    size_t h, tree_len;
    if (!read_header(table, table_len, &at))
        return KES_TABLE;
    if (message_len > KES_MESSAGE_MAX)
        return KES_TOO_LONG;
    if (signature_len != signature_size(at.of))
        return KES_LENGTH;
    h = at.of.h[at.of.trees - 1], tree_len = tree_size(h);
    if (!sum_sign(table + table_len - tree_len, h, at.step % ((size_t)1 << h), message, message_len, last, tally))
        return KES_UNANSWERED;
    roots = signature + signature_len - NODE * (at.of.trees - 1);
    put_vouched(table + HEADER, at.of, signature, roots);
    memcpy(roots - sum_size(h), last, sum_size(h));
    return KES_DONE;
}

/* Every path first: a bad one costs no Ed25519 check. */
static int paths_fit(const uint8_t *root, struct heights of, size_t step, const uint8_t *sums, const uint8_t *roots)
{
    size_t wide = steps(below(of));
    if (!path_fits(root, of.h[0], step / wide, sums))
        return 0;
    return of.trees == 1 || paths_fit(roots, below(of), step % wide, sums + sum_size(of.h[0]), roots + NODE);
}

static int leaves_accept(struct heights of, const uint8_t *sums, const uint8_t *roots, const uint8_t *message, size_t message_len)
{
    if (of.trees == 1)
        return leaf_accepts(message, message_len, sums);
    return leaf_accepts(roots, NODE, sums) && leaves_accept(below(of), sums + sum_size(of.h[0]), roots + NODE, message, message_len);
}

static uint32_t judge(struct heights of, const uint8_t *key, size_t key_len, uint64_t step, const uint8_t *message, size_t message_len, const uint8_t *signature, size_t signature_len)
{
    const uint8_t *roots;
    if (!fit(of))
        return KES_HEIGHT;
    if (key_len != KES_KEY_SIZE)
        return KES_SEED_OR_KEY;
    if (signature_len != signature_size(of))
        return KES_LENGTH;
    if (message_len > KES_MESSAGE_MAX)
        return KES_TOO_LONG;
    if (step >= steps(of))
        return KES_PAST_END;
    roots = signature + signature_len - NODE * (of.trees - 1);
    return paths_fit(key, of, step, signature, roots) && leaves_accept(of, signature, roots, message, message_len) ? KES_DONE : KES_NOT_ACCEPTED;
}

uint32_t plain_verify(uint64_t h1, uint64_t h2, const uint8_t *key, size_t key_len, uint64_t step, const uint8_t *message, size_t message_len, const uint8_t *signature, size_t signature_len)
{
    return judge(two(h1, h2), key, key_len, step, message, message_len, signature, signature_len);
}

uint32_t plain3_verify(uint64_t h1, uint64_t h2, uint64_t h3, const uint8_t *key, size_t key_len, uint64_t step, const uint8_t *message, size_t message_len, const uint8_t *signature, size_t signature_len)
{
    return judge(three(h1, h2, h3), key, key_len, step, message, message_len, signature, signature_len);
}

int plain_accepts(struct plain_link *link, uint64_t h1, uint64_t h2, const uint8_t *key, uint64_t step, const uint8_t *message, size_t message_len, const uint8_t *signature)
{
    const uint8_t *childs = signature + sum_size(h1), *root = childs + sum_size(h2);
    uint64_t t1 = step >> h2;
    if (link->held && link->t1 == t1 && memcmp(link->root, root, NODE) == 0 && memcmp(link->sum, signature, sum_size(h1)) == 0)
        return path_fits(root, h2, step % ((size_t)1 << h2), childs) && leaf_accepts(message, message_len, childs);
    if (plain_verify(h1, h2, key, KES_KEY_SIZE, step, message, message_len, signature, kes_signature_size(h1, h2)) != KES_DONE)
        return 0;
    link->held = 1;
    link->t1 = t1;
    memcpy(link->root, root, NODE);
    memcpy(link->sum, signature, sum_size(h1));
    return 1;
}
