/* agree [KEYS]: lives of random keys of two trees and of three, of random fairs' caches and of random plain trees, in the proved library and in its plain peer. Every answer and every byte
 * that is left must be the same, on good requests and on spoiled ones, some of which the module does not answer. Always the same lives. */
#include <stdio.h>
#include <stdlib.h>
#include <string.h>

#include <sodium.h>

#include "fairs.h"
#include "schemes.h"
#include "whole_tree.h"

enum { MAKE, READ_KEY, MOVE, RELEASE, SIGN, VERIFY, FAIR_MAKE, FAIR_MOVE, FAIR_SIGN, FAIR_VERIFY, FILL, ROOT, PATH, LEAF_SIGN, CALLS };
enum { KEY_CALLS = FAIR_MAKE, FAIR_CALLS = FILL - FAIR_MAKE, WHOLE_CALLS = CALLS - FILL };
static const char *const names[CALLS] = {"make", "read key", "move", "release", "sign", "verify", "fair make", "fair move", "fair sign", "fair verify",
    "plain fill", "plain root", "plain path", "plain sign"};

/* A call's numbers and lengths, and the bytes lent, each buffer with room for one byte too many. */
struct request {
    struct heights of; /* h1 is also a plain tree's height */
    uint64_t step, window, n, tally;
    size_t seed_len, table_len, key_len, message_len, signature_len, seeds_len, cache_len, tree_len, path_len;
    uint8_t seed[KES_SEED_SIZE + 1], table[KES_TABLE_MAX + 1], key[KES_KEY_SIZE + 1], message[KES_MESSAGE_MAX + 1],
        signature[KES_SIGNATURE_MAX + 1], seeds[KES_FAIR_SEEDS_SIZE(KES_FAIR_MAX) + 1], cache[KES_FAIR_CACHE_MAX + 1], tree[KES_PLAIN_TABLE_MAX + 1],
        path[KES_PLAIN_PATH_SIZE(KES_PLAIN_HEIGHT_MAX) + 1];
};

static struct request lent;
/* A number n is not answered where n % every is 0; every is 0 where all are. */
static uint64_t every;
static unsigned long seen[KES_NOT_ACCEPTED + 1];

/* SplitMix64: draws that are the same everywhere. */
static uint64_t draw(uint64_t below)
{
    static uint64_t state;
    uint64_t z = state += 0x9e3779b97f4a7c15;
    z = (z ^ z >> 30) * 0xbf58476d1ce4e5b9;
    z = (z ^ z >> 27) * 0x94d049bb133111eb;
    return (z ^ z >> 31) % below;
}

static void draw_bytes(uint8_t *bytes, size_t len)
{
    size_t i;
    for (i = 0; i < len; i++)
        bytes[i] = (uint8_t)draw(256);
}

/* The linker puts these before the adapter's functions, so that either side can be left without an answer. */
uint32_t __real_desk_ed25519_public_key(uint64_t number, const uint8_t *secret, uint8_t *out);
uint32_t __real_desk_ed25519_sign(uint64_t number, const uint8_t *secret, const uint8_t *message, size_t len, uint8_t *out);
uint32_t __wrap_desk_ed25519_public_key(uint64_t number, const uint8_t *secret, uint8_t *out);
uint32_t __wrap_desk_ed25519_sign(uint64_t number, const uint8_t *secret, const uint8_t *message, size_t len, uint8_t *out);

static int answered(uint64_t number) { return every == 0 || number % every != 0; }

uint32_t __wrap_desk_ed25519_public_key(uint64_t number, const uint8_t *secret, uint8_t *out)
{
    return answered(number) ? __real_desk_ed25519_public_key(number, secret, out) : 0;
}

uint32_t __wrap_desk_ed25519_sign(uint64_t number, const uint8_t *secret, const uint8_t *message, size_t len, uint8_t *out)
{
    return answered(number) ? __real_desk_ed25519_sign(number, secret, message, len, out) : 0;
}

static uint64_t ask_fair(const struct fair *f, int call, struct request *r)
{
    switch (call) {
    case FAIR_MAKE: return f->make(r->n, r->seed, r->seed_len, r->seeds, r->seeds_len, r->cache, r->cache_len, r->key, r->key_len, &r->tally);
    case FAIR_MOVE: return f->move(r->cache, r->cache_len, r->step);
    case FAIR_SIGN: return f->sign(r->cache, r->cache_len, r->message, r->message_len, r->signature, r->signature_len, &r->tally);
    default: return f->verify(r->n, r->key, r->key_len, r->step, r->message, r->message_len, r->signature, r->signature_len);
    }
}

/* Of a tree of height h1, at the leaf of step. */
static uint64_t ask_whole(const struct whole *w, int call, struct request *r)
{
    switch (call) {
    case FILL: return w->fill(r->of.h1, r->seed, r->seed_len, r->tree, r->tree_len, &r->tally);
    case ROOT: return w->root(r->of.h1, r->tree, r->tree_len, r->key, r->key_len);
    case PATH: return w->path(r->of.h1, r->tree, r->tree_len, r->step, r->path, r->path_len);
    default: return w->sign(r->of.h1, r->tree, r->tree_len, r->step, r->message, r->message_len, r->signature, r->signature_len, &r->tally);
    }
}

static uint64_t ask(const struct scheme *s, const struct fair *f, const struct whole *w, int call, struct request *r)
{
    if (call >= FILL)
        return ask_whole(w, call, r);
    if (call >= KEY_CALLS)
        return ask_fair(f, call, r);
    switch (call) {
    case MAKE: return make_by(s, r->of, r->seed, r->seed_len, r->table, r->table_len, &r->tally);
    case READ_KEY: return s->read_key(r->table, r->table_len, r->key, r->key_len);
    case MOVE: return s->move(r->table, r->table_len, r->step, &r->tally);
    case RELEASE: return s->release(r->table, r->table_len, r->window, r->step);
    case SIGN: return s->sign(r->table, r->table_len, r->message, r->message_len, r->signature, r->signature_len, &r->tally);
    default:
        return verify_by(s, r->of, r->key, r->key_len, r->step, r->message, r->message_len, r->signature, r->signature_len);
    }
}

/* Asks both, each over bytes of its own, and goes on with what the library left. */
static uint32_t both(int call)
{
    static struct request peers;
    uint64_t answer, peer;
    peers = lent;
    answer = ask(&library, &library_fair, &library_whole, call, &lent);
    peer = ask(&plain, &plain_fair, &plain_whole, call, &peers);
    if (answer != peer || memcmp(&lent, &peers, sizeof lent) != 0) {
        fprintf(stderr, "agree: library and plain C differ: %s at (%u,%u,%u) of %u trees or %u entries, step %u: %llx and %llx\n", names[call], (unsigned)lent.of.h1,
                (unsigned)lent.of.h2, (unsigned)lent.of.h3, (unsigned)lent.of.trees, (unsigned)lent.n, (unsigned)lent.step, (unsigned long long)answer, (unsigned long long)peer);
        exit(1);
    }
    seen[kes_number(answer)]++;
    return kes_number(answer);
}

/* One wrong number, one wrong length or one changed byte. */
static void spoil(void)
{
    enum { NUMBERS = 6, LENGTHS = 9, BYTES = 6 };
    uint64_t *numbers[NUMBERS] = {&lent.of.h1, &lent.of.h2, &lent.of.h3, &lent.step, &lent.window, &lent.n};
    size_t *lengths[LENGTHS] = {&lent.seed_len, &lent.table_len, &lent.key_len, &lent.message_len, &lent.signature_len, &lent.seeds_len, &lent.cache_len,
        &lent.tree_len, &lent.path_len};
    uint8_t *bytes[BYTES] = {lent.table, lent.key, lent.message, lent.signature, lent.cache, lent.tree};
    size_t sizes[BYTES] = {lent.table_len, lent.key_len, lent.message_len, lent.signature_len, lent.cache_len, lent.tree_len};
    uint64_t which = draw(NUMBERS + LENGTHS + 2 * BYTES), at = which % BYTES;
    if (which < NUMBERS)
        *numbers[which] = draw(2) ? draw(20) : UINT64_MAX - draw(20);
    else if (which < NUMBERS + LENGTHS)
        *lengths[which - NUMBERS] = draw(2) ? draw(8) : *lengths[which - NUMBERS] + 1;
    else if (sizes[at] != 0)
        bytes[at][draw(2) ? draw(sizes[at]) : draw(1 + (sizes[at] - 1) / 8)] ^= (uint8_t)(1 + draw(255));
}

/* Asks spoiled requests of so many calls from first on, moves mostly to a later step, and puts everything back. */
static void spoiled(int times, int first, int calls)
{
    static struct request good;
    good = lent;
    for (; times > 0; times--) {
        int call = first + (int)draw((uint64_t)calls);
        lent.window = draw(2);
        if (call == MOVE || call == RELEASE)
            lent.step += draw(steps(lent.of) - lent.step);
        if (call == FAIR_MOVE)
            lent.step += draw(lent.n - lent.step);
        if (draw(4) == 0) {
            every = 1 + draw(12);
            lent.tally = UINT64_MAX - draw(24);
        } else {
            spoil();
        }
        both(call);
        lent = good;
        every = 0;
    }
}

static void must(int call)
{
    if (both(call) != KES_DONE) {
        fprintf(stderr, "agree: a good %s is refused\n", names[call]);
        exit(1);
    }
}

static void start(struct heights of)
{
    memset(&lent, 0, sizeof lent);
    lent.of = of;
    lent.seed_len = KES_SEED_SIZE, lent.table_len = table_size(of), lent.key_len = KES_KEY_SIZE, lent.signature_len = signature_size(of);
    draw_bytes(lent.seed, KES_SEED_SIZE);
    must(MAKE);
    must(READ_KEY);
    draw_bytes(lent.seed, KES_SEED_SIZE);
}

static void draw_message(void)
{
    lent.message_len = draw(20) == 0 ? KES_MESSAGE_MAX : draw(200);
    draw_bytes(lent.message, lent.message_len);
}

static void sign_and_verify(void)
{
    draw_message();
    must(SIGN);
    must(VERIFY);
}

/* Each window releases the step, the second in its own time. */
static void go_to(uint64_t step)
{
    lent.step = step;
    lent.window = 0;
    must(RELEASE);
    if (both(MOVE) != KES_NOT_RELEASED)
        exit(1);
    lent.window = 1;
    must(RELEASE);
    must(MOVE);
    sign_and_verify();
}

/* From step 0 to the last in random strides, with spoiled requests at every step on the way. */
static void live(struct heights of)
{
    uint64_t last = steps(of) - 1;
    start(of);
    sign_and_verify();
    spoiled(12, MAKE, KEY_CALLS);
    while (lent.step < last) {
        go_to(lent.step + 1 + draw(1 + draw(last - lent.step)));
        spoiled(12, MAKE, KEY_CALLS);
    }
}

static void draw_seeds(void)
{
    draw_bytes(lent.seed, lent.seed_len);
    draw_bytes(lent.seeds, lent.seeds_len);
}

static void start_fair(uint64_t n)
{
    memset(&lent, 0, sizeof lent);
    lent.n = n;
    lent.seed_len = KES_SEED_SIZE, lent.seeds_len = kes_fair_seeds_size(n), lent.cache_len = kes_fair_cache_size(n);
    lent.key_len = KES_KEY_SIZE, lent.signature_len = KES_FAIR_SIGNATURE_SIZE;
    draw_seeds();
    must(FAIR_MAKE);
    draw_seeds();
}

/* A fair's day in random strides, to its last step. */
static void live_fair(uint64_t n)
{
    start_fair(n);
    for (;;) {
        draw_message();
        must(FAIR_SIGN);
        must(FAIR_VERIFY);
        spoiled(12, KEY_CALLS, FAIR_CALLS);
        if (lent.step == n - 1)
            return;
        lent.step += 1 + draw(1 + draw(n - 1 - lent.step));
        must(FAIR_MOVE);
    }
}

/* A plain tree, of which every leaf is read and signs. */
static void live_whole(uint64_t h)
{
    memset(&lent, 0, sizeof lent);
    lent.of.h1 = h;
    lent.seed_len = KES_SEED_SIZE, lent.tree_len = kes_plain_table_size(h), lent.key_len = KES_KEY_SIZE;
    lent.path_len = kes_plain_path_size(h), lent.signature_len = kes_plain_signature_size(h);
    draw_bytes(lent.seed, KES_SEED_SIZE);
    must(FILL);
    must(ROOT);
    draw_bytes(lent.seed, KES_SEED_SIZE);
    for (; lent.step >> h == 0; lent.step++) {
        draw_message();
        must(PATH);
        must(LEAF_SIGN);
        spoiled(12, FILL, WHOLE_CALLS);
    }
}

/* The moves that are raced: 0 to 1, and from 0 to the last step. */
static void live_raced(struct heights of)
{
    static struct request fresh;
    start(of);
    sign_and_verify();
    fresh = lent;
    go_to(1);
    lent = fresh;
    go_to(steps(of) - 1);
}

static struct heights two_trees(void)
{
    struct heights of = {2, draw(5), draw(5), 0};
    return of;
}

static struct heights three_trees(void)
{
    struct heights of = {3, draw(4), draw(3), draw(4)};
    return of;
}

int main(int argc, char **argv)
{
    int keys = argc > 1 ? atoi(argv[1]) : 100, i;
    if (sodium_init() < 0)
        return 1;
    for (i = 0; i < keys; i++)
        live(two_trees());
    for (i = 0; i < keys; i++)
        live(three_trees());
    for (i = 0; i < HEIGHTS; i++)
        live_raced(heights[i]);
    for (i = 0; i < keys; i++)
        live_fair(1 + draw(12));
    live_fair(KES_FAIR_MAX);
    for (i = 0; i < keys; i++)
        live_whole(draw(4));
    live_whole(KES_PLAIN_HEIGHT_MAX);
    for (i = 0; i <= KES_NOT_ACCEPTED; i++)
        if (seen[i] != 0)
            printf("agree: library and plain C both answer %d: %lu times\n", i, seen[i]);
        else if (i <= KES_NOT_RELEASED || i == KES_NOT_ACCEPTED) {
            fprintf(stderr, "agree: no request was answered %d\n", i);
            return 1;
        }
    printf("agree: in %d lives of keys, %d of fairs and %d of plain trees every answer and every byte left is the same\n", 2 * keys + HEIGHTS, keys + 1, keys + 1);
    return 0;
}
