/* kes_test ABC: each call of kes.h across the real ABI, with good input, each refusal, empty slices and guard bytes.
 * ABC is the digest of "abc", in hex. */
#include <stdio.h>
#include <string.h>

#include "kes.h"

enum { GUARD = 64, FILL = 0xa5, H1 = 1, H2 = 2, STEPS = 8, N = 3, MOST = 4097, THREE = 816, SIGNED3 = 448 };

/* A buffer with guard bytes on both sides. */
struct guarded {
    uint8_t room[GUARD + MOST + GUARD];
};

static struct guarded seed, seeds, table, cache, key, signature, message, other;
static uint64_t tally;
static int failures;

static void expect(int holds, const char *what)
{
    if (holds)
        return;
    printf("kes_test: FAILED: %s\n", what);
    failures++;
}

static uint8_t *in(struct guarded *g) { return g->room + GUARD; }

static void clear(struct guarded *g) { memset(g->room, FILL, sizeof g->room); }

/* Nothing but the first len bytes may have been written. */
static int guarded(const struct guarded *g, size_t len)
{
    size_t i;
    for (i = 0; i < sizeof g->room; i++)
        if ((i < GUARD || i >= GUARD + len) && g->room[i] != FILL)
            return 0;
    return 1;
}

static int zero(const uint8_t *bytes, size_t len)
{
    size_t i;
    for (i = 0; i < len; i++)
        if (bytes[i] != 0)
            return 0;
    return 1;
}

/* A fresh key of heights 1 and 2 in table, from a seed of sevens. */
static uint64_t make_unreleased(void)
{
    clear(&seed);
    clear(&table);
    memset(in(&seed), 7, KES_SEED_SIZE);
    return kes_make(H1, H2, in(&seed), KES_SEED_SIZE, in(&table), kes_table_size(H1, H2), &tally);
}

/* The same, for a desk without windows: both have released all. */
static uint64_t make(void)
{
    uint64_t made = make_unreleased();
    expect(kes_release(in(&table), kes_table_size(H1, H2), 0, STEPS) == KES_DONE && kes_release(in(&table), kes_table_size(H1, H2), 1, STEPS) == KES_DONE, "both windows release all");
    return made;
}

static void sizes(void)
{
    expect(kes_table_size(0, 0) == 272 && kes_table_size(2, 2) == 720 && kes_table_size(12, 12) == 2960, "the table's sizes");
    expect(kes_signature_size(0, 0) == 224 && kes_signature_size(2, 2) == 352 && kes_signature_size(12, 12) == 992, "the signature's sizes");
    expect(kes_steps(2, 2) == 16 && kes_steps(12, 12) == 16777216, "the steps");
    expect(kes_table_size(13, 0) == 0 && kes_signature_size(0, 13) == 0 && kes_steps(UINT64_MAX, 0) == 0, "0 above height 12");
    expect(kes3_table_size(0, 0, 0) == 464 && kes3_table_size(1, 2, 3) == 1136 && kes3_table_size(8, 8, 8) == KES_TABLE_MAX, "the sizes of a table of three trees");
    expect(kes3_signature_size(0, 0, 0) == 352 && kes3_signature_size(8, 8, 8) == KES_SIGNATURE_MAX, "the sizes of a signature of three trees");
    expect(kes3_steps(1, 1, 1) == 8 && kes3_steps(8, 8, 8) == 16777216, "the steps of three trees");
    expect(kes3_table_size(9, 0, 0) == 0 && kes3_table_size(0, 9, 0) == 0 && kes3_signature_size(0, 0, 9) == 0 && kes3_steps(0, UINT64_MAX, 0) == 0, "0 above height 8 of three");
    expect(kes_fair_cache_size(1) == 132 && kes_fair_cache_size(N) == 388 && kes_fair_cache_size(KES_FAIR_MAX) == KES_FAIR_CACHE_MAX, "the cache's sizes");
    expect(kes_fair_seeds_size(1) == 32 && kes_fair_seeds_size(KES_FAIR_MAX) == 8192, "the sizes of a fair's seeds");
    expect(kes_plain_table_size(0) == 96 && kes_plain_table_size(3) == 992 && kes_plain_table_size(8) == KES_PLAIN_TABLE_MAX, "the plain table's sizes");
    expect(kes_plain_path_size(3) == 96 && kes_plain_signature_size(3) == 192 && kes_plain_table_size(9) == 0 && kes_plain_table_size(UINT64_MAX) == 0, "0 above height 8");
    expect(kes_fair_cache_size(0) == 0 && kes_fair_cache_size(257) == 0 && kes_fair_seeds_size(0) == 0 && kes_fair_seeds_size(UINT64_MAX) == 0, "0 outside 1 to 256");
}

/* The macros take a number of any type: none below 0 wraps into a good one, and an int draws no warning. */
static void signed_sizes(int height, long entries)
{
    expect(KES_TABLE_SIZE(height, height) == 720 && KES_SIGNATURE_SIZE(height, 2L) == 352, "sizes of heights that are int or long");
    expect(KES3_TABLE_SIZE(height, 0, height) == 912 && KES3_SIGNATURE_SIZE(0, 2L, height) == 480 && KES3_TABLE_SIZE(0, 0, height - 3) == 0 && KES3_SIGNATURE_SIZE(-1L, 0, 0) == 0, "the same of three trees");
    expect(KES_FAIR_CACHE_SIZE(entries) == 388 && KES_FAIR_SEEDS_SIZE((int)entries) == 96, "sizes of a fair whose entries are long or int");
    expect(KES_PLAIN_TABLE_SIZE(height) == 480 && KES_PLAIN_TABLE_SIZE(height - 3) == 0 && KES_PLAIN_TABLE_SIZE(-1L) == 0, "sizes of a plain tree whose height is int or long");
    expect(KES_TABLE_SIZE(-1L, 0) == 0 && KES_TABLE_SIZE(0, height - 3) == 0 && KES_TABLE_SIZE(entries - 4, 0) == 0, "no table below height 0");
    expect(KES_SIGNATURE_SIZE(-1L, 0) == 0 && KES_SIGNATURE_SIZE(0, height - 3) == 0 && KES_SIGNATURE_SIZE(0, entries - 4) == 0, "no signature below height 0");
    expect(KES_FAIR_CACHE_SIZE(height - 3) == 0 && KES_FAIR_CACHE_SIZE(INT64_MIN) == 0 && KES_FAIR_SEEDS_SIZE(entries - 4) == 0, "no fair below 1 entry");
}

static void making(void)
{
    uint64_t made = make();
    size_t size = kes_table_size(H1, H2);
    expect(kes_number(made) == KES_DONE && kes_count(made) == 2 + 4, "a key is made, and six key pairs are grown");
    expect(zero(in(&seed), KES_SEED_SIZE), "the lent seed is zero");
    expect(guarded(&seed, KES_SEED_SIZE) && guarded(&table, size), "making writes nothing else");
    memset(in(&seed), 7, KES_SEED_SIZE);
    other = table;
    expect(kes_make(13, 0, in(&seed), KES_SEED_SIZE, in(&table), size, &tally) == KES_HEIGHT, "height 13 is refused with 1");
    expect(kes_make(H1, (uint64_t)1 << 32, in(&seed), KES_SEED_SIZE, in(&table), size, &tally) == KES_HEIGHT, "no height wraps into a good one");
    expect(kes_make(H1, H2, in(&seed), 31, in(&table), size, &tally) == KES_SEED_OR_KEY, "a short seed is refused with 2");
    expect(kes_make(H1, H2, NULL, 0, NULL, 0, &tally) == KES_SEED_OR_KEY, "an empty seed is refused with 2, before 4");
    expect(kes_make(H1, H2, in(&seed), KES_SEED_SIZE, in(&table), size - 1, &tally) == KES_LENGTH, "a short table is refused with 4");
    expect(memcmp(&other, &table, sizeof table) == 0 && in(&seed)[0] == 7, "a refused make changes nothing");
}

/* What the careless idiom does: a done call never answers 0. */
static void careless(void)
{
    uint64_t made = make();
    expect(made != 0 && kes_number(made) == KES_DONE, "make == 0 would take a made key for a refusal");
}

static void reading(void)
{
    clear(&key);
    make();
    expect(kes_read_key(in(&table), kes_table_size(H1, H2), in(&key), KES_KEY_SIZE) == KES_DONE, "the key is read");
    expect(guarded(&key, KES_KEY_SIZE), "reading writes nothing else");
    other = key;
    expect(kes_read_key(in(&table), 15, in(&key), KES_KEY_SIZE) == KES_TABLE, "a table of 15 bytes is refused with 3");
    expect(kes_read_key(NULL, 0, NULL, 0) == KES_TABLE, "an empty table is refused with 3, before 4");
    expect(kes_read_key(in(&table), kes_table_size(H1, H2), in(&key), 33) == KES_LENGTH, "a long key is refused with 4");
    expect(memcmp(&other, &key, sizeof key) == 0, "a refused reading changes nothing");
}

static void moving(void)
{
    size_t size = kes_table_size(H1, H2);
    uint64_t moved;
    make();
    moved = kes_move(in(&table), size, 5, &tally);
    expect(kes_number(moved) == KES_DONE && kes_count(moved) == 1 + 4 + 1, "a jump over the parent's step grows six key pairs");
    expect(guarded(&table, size), "moving writes nothing else");
    other = table;
    expect(kes_move(in(&table), size, 5, &tally) == KES_NOT_LATER, "the present step is refused with 5");
    expect(kes_move(in(&table), size, 0, &tally) == KES_NOT_LATER, "an earlier step is refused with 5");
    expect(kes_move(in(&table), size, STEPS, &tally) == KES_PAST_END, "step 8 is refused with 6");
    expect(kes_move(in(&table), size, ((uint64_t)1 << 32) + 6, &tally) == KES_PAST_END, "no step wraps into a good one");
    expect(kes_move(in(&table), size - 1, 6, &tally) == KES_TABLE && kes_move(NULL, 0, 6, &tally) == KES_TABLE, "a bad table is refused with 3");
    expect(memcmp(&other, &table, sizeof table) == 0, "a refused move changes nothing");
}

/* Two timers: the slower asks for a step that is not later. */
static void catching_up(void)
{
    size_t size = kes_table_size(H1, H2);
    uint64_t caught, before;
    make();
    caught = kes_catch_up(in(&table), size, 5, &tally);
    expect(kes_number(caught) == KES_DONE && kes_count(caught) == 1 + 4 + 1, "a catch-up to a later step is the move");
    expect(guarded(&table, size), "catching up writes nothing else");
    other = table;
    before = tally;
    expect(kes_catch_up(in(&table), size, 5, &tally) == 0 && kes_catch_up(in(&table), size, 4, &tally) == 0, "a step that is not later is no fault and counts 0");
    expect(kes_catch_up(in(&table), size, STEPS, &tally) == KES_PAST_END, "step 8 is refused with 6");
    expect(kes_catch_up(in(&table), size - 1, STEPS, &tally) == KES_TABLE, "3 comes before 6");
    expect(memcmp(&other, &table, sizeof table) == 0 && tally == before, "a catch-up that stays changes nothing, the tally neither");
}

/* Two windows: each sets its own number, and both have to allow a move. */
static void releasing(void)
{
    size_t size = kes_table_size(H1, H2);
    make_unreleased();
    expect(kes_move(in(&table), size, 1, &tally) == KES_NOT_RELEASED, "a move that no window has released is refused with 12");
    expect(kes_release(in(&table), size, 2, 1) == KES_WINDOW && kes_release(in(&table), size, (uint64_t)1 << 32, 1) == KES_WINDOW, "there is no third window");
    expect(kes_release(in(&table), size, 0, STEPS + 1) == KES_LOWERED, "no release goes past the last step");
    expect(kes_release(in(&table), size, 0, 3) == KES_DONE && kes_release(in(&table), size, 0, 3) == KES_DONE, "a number may stand, or go up");
    expect(guarded(&table, size), "releasing writes nothing else");
    expect(kes_release(in(&table), size, 0, 2) == KES_LOWERED, "a number never goes down");
    expect(kes_catch_up(in(&table), size, 1, &tally) == KES_NOT_RELEASED, "one window is not enough");
    expect(kes_release(in(&table), size, 1, STEPS) == KES_DONE, "the last number is that of all steps");
    expect(kes_number(kes_move(in(&table), size, 3, &tally)) == KES_DONE && kes_move(in(&table), size, 4, &tally) == KES_NOT_RELEASED, "the lower number decides");
    other = table;
    expect(kes_release(in(&table), size - 1, 2, 0) == KES_TABLE && memcmp(&other, &table, sizeof table) == 0, "3 comes first, and a refusal changes nothing");
}

static void signing(void)
{
    size_t size = kes_table_size(H1, H2), signed_size = kes_signature_size(H1, H2);
    clear(&signature);
    clear(&message);
    make();
    other = table;
    expect(kes_sign(in(&table), size, NULL, 0, in(&signature), signed_size, &tally) == KES_DONE, "an empty message is signed");
    expect(kes_sign(in(&table), size, in(&message), KES_MESSAGE_MAX, in(&signature), signed_size, &tally) == KES_DONE, "4,096 bytes are signed");
    expect(guarded(&signature, signed_size) && memcmp(&other, &table, sizeof table) == 0, "signing writes the signature alone");
    other = signature;
    expect(kes_sign(in(&table), size, in(&message), KES_MESSAGE_MAX + 1, in(&signature), signed_size, &tally) == KES_TOO_LONG, "4,097 bytes are refused with 7");
    expect(kes_sign(in(&table), size, in(&message), KES_MESSAGE_MAX + 1, NULL, 0, &tally) == KES_TOO_LONG, "7 comes before 4");
    expect(kes_sign(in(&table), size, in(&message), 3, in(&signature), signed_size + 1, &tally) == KES_LENGTH, "a long output is refused with 4");
    expect(kes_sign(NULL, 0, in(&message), KES_MESSAGE_MAX + 1, NULL, 0, &tally) == KES_TABLE, "3 comes before 7");
    expect(memcmp(&other, &signature, sizeof signature) == 0, "a refused signing changes nothing");
}

static uint32_t verify(uint64_t step, size_t key_len, size_t len, size_t signed_len)
{
    return kes_verify(H1, H2, in(&key), key_len, step, in(&message), len, in(&signature), signed_len);
}

static void verifying(void)
{
    size_t signed_size = kes_signature_size(H1, H2);
    reading();
    signing();
    expect(kes_sign(in(&table), kes_table_size(H1, H2), in(&message), 40, in(&signature), signed_size, &tally) == KES_DONE, "40 bytes are signed");
    expect(verify(0, KES_KEY_SIZE, 40, signed_size) == KES_DONE, "the signature is accepted");
    expect(verify(1, KES_KEY_SIZE, 40, signed_size) == KES_NOT_ACCEPTED, "at another step it is not");
    expect(verify(STEPS, KES_KEY_SIZE, 40, signed_size) == KES_PAST_END, "step T is refused with 6, not taken modulo T");
    expect(verify(0, KES_KEY_SIZE, 39, signed_size) == KES_NOT_ACCEPTED, "over another message it is not");
    expect(verify(0, 31, 40, signed_size) == KES_SEED_OR_KEY, "a short key is refused with 2");
    expect(verify(0, KES_KEY_SIZE, 40, signed_size - 1) == KES_LENGTH, "a short signature is refused with 4");
    expect(verify(STEPS, KES_KEY_SIZE, KES_MESSAGE_MAX + 1, signed_size) == KES_TOO_LONG, "7 comes before 6");
    expect(kes_verify(13, 0, NULL, 0, 0, NULL, 0, NULL, 0) == KES_HEIGHT, "1 comes first");
}

/* A fresh key of heights 1, 1 and 1 in table, whose windows have released all. */
static uint64_t make3(void)
{
    uint64_t made;
    clear(&seed);
    clear(&table);
    memset(in(&seed), 7, KES_SEED_SIZE);
    made = kes3_make(1, 1, 1, in(&seed), KES_SEED_SIZE, in(&table), THREE, &tally);
    expect(kes_release(in(&table), THREE, 0, 8) == KES_DONE && kes_release(in(&table), THREE, 1, 8) == KES_DONE, "both windows release all of three trees");
    return made;
}

static void making_three(void)
{
    uint64_t made = make3();
    expect(made == (uint64_t)6 << 32 && zero(in(&seed), KES_SEED_SIZE), "a key of three trees is made, six key pairs are grown, and the seed is zero");
    expect(guarded(&seed, KES_SEED_SIZE) && guarded(&table, THREE) && in(&table)[2] == 2 && in(&table)[3] == 1, "byte 2 says three, and byte 3 the third height");
    memset(in(&seed), 7, KES_SEED_SIZE);
    other = table;
    expect(kes3_make(9, 0, 0, NULL, 0, NULL, 0, &tally) == KES_HEIGHT && kes3_make(0, 9, 0, NULL, 0, NULL, 0, &tally) == KES_HEIGHT, "height 9 of three is refused with 1");
    expect(kes3_make(0, 0, 9, NULL, 0, NULL, 0, &tally) == KES_HEIGHT && kes3_make(0, 0, (uint64_t)1 << 32, NULL, 0, NULL, 0, &tally) == KES_HEIGHT, "in every place, and none wraps");
    expect(kes3_make(1, 1, 1, in(&seed), 31, in(&table), THREE - 1, &tally) == KES_SEED_OR_KEY, "2 comes before 4");
    expect(kes3_make(1, 1, 1, in(&seed), KES_SEED_SIZE, in(&table), THREE + 1, &tally) == KES_LENGTH, "a long table is refused with 4");
    in(&table)[3] = 9;
    expect(kes_read_key(in(&table), THREE, in(&key), KES_KEY_SIZE) == KES_TABLE, "a third height of 9 is refused with 3");
    in(&table)[3] = 1, in(&table)[2] = 1;
    expect(kes_read_key(in(&table), THREE, in(&key), KES_KEY_SIZE) == KES_TABLE, "of two trees byte 3 is zero");
    in(&table)[2] = 2;
    expect(memcmp(&other, &table, sizeof table) == 0 && in(&seed)[0] == 7, "a refused make changes nothing");
}

/* Step 4 of 8 is that of the next left leaf, so the middle tree and the right one are new. */
static void moving_three(void)
{
    uint64_t before;
    make3();
    before = tally;
    expect(kes_move(in(&table), THREE, 1, &tally) == (uint64_t)1 << 32 && tally == before + 1, "inside the right tree one key pair is grown");
    expect(kes_move(in(&table), THREE, 2, &tally) == (uint64_t)3 << 32 && tally == before + 5, "the next middle step grows three, and a root is signed");
    expect(kes_catch_up(in(&table), THREE, 3, &tally) == (uint64_t)1 << 32 && kes_move(in(&table), THREE, 4, &tally) == (uint64_t)5 << 32, "the next left step grows five");
    expect(tally == before + 13 && guarded(&table, THREE), "and two roots are signed");
    other = table;
    expect(kes_move(in(&table), THREE, 8, &tally) == KES_PAST_END && kes_move(in(&table), THREE, 4, &tally) == KES_NOT_LATER, "6 and 5 as of two trees");
    expect(memcmp(&other, &table, sizeof table) == 0, "a refused move changes nothing");
}

static uint32_t verify3(uint64_t step, size_t key_len, size_t len, size_t signed_len)
{
    return kes3_verify(1, 1, 1, in(&key), key_len, step, in(&message), len, in(&signature), signed_len);
}

static void verifying_three(void)
{
    moving_three();
    clear(&key);
    clear(&signature);
    expect(kes_read_key(in(&table), THREE, in(&key), KES_KEY_SIZE) == KES_DONE && guarded(&key, KES_KEY_SIZE), "the key of three trees is read");
    expect(kes_sign(in(&table), THREE, in(&message), 40, in(&signature), SIGNED3, &tally) == KES_DONE && guarded(&signature, SIGNED3), "three trees sign");
    expect(kes_sign(in(&table), THREE, in(&message), 40, in(&signature), SIGNED3 - 1, &tally) == KES_LENGTH, "into 448 bytes");
    expect(verify3(4, KES_KEY_SIZE, 40, SIGNED3) == KES_DONE, "the signature of three trees is accepted");
    expect(verify3(0, KES_KEY_SIZE, 40, SIGNED3) == KES_NOT_ACCEPTED && verify3(4, KES_KEY_SIZE, 39, SIGNED3) == KES_NOT_ACCEPTED, "at another step or over another message it is not");
    in(&signature)[SIGNED3 - 64] ^= 1;
    expect(verify3(4, KES_KEY_SIZE, 40, SIGNED3) == KES_NOT_ACCEPTED, "with another root of the middle tree it is not");
    expect(verify3(8, 31, 4097, SIGNED3 + 1) == KES_SEED_OR_KEY && verify3(8, 32, 4097, SIGNED3 + 1) == KES_LENGTH, "2, then 4");
    expect(verify3(8, 32, 4097, SIGNED3) == KES_TOO_LONG && verify3(8, 32, 40, SIGNED3) == KES_PAST_END, "then 7, then 6");
    expect(kes3_verify(0, 0, 9, NULL, 0, 0, NULL, 0, NULL, 0) == KES_HEIGHT, "1 comes first");
}

static void hashing(const char *abc)
{
    char hex[2 * KES_DIGEST_SIZE + 1];
    size_t i;
    clear(&other);
    expect(kes_hash((const uint8_t *)"abc", 3, in(&other), KES_DIGEST_SIZE) == KES_DONE, "abc is hashed");
    for (i = 0; i < KES_DIGEST_SIZE; i++)
        snprintf(hex + 2 * i, 3, "%02x", in(&other)[i]);
    expect(strcmp(hex, abc) == 0 && guarded(&other, KES_DIGEST_SIZE), "the digest of abc, and nothing else");
    expect(kes_hash(NULL, 0, in(&other), KES_DIGEST_SIZE) == KES_DONE, "an empty message is hashed");
    expect(kes_hash(in(&message), KES_MESSAGE_MAX + 1, NULL, 0) == KES_TOO_LONG, "4,097 bytes are refused with 7, before 4");
    expect(kes_hash(in(&message), 3, in(&other), 31) == KES_LENGTH, "a short digest is refused with 4");
}

/* A fresh cache of three entries, from a master seed of sevens and seeds of eights. */
static uint32_t fair_make(void)
{
    clear(&seed);
    clear(&seeds);
    clear(&cache);
    clear(&key);
    memset(in(&seed), 7, KES_SEED_SIZE);
    memset(in(&seeds), 8, kes_fair_seeds_size(N));
    return kes_fair_make(N, in(&seed), KES_SEED_SIZE, in(&seeds), kes_fair_seeds_size(N), in(&cache), kes_fair_cache_size(N), in(&key), KES_KEY_SIZE, &tally);
}

/* The same with these lengths, over what stands there. */
static uint32_t fair_remake(uint64_t n, size_t own, size_t given, size_t size, size_t key_len)
{
    return kes_fair_make(n, in(&seed), own, in(&seeds), given, in(&cache), size, in(&key), key_len, &tally);
}

static void fair_making(void)
{
    static struct guarded before[4];
    expect(fair_make() == KES_DONE, "a cache is made");
    expect(zero(in(&seed), KES_SEED_SIZE) && zero(in(&seeds), 96), "master seed and seeds are zero");
    expect(guarded(&seed, KES_SEED_SIZE) && guarded(&seeds, 96) && guarded(&cache, 388) && guarded(&key, KES_KEY_SIZE), "making a cache writes nothing else");
    before[0] = seed, before[1] = seeds, before[2] = cache, before[3] = key;
    expect(fair_remake(0, 31, 95, 0, 0) == KES_ENTRIES && fair_remake(257, 32, 8224, 0, 0) == KES_ENTRIES, "8 comes first");
    expect(fair_remake((uint64_t)1 << 32, 32, 96, 388, 32) == KES_ENTRIES, "no count wraps into a good one");
    expect(fair_remake(N, 31, 96, 387, 32) == KES_SEED_OR_KEY && fair_remake(N, 32, 97, 388, 31) == KES_SEED_OR_KEY, "2 comes before 4");
    expect(fair_remake(N, 32, 96, 389, 32) == KES_LENGTH && fair_remake(N, 32, 96, 388, 31) == KES_LENGTH, "a wrong cache or key is refused with 4");
    expect(kes_fair_make(N, NULL, 0, NULL, 0, NULL, 0, NULL, 0, &tally) == KES_SEED_OR_KEY, "nothing lent is refused with 2");
    expect(memcmp(&before[0], &seed, sizeof seed) == 0 && memcmp(&before[1], &seeds, sizeof seeds) == 0
        && memcmp(&before[2], &cache, sizeof cache) == 0 && memcmp(&before[3], &key, sizeof key) == 0, "a refused make changes nothing");
}

static void fair_moving(void)
{
    fair_make();
    other = cache;
    expect(kes_fair_move(in(&cache), 388, 2) == KES_DONE, "a cache is moved over a step");
    expect(zero(in(&cache) + 4, 256) && memcmp(in(&cache) + 260, in(&other) + 260, 128) == 0, "entries before the step are zero, and the others stay");
    expect(guarded(&cache, 388), "moving a cache writes nothing else");
    other = cache;
    expect(kes_fair_move(in(&cache), 388, 2) == KES_NOT_LATER, "the cache's step is refused with 5");
    expect(kes_fair_move(in(&cache), 388, N) == KES_PAST_END && kes_fair_move(in(&cache), 388, ((uint64_t)1 << 32) + 2) == KES_PAST_END, "step N is refused with 6, and no step wraps");
    expect(kes_fair_move(in(&cache), 387, N) == KES_TABLE && kes_fair_move(NULL, 0, 0) == KES_TABLE, "a bad cache is refused with 3, before 6 and 5");
    expect(memcmp(&other, &cache, sizeof cache) == 0, "a refused move changes nothing");
}

static void fair_signing(void)
{
    fair_make();
    clear(&signature);
    other = cache;
    expect(kes_fair_sign(in(&cache), 388, NULL, 0, in(&signature), KES_FAIR_SIGNATURE_SIZE, &tally) == KES_DONE, "a cache signs no byte");
    expect(kes_fair_sign(in(&cache), 388, in(&message), 40, in(&signature), KES_FAIR_SIGNATURE_SIZE, &tally) == KES_DONE, "a cache signs");
    expect(guarded(&signature, KES_FAIR_SIGNATURE_SIZE) && memcmp(&other, &cache, sizeof cache) == 0, "a cache's signing writes the signature alone");
    other = signature;
    expect(kes_fair_sign(NULL, 0, in(&message), KES_MESSAGE_MAX + 1, NULL, 0, &tally) == KES_TABLE, "3 comes before 7 and 4");
    expect(kes_fair_sign(in(&cache), 388, in(&message), KES_MESSAGE_MAX + 1, NULL, 0, &tally) == KES_TOO_LONG, "7 comes before 4");
    expect(kes_fair_sign(in(&cache), 388, in(&message), 40, in(&signature), 161, &tally) == KES_LENGTH, "a long output is refused with 4");
    expect(memcmp(&other, &signature, sizeof signature) == 0, "a refused signing changes nothing");
}

static uint32_t fair_verify(uint64_t n, uint64_t step, size_t key_len, size_t len, size_t signed_len)
{
    return kes_fair_verify(n, in(&key), key_len, step, in(&message), len, in(&signature), signed_len);
}

static void fair_verifying(void)
{
    fair_signing();
    expect(fair_verify(N, 0, 32, 40, 160) == KES_DONE, "the fair's signature is accepted");
    expect(fair_verify(N, 1, 32, 40, 160) == KES_NOT_ACCEPTED && fair_verify(N, 0, 32, 39, 160) == KES_NOT_ACCEPTED, "at another step or over another message it is not");
    expect(fair_verify(N, N, 32, 40, 160) == KES_PAST_END, "step N is refused with 6, not taken modulo N");
    expect(fair_verify(257, N, 31, KES_MESSAGE_MAX + 1, 0) == KES_ENTRIES && fair_verify(0, 0, 32, 40, 160) == KES_ENTRIES, "8 comes first");
    expect(fair_verify(N, N, 31, KES_MESSAGE_MAX + 1, 0) == KES_SEED_OR_KEY, "then 2");
    expect(fair_verify(N, N, 32, KES_MESSAGE_MAX + 1, 161) == KES_LENGTH, "then 4");
    expect(fair_verify(N, N, 32, KES_MESSAGE_MAX + 1, 160) == KES_TOO_LONG, "then 7, before 6");
}

/* A plain tree of height 2 in table, from a seed of sevens. */
static uint32_t plain_fill(void)
{
    clear(&seed);
    clear(&table);
    memset(in(&seed), 7, KES_SEED_SIZE);
    return kes_plain_fill(2, in(&seed), KES_SEED_SIZE, in(&table), 480, &tally);
}

static void plain_filling(void)
{
    expect(plain_fill() == KES_DONE, "a plain table is filled");
    expect(zero(in(&seed), KES_SEED_SIZE), "the lent seed is zero");
    expect(guarded(&seed, KES_SEED_SIZE) && guarded(&table, 480), "filling writes nothing else");
    memset(in(&seed), 7, KES_SEED_SIZE);
    other = table;
    expect(kes_plain_fill(9, NULL, 0, NULL, 0, &tally) == KES_HEIGHT, "height 9 is refused with 1");
    expect(kes_plain_fill(((uint64_t)1 << 32) + 2, in(&seed), 32, in(&table), 480, &tally) == KES_HEIGHT, "no plain height wraps into a good one");
    expect(kes_plain_fill(2, in(&seed), 31, in(&table), 479, &tally) == KES_SEED_OR_KEY, "a short seed is refused with 2, before 4");
    expect(kes_plain_fill(2, in(&seed), 32, in(&table), 481, &tally) == KES_LENGTH, "a long table is refused with 4");
    expect(memcmp(&other, &table, sizeof table) == 0 && in(&seed)[0] == 7, "a refused fill changes nothing");
}

static void plain_reading(void)
{
    plain_fill();
    clear(&key);
    clear(&signature);
    other = table;
    expect(kes_plain_root(2, in(&table), 480, in(&key), 32) == KES_DONE && memcmp(in(&key), in(&table), 32) == 0, "the root stands first");
    expect(kes_plain_path(2, in(&table), 480, 3, in(&signature), 64) == KES_DONE, "a path is read");
    expect(memcmp(in(&signature), in(&table) + 160, 32) == 0 && memcmp(in(&signature) + 32, in(&table) + 32, 32) == 0, "its witnesses are the siblings, from the leaf upwards");
    expect(guarded(&key, 32) && guarded(&signature, 64) && memcmp(&other, &table, sizeof table) == 0, "reading writes what is read alone");
    expect(kes_plain_root(9, NULL, 0, NULL, 0) == KES_HEIGHT && kes_plain_path(9, NULL, 0, 4, NULL, 0) == KES_HEIGHT, "1 comes first");
    expect(kes_plain_root(2, in(&table), 479, in(&key), 32) == KES_LENGTH && kes_plain_root(2, in(&table), 480, in(&key), 31) == KES_LENGTH, "a wrong table or root is refused with 4");
    expect(kes_plain_path(2, in(&table), 480, 4, in(&signature), 65) == KES_LENGTH && kes_plain_path(2, in(&table), 480, 4, in(&signature), 64) == KES_PAST_END, "4 comes before 6");
    expect(kes_plain_path(0, in(&table), 96, 0, NULL, 0) == KES_DONE, "a tree of height 0 has a path of no byte");
}

static void plain_signing(void)
{
    uint8_t digest[32];
    plain_fill();
    clear(&signature);
    expect(kes_plain_sign(2, in(&table), 480, 1, in(&message), 40, in(&signature), 160, &tally) == KES_DONE, "a leaf signs");
    expect(guarded(&signature, 160), "a leaf's signing writes the signature alone");
    expect(kes_hash(in(&signature), 32, digest, 32) == KES_DONE && memcmp(digest, in(&table) + 128, 32) == 0, "it begins with the leaf's vk");
    other = signature;
    expect(kes_plain_sign(2, in(&table), 480, 4, in(&message), KES_MESSAGE_MAX + 1, in(&signature), 161, &tally) == KES_LENGTH, "4 comes before 7");
    expect(kes_plain_sign(2, in(&table), 480, 4, in(&message), KES_MESSAGE_MAX + 1, in(&signature), 160, &tally) == KES_TOO_LONG, "7 comes before 6");
    expect(kes_plain_sign(2, in(&table), 480, 4, in(&message), 40, in(&signature), 160, &tally) == KES_PAST_END, "leaf 4 of 4 is refused with 6");
    expect(memcmp(&other, &signature, sizeof signature) == 0, "a refused signing changes nothing");
}

/* Each asking of Ed25519 makes the tally one more; after 2^64 - 1 comes 0. */
static void tallying(void)
{
    size_t size = kes_table_size(H1, H2);
    tally = UINT64_MAX - 1;
    make();
    expect(tally == 5, "making asks for six keys and a signature");
    expect(kes_number(kes_move(in(&table), size, 5, &tally)) == KES_DONE && tally == 11, "moving across asks for five keys and a signature");
    expect(kes_number(kes_move(in(&table), size, 7, &tally)) == KES_DONE && tally == 13, "moving inside the child asks for two keys");
    expect(kes_sign(in(&table), size, NULL, 0, in(&signature), kes_signature_size(H1, H2), &tally) == KES_DONE && tally == 14, "signing asks once");
    expect(fair_make() == KES_DONE && tally == 21, "making a cache of three asks seven times");
    expect(plain_fill() == KES_DONE && tally == 25, "filling a plain tree of height 2 asks four times");
    tally = 21;
    expect(kes_fair_sign(in(&cache), 388, NULL, 0, in(&signature), KES_FAIR_SIGNATURE_SIZE, &tally) == KES_DONE && tally == 22, "a cache's signing asks once");
    making();
    expect(tally == 29, "a refusal leaves the tally");
}

static void indexing(void)
{
    static struct kes_card cards[KES_CARDS + 1];
    const uint64_t most = UINT32_MAX, last = UINT64_C(9999999999999999);
    uint64_t held = 0;
    memset(cards, FILL, sizeof cards);
    expect(kes_card_find(cards, KES_CARDS, 0, 7) == 0, "an empty index has no card");
    held = kes_held(kes_card_enter(cards, KES_CARDS, held, last, 2000000));
    held = kes_held(kes_card_enter(cards, KES_CARDS, held, 7, 1));
    expect(kes_card_enter(cards, KES_CARDS, held, last, 5) == (uint64_t)2 << 32, "a card more of two is two held");
    expect(cards[0].card == 7 && cards[0].count == 1 && cards[0].cents == 1, "the lower card is first");
    expect(cards[1].card == last && cards[1].count == 2 && cards[1].cents == 2000005, "a line more is added");
    expect(kes_place(kes_card_find(cards, KES_CARDS, 2, last)) == 2 && kes_card_find(cards, KES_CARDS, 2, 8) == 0, "a card is found, or none");
    expect(kes_card_enter(cards, KES_CARDS + 1, 2, 7, 1) == KES_LENGTH && kes_card_find(cards, 0, 0, 7) == KES_LENGTH, "1,024 entries are lent");
    expect(kes_card_enter(cards, KES_CARDS, 3, 7, 0) == KES_TABLE && kes_card_find(cards, KES_CARDS, KES_CARDS + 1, 7) == KES_TABLE, "a damaged index is refused");
    expect(kes_card_enter(cards, KES_CARDS, 2, last + 1, 1) == KES_CARD_OR_AMOUNT && kes_card_find(cards, KES_CARDS, 2, last + 1) == KES_CARD_OR_AMOUNT, "a card has 16 digits");
    expect(kes_card_enter(cards, KES_CARDS, 2, 7, 0) == KES_CARD_OR_AMOUNT && kes_card_enter(cards, KES_CARDS, 2, 7, 2000001) == KES_CARD_OR_AMOUNT, "cents are 1 to 2,000,000");
    cards[0].count = cards[0].cents = most;
    expect(kes_card_enter(cards, KES_CARDS, 2, 7, 1) == KES_COUNT_FULL && cards[0].count == most, "a full count is refused");
    for (held = 0; held < KES_CARDS; held++)
        expect(kes_held(kes_card_enter(cards, KES_CARDS, held, last - held, 1)) == held + 1, "a card more is held");
    expect(kes_card_enter(cards, KES_CARDS, held, 7, 1) == KES_FULL, "a 1,025th card is refused");
    expect(cards[KES_CARDS].card == cards[KES_CARDS].cents && cards[KES_CARDS].card == UINT64_C(0xa5a5a5a5a5a5a5a5), "nothing past the table is written");
}

static void wiping(void)
{
    make();
    other = table;
    kes_wipe();
    expect(memcmp(&other, &table, sizeof table) == 0, "wiping changes nothing that is lent");
}

int main(int argc, char **argv)
{
    if (argc != 2)
        return 2;
    clear(&message);
    sizes();
    signed_sizes(2, N);
    making();
    careless();
    moving();
    catching_up();
    releasing();
    verifying();
    making_three();
    verifying_three();
    hashing(argv[1]);
    fair_making();
    fair_moving();
    fair_verifying();
    plain_filling();
    plain_reading();
    plain_signing();
    tallying();
    indexing();
    wiping();
    if (failures == 0)
        puts("kes_test: every call answers as it must");
    return failures != 0;
}
