/* A fuzzer's target: a good call with the input laid over it, made as host/test/lib/lent.h says, over both adapters.
 * The fuzzer cannot see into the library. It sees due(), which says the number that document 01 and requests 1, 3, 4, 7, 8 and 11 want, by kes.h's sizes. */
#include <string.h>

#include "../test/lib/lent.h"
#include "input.h"
#include "kes.h"

enum { H1 = 1, H2 = 2, STEPS = 8, N = 3, PLAIN_H = 2, LEAVES = 4 };
/* of as many steps */
enum { LEFT = 1, MIDDLE = 1, RIGHT = 1 };

static const uint8_t message[] = "111122223333444412500";
static uint8_t key[KES_KEY_SIZE], tables[STEPS][KES_TABLE_SIZE(H1, H2)], signatures[STEPS][KES_SIGNATURE_SIZE(H1, H2)];
static uint8_t key3[KES_KEY_SIZE], tables3[STEPS][KES3_TABLE_SIZE(LEFT, MIDDLE, RIGHT)], signatures3[STEPS][KES3_SIGNATURE_SIZE(LEFT, MIDDLE, RIGHT)];
static uint8_t fair_key[KES_KEY_SIZE], caches[N][KES_FAIR_CACHE_SIZE(N)], sales[N][KES_FAIR_SIGNATURE_SIZE];
static uint8_t tree[KES_PLAIN_TABLE_SIZE(PLAIN_H)];
static struct request request;
static struct outcome outcome;
static uint64_t tally;

static void need(uint64_t answer)
{
    if (kes_number(answer) != KES_DONE)
        wrong("a good call is refused");
}

int LLVMFuzzerInitialize(int *argc, char ***argv);
int LLVMFuzzerTestOneInput(const uint8_t *data, size_t size);

/* A fair's cache and signature at each of its steps. */
static void make_fair(void)
{
    uint8_t master[KES_SEED_SIZE] = {1}, seeds[KES_FAIR_SEEDS_SIZE(N)] = {2};
    size_t i;
    need(kes_fair_make(N, master, sizeof master, seeds, sizeof seeds, caches[0], sizeof caches[0], fair_key, sizeof fair_key, &tally));
    for (i = 0; i < N; i++) {
        if (i > 0) {
            memcpy(caches[i], caches[i - 1], sizeof caches[i]);
            need(kes_fair_move(caches[i], sizeof caches[i], i));
        }
        need(kes_fair_sign(caches[i], sizeof caches[i], message, sizeof message, sales[i], sizeof sales[i], &tally));
    }
}

/* A made key's table and signature at each of its steps, the first table of which stands there. */
static void live(uint8_t *first, size_t table_len, uint8_t *signed_first, size_t signature_len, uint8_t *own_key)
{
    size_t i;
    need(kes_read_key(first, table_len, own_key, KES_KEY_SIZE));
    need(kes_release(first, table_len, 0, STEPS - 1));
    need(kes_release(first, table_len, 1, STEPS));
    for (i = 0; i < STEPS; i++) {
        uint8_t *table = first + i * table_len;
        if (i > 0) {
            memcpy(table, table - table_len, table_len);
            need(kes_move(table, table_len, i, &tally));
        }
        need(kes_sign(table, table_len, message, sizeof message, signed_first + i * signature_len, signature_len, &tally));
    }
}

int LLVMFuzzerInitialize(int *argc, char ***argv)
{
    uint8_t seed[KES_SEED_SIZE] = {0}, seed3[KES_SEED_SIZE] = {4}, plain_seed[KES_SEED_SIZE] = {3};
    (void)argc, (void)argv;
    lend_start();
    make_fair();
    need(kes_plain_fill(PLAIN_H, plain_seed, sizeof plain_seed, tree, sizeof tree, &tally));
    need(kes_make(H1, H2, seed, sizeof seed, tables[0], sizeof tables[0], &tally));
    live(tables[0], sizeof tables[0], signatures[0], sizeof signatures[0], key);
    need(kes3_make(LEFT, MIDDLE, RIGHT, seed3, sizeof seed3, tables3[0], sizeof tables3[0], &tally));
    live(tables3[0], sizeof tables3[0], signatures3[0], sizeof signatures3[0], key3);
    return 0;
}

static void lay(size_t i, const void *bytes, size_t len)
{
    request.len[i] = len;
    if (bytes != NULL)
        memcpy(request.bytes[i], bytes, len);
}

/* A good call at a step of the fair. */
static void lay_good_fair(int op, uint64_t step)
{
    request.op = op, request.h1 = N, request.step = op == FAIR_MOVE ? step + 1 : step;
    if (op == FAIR_MAKE)
        lay(0, NULL, KES_SEED_SIZE), lay(1, NULL, KES_FAIR_SEEDS_SIZE(N)), lay(2, NULL, sizeof caches[step]), lay(3, NULL, KES_KEY_SIZE);
    if (op == FAIR_MOVE || op == FAIR_SIGN)
        lay(0, caches[step], sizeof caches[step]);
    if (op == FAIR_VERIFY)
        lay(0, fair_key, sizeof fair_key), lay(2, sales[step], sizeof sales[step]);
    if (op == FAIR_SIGN || op == FAIR_VERIFY)
        lay(1, message, sizeof message);
    if (op == FAIR_SIGN)
        lay(2, NULL, sizeof sales[step]);
}

/* A good call at a leaf of the plain tree. */
static void lay_good_plain(int op, uint64_t leaf)
{
    request.op = op, request.h1 = PLAIN_H, request.step = leaf;
    if (op == PLAIN_FILL)
        lay(0, NULL, KES_SEED_SIZE), lay(1, NULL, sizeof tree);
    else
        lay(0, tree, sizeof tree);
    if (op == PLAIN_ROOT || op == PLAIN_PATH)
        lay(1, NULL, op == PLAIN_ROOT ? KES_DIGEST_SIZE : KES_PLAIN_PATH_SIZE(PLAIN_H));
    if (op == PLAIN_SIGN)
        lay(1, message, sizeof message), lay(2, NULL, KES_PLAIN_SIGNATURE_SIZE(PLAIN_H));
}

/* What a good call of the key of two trees, or of three, is lent. */
static void lay_key(int op, uint64_t step, int three)
{
    if (op == READ_KEY || op == MOVE || op == CATCH_UP || op == RELEASE || op == SIGN)
        lay(0, three ? tables3[step] : tables[step], three ? sizeof tables3[0] : sizeof tables[0]);
    if (op == MAKE || op == MAKE3)
        lay(0, NULL, KES_SEED_SIZE), lay(1, NULL, three ? sizeof tables3[0] : sizeof tables[0]);
    if (op == VERIFY)
        lay(0, key, sizeof key), lay(2, signatures[step], sizeof signatures[step]);
    if (op == VERIFY3)
        lay(0, key3, sizeof key3), lay(2, signatures3[step], sizeof signatures3[step]);
    if (op == SIGN)
        lay(2, NULL, three ? sizeof signatures3[0] : sizeof signatures[0]);
}

/* A good call at a step of the key of two trees, or of three. */
static void lay_good(int op, uint64_t step, int three)
{
    request.op = op, request.step = op == MOVE || op == CATCH_UP ? step + 1 : op == RELEASE ? STEPS : step;
    request.h1 = op == RELEASE ? 0 : three ? LEFT : H1, request.h2 = three ? MIDDLE : H2, request.h3 = three ? RIGHT : 0;
    lay_key(op, step, three);
    if (op == READ_KEY || op == HASH)
        lay(1, NULL, KES_KEY_SIZE);
    if (op == SIGN || op == VERIFY || op == VERIFY3)
        lay(1, message, sizeof message);
}

/* A length somewhat off, or beside the longest message. */
static size_t off(size_t len, uint8_t by)
{
    size_t longer = len + by;
    if (by >= 128)
        return KES_MESSAGE_MAX + by % 4 - 1;
    return by == 0 ? len : longer < 64 ? 0 : longer - 64;
}

static uint64_t four_bytes(const uint8_t *at) { return at[0] | (uint64_t)at[1] << 8 | (uint64_t)at[2] << 16 | (uint64_t)at[3] << 24; }

static uint64_t step_of(const uint8_t *table) { return four_bytes(table + 4); }

static uint64_t number_of(const uint8_t *table, uint64_t window) { return four_bytes(table + 8 + 4 * window); }

static uint64_t two_bytes(const uint8_t *cache) { return cache[0] | (uint64_t)cache[1] << 8; }

static int fair_well_formed(const uint8_t *cache, size_t len)
{
    return len >= 4 && KES_FAIR_FITS(two_bytes(cache)) && len == kes_fair_cache_size(two_bytes(cache)) && two_bytes(cache + 2) < two_bytes(cache);
}

/* Byte 2 says how many trees there are. What it says wrongly has no size and no step. */
static int two(const uint8_t *table) { return table[2] == 1 && table[3] == 0; }
static int three(const uint8_t *table) { return table[2] == 2; }

static size_t table_size(const uint8_t *table)
{
    return two(table) ? kes_table_size(table[0], table[1]) : three(table) ? kes3_table_size(table[0], table[1], table[3]) : 0;
}

static size_t signature_size(const uint8_t *table)
{
    return two(table) ? kes_signature_size(table[0], table[1]) : kes3_signature_size(table[0], table[1], table[3]);
}

static uint64_t steps(const uint8_t *table)
{
    return two(table) ? kes_steps(table[0], table[1]) : three(table) ? kes3_steps(table[0], table[1], table[3]) : 0;
}

static int well_formed(const uint8_t *table, size_t len)
{
    return len >= 16 && len == table_size(table) && step_of(table) < steps(table) && number_of(table, 0) <= steps(table) && number_of(table, 1) <= steps(table);
}

static uint32_t due_to_make(const struct request *r)
{
    size_t size = r->op == MAKE ? kes_table_size(r->h1, r->h2) : kes3_table_size(r->h1, r->h2, r->h3);
    if (size == 0)
        return KES_HEIGHT;
    if (r->len[0] != KES_SEED_SIZE)
        return KES_SEED_OR_KEY;
    return r->len[1] != size ? KES_LENGTH : KES_DONE;
}

static uint32_t due_to_move(const struct request *r)
{
    const uint8_t *table = r->bytes[0];
    if (r->step >= steps(table))
        return KES_PAST_END;
    if (r->step <= step_of(table))
        return r->op == MOVE ? KES_NOT_LATER : KES_DONE;
    return r->step > number_of(table, 0) || r->step > number_of(table, 1) ? KES_NOT_RELEASED : KES_DONE;
}

static uint32_t due_to_release(const struct request *r)
{
    const uint8_t *table = r->bytes[0];
    if (r->h1 > 1)
        return KES_WINDOW;
    return r->step < number_of(table, r->h1) || r->step > steps(table) ? KES_LOWERED : KES_DONE;
}

static uint32_t due_to_sign(const struct request *r)
{
    const uint8_t *table = r->bytes[0];
    if (r->len[1] > KES_MESSAGE_MAX)
        return KES_TOO_LONG;
    return r->len[2] != signature_size(table) ? KES_LENGTH : KES_DONE;
}

static uint32_t due_to_hash(const struct request *r)
{
    if (r->len[0] > KES_MESSAGE_MAX)
        return KES_TOO_LONG;
    return r->len[1] != KES_DIGEST_SIZE ? KES_LENGTH : KES_DONE;
}

/* Only what an honest signer signed is accepted. */
static int honest(const struct request *r)
{
    if (r->len[1] != sizeof message || memcmp(r->bytes[1], message, sizeof message) != 0)
        return 0;
    if (r->op == VERIFY)
        return r->h1 == H1 && r->h2 == H2 && memcmp(r->bytes[0], key, sizeof key) == 0 && memcmp(r->bytes[2], signatures[r->step], sizeof signatures[0]) == 0;
    return r->h1 == LEFT && r->h2 == MIDDLE && r->h3 == RIGHT && memcmp(r->bytes[0], key3, sizeof key3) == 0
        && memcmp(r->bytes[2], signatures3[r->step], sizeof signatures3[0]) == 0;
}

static uint32_t due_to_verify(const struct request *r)
{
    size_t size = r->op == VERIFY ? kes_signature_size(r->h1, r->h2) : kes3_signature_size(r->h1, r->h2, r->h3);
    if (size == 0)
        return KES_HEIGHT;
    if (r->len[0] != KES_KEY_SIZE)
        return KES_SEED_OR_KEY;
    if (r->len[2] != size)
        return KES_LENGTH;
    if (r->len[1] > KES_MESSAGE_MAX)
        return KES_TOO_LONG;
    if (r->step >= (r->op == VERIFY ? kes_steps(r->h1, r->h2) : kes3_steps(r->h1, r->h2, r->h3)))
        return KES_PAST_END;
    return honest(r) ? KES_DONE : KES_NOT_ACCEPTED;
}

static uint32_t due_to_fair_make(const struct request *r)
{
    if (!KES_FAIR_FITS(r->h1))
        return KES_ENTRIES;
    if (r->len[0] != KES_SEED_SIZE || r->len[1] != kes_fair_seeds_size(r->h1))
        return KES_SEED_OR_KEY;
    return r->len[2] != kes_fair_cache_size(r->h1) || r->len[3] != KES_KEY_SIZE ? KES_LENGTH : KES_DONE;
}

static int fair_honest(const struct request *r)
{
    return r->step < N && r->len[1] == sizeof message && memcmp(r->bytes[1], message, sizeof message) == 0
        && memcmp(r->bytes[0], fair_key, sizeof fair_key) == 0 && memcmp(r->bytes[2], sales[r->step], sizeof sales[0]) == 0;
}

static uint32_t due_to_fair_verify(const struct request *r)
{
    if (!KES_FAIR_FITS(r->h1))
        return KES_ENTRIES;
    if (r->len[0] != KES_KEY_SIZE)
        return KES_SEED_OR_KEY;
    if (r->len[2] != KES_FAIR_SIGNATURE_SIZE)
        return KES_LENGTH;
    if (r->len[1] > KES_MESSAGE_MAX)
        return KES_TOO_LONG;
    if (r->step >= r->h1)
        return KES_PAST_END;
    return fair_honest(r) ? KES_DONE : KES_NOT_ACCEPTED;
}

/* The number that request 3 has for a call of the fair. */
static uint32_t fair_due(const struct request *r)
{
    const uint8_t *cache = r->bytes[0];
    if (r->op == FAIR_MAKE)
        return due_to_fair_make(r);
    if (r->op == FAIR_VERIFY)
        return due_to_fair_verify(r);
    if (!fair_well_formed(cache, r->len[0]))
        return KES_TABLE;
    if (r->op == FAIR_MOVE)
        return r->step >= two_bytes(cache) ? KES_PAST_END : r->step <= two_bytes(cache + 2) ? KES_NOT_LATER : KES_DONE;
    if (r->len[1] > KES_MESSAGE_MAX)
        return KES_TOO_LONG;
    return r->len[2] != KES_FAIR_SIGNATURE_SIZE ? KES_LENGTH : KES_DONE;
}

/* The length of what a call of the plain engine writes out. */
static size_t plain_out(const struct request *r)
{
    if (r->op == PLAIN_ROOT)
        return KES_DIGEST_SIZE;
    return r->op == PLAIN_PATH ? kes_plain_path_size(r->h1) : kes_plain_signature_size(r->h1);
}

/* The number that request 7 has for a call of the plain engine. */
static uint32_t plain_due(const struct request *r)
{
    if (!KES_PLAIN_FITS(r->h1))
        return KES_HEIGHT;
    if (r->op == PLAIN_FILL && r->len[0] != KES_SEED_SIZE)
        return KES_SEED_OR_KEY;
    if (r->len[r->op == PLAIN_FILL ? 1 : 0] != kes_plain_table_size(r->h1))
        return KES_LENGTH;
    if (r->op == PLAIN_FILL)
        return KES_DONE;
    if (r->len[r->op == PLAIN_SIGN ? 2 : 1] != plain_out(r))
        return KES_LENGTH;
    if (r->op == PLAIN_SIGN && r->len[1] > KES_MESSAGE_MAX)
        return KES_TOO_LONG;
    return r->op != PLAIN_ROOT && r->step >> r->h1 != 0 ? KES_PAST_END : KES_DONE;
}

/* The number that document 01's table has for a call that is answered. */
static uint32_t due_if_answered(const struct request *r)
{
    if (r->op >= PLAIN_FILL)
        return plain_due(r);
    if (r->op >= FAIR_MAKE)
        return fair_due(r);
    if (r->op == MAKE || r->op == MAKE3)
        return due_to_make(r);
    if (r->op == VERIFY || r->op == VERIFY3)
        return due_to_verify(r);
    if (r->op == HASH)
        return due_to_hash(r);
    if (!well_formed(r->bytes[0], r->len[0]))
        return KES_TABLE;
    if (r->op == READ_KEY)
        return r->len[1] != KES_KEY_SIZE ? KES_LENGTH : KES_DONE;
    if (r->op == RELEASE)
        return due_to_release(r);
    return r->op == SIGN ? due_to_sign(r) : due_to_move(r);
}

/* The keys of a half that is entered, where two steps part. */
static uint64_t half(uint64_t a, uint64_t b) { return (uint64_t)1 << (63 - __builtin_clzll(a ^ b)); }

/* How often trees are asked for of which the first enters a half and all below are new: that half, and each other's leaves and root. */
static uint64_t moved(uint64_t from, uint64_t to, const uint64_t *heights, size_t trees)
{
    uint64_t inner = 0, all = 0;
    size_t i;
    for (i = 1; i < trees; i++)
        inner += heights[i], all += ((uint64_t)1 << heights[i]) + 1;
    if (trees > 1 && from >> inner == to >> inner)
        return moved(from & (((uint64_t)1 << inner) - 1), to & (((uint64_t)1 << inner) - 1), heights + 1, trees - 1);
    return half(from >> inner, to >> inner) + all;
}

static uint64_t askings_to_move(const struct request *r)
{
    const uint8_t *table = r->bytes[0];
    const uint64_t heights[3] = {table[0], table[1], table[3]};
    return r->step <= step_of(table) ? 0 : moved(step_of(table), r->step, heights, two(table) ? 2 : 3);
}

/* How often a good call asks Ed25519 for a key or a signature. */
static uint64_t askings(const struct request *r)
{
    switch (r->op) {
    case MAKE: return ((uint64_t)1 << r->h1) + ((uint64_t)1 << r->h2) + 1;
    case MAKE3: return ((uint64_t)1 << r->h1) + ((uint64_t)1 << r->h2) + ((uint64_t)1 << r->h3) + 2;
    case CATCH_UP:
    case MOVE: return askings_to_move(r);
    case FAIR_MAKE: return 2 * r->h1 + 1;
    case PLAIN_FILL: return (uint64_t)1 << r->h1;
    default: return r->op == SIGN || r->op == FAIR_SIGN || r->op == PLAIN_SIGN;
    }
}

static uint32_t due(const struct request *r)
{
    uint32_t number = due_if_answered(r);
    uint64_t left = number == KES_DONE ? askings(r) : 0, at;
    for (at = r->tally; left > 0; left--, at++)
        if (r->every != 0 && at % r->every == r->silent)
            return KES_UNANSWERED;
    return number;
}

/* A good call by the key of two trees, or of three where the byte is odd, or the call has no other. */
static void lay_step(int op, uint8_t byte)
{
    int odd = op == MAKE3 || op == VERIFY3 || (op != MAKE && op != VERIFY && byte % 2 == 1);
    lay_good(op, byte / 2 % (op == MOVE ? STEPS - 1 : STEPS), odd);
}

int LLVMFuzzerTestOneInput(const uint8_t *data, size_t size)
{
    struct input in = {data, size};
    size_t i;
    int op = next(&in) % CALLS;
    memset(&request, 0, sizeof request);
    if (op >= PLAIN_FILL)
        lay_good_plain(op, next(&in) % LEAVES);
    else if (op >= FAIR_MAKE)
        lay_good_fair(op, next(&in) % (op == FAIR_MOVE ? N - 1 : N));
    else
        lay_step(op, next(&in));
    request.h1 ^= wide(&in), request.h2 ^= wide(&in), request.h3 ^= wide(&in), request.step ^= wide(&in);
    request.tally = 0 - wide(&in), request.every = next(&in) % 16;
    request.silent = request.every == 0 ? 0 : next(&in) % request.every;
    for (i = 0; i < LENT; i++)
        request.len[i] = off(request.len[i], next(&in));
    while (in.left > 0) {
        i = next(&in) % LENT;
        patch(&in, request.bytes[i], request.len[i]);
    }
    lend(&request, &outcome);
    if (kes_number(outcome.answer) != due(&request))
        wrong("the library answers another number than is due");
    return 0;
}
