/* A host whose memory is searched from outside (trace.py): it answers requests and keeps nothing of them but its table or cache.
 * Requests come by read, answers go by write, since stdio would keep copies in buffers of its own.
 * A request: op, h1, h2, h3 (which a key of two trees has not), step (4 bytes; a fair's N at its making), which asking of Ed25519 is not answered (4; the first is 1, and 0
 * says none), length (4), that many bytes, straight to where the call takes them from; a fair's master seed stands before its seeds.
 * An answer: 8 bytes; after signing, the signature too. Numbers are as the machine keeps them. */
#include <stdlib.h>
#include <unistd.h>

#include "kes.h"

enum { MAKE, MAKE3, MOVE, SIGN, WIPE, FAIR_MAKE, FAIR_MOVE, FAIR_SIGN };

struct request {
    uint8_t op, h1, h2, h3;
    uint32_t step, silent, len;
};

static uint8_t seed[KES_SEED_SIZE], table[KES_TABLE_MAX], message[KES_MESSAGE_MAX], signature[KES_SIGNATURE_MAX];
static uint8_t seeds[KES_FAIR_SEEDS_SIZE(KES_FAIR_MAX)], cache[KES_FAIR_CACHE_MAX], key[KES_KEY_SIZE];
static size_t table_len, cache_len, signature_len;
static uint64_t tally;
static uint32_t silent;

/* The linker puts these before the adapter's functions. */
uint32_t __real_desk_ed25519_public_key(uint64_t number, const uint8_t *secret, uint8_t *out);
uint32_t __real_desk_ed25519_sign(uint64_t number, const uint8_t *secret, const uint8_t *text, size_t len, uint8_t *out);
uint32_t __wrap_desk_ed25519_public_key(uint64_t number, const uint8_t *secret, uint8_t *out);
uint32_t __wrap_desk_ed25519_sign(uint64_t number, const uint8_t *secret, const uint8_t *text, size_t len, uint8_t *out);

/* A module that drops out after its work, so that it leaves what it worked on. */
uint32_t __wrap_desk_ed25519_public_key(uint64_t number, const uint8_t *secret, uint8_t *out)
{
    uint32_t answer = __real_desk_ed25519_public_key(number, secret, out);
    return silent > 0 && --silent == 0 ? 0 : answer;
}

uint32_t __wrap_desk_ed25519_sign(uint64_t number, const uint8_t *secret, const uint8_t *text, size_t len, uint8_t *out)
{
    uint32_t answer = __real_desk_ed25519_sign(number, secret, text, len, out);
    return silent > 0 && --silent == 0 ? 0 : answer;
}

/* A pipe may hand out a fair's seeds in pieces. */
static int got(void *to, size_t len)
{
    uint8_t *at = to;
    while (len > 0) {
        ssize_t more = read(STDIN_FILENO, at, len);
        if (more <= 0)
            return 0;
        at += more;
        len -= (size_t)more;
    }
    return 1;
}

static void give(const void *from, size_t len)
{
    if (write(STDOUT_FILENO, from, len) != (ssize_t)len)
        exit(1);
}

static uint64_t make(const struct request *r)
{
    int two = r->op == MAKE;
    uint64_t answer, end = two ? kes_steps(r->h1, r->h2) : kes3_steps(r->h1, r->h2, r->h3);
    table_len = two ? kes_table_size(r->h1, r->h2) : kes3_table_size(r->h1, r->h2, r->h3);
    signature_len = two ? kes_signature_size(r->h1, r->h2) : kes3_signature_size(r->h1, r->h2, r->h3);
    if (r->len != sizeof seed || !got(seed, sizeof seed))
        exit(1);
    answer = two ? kes_make(r->h1, r->h2, seed, sizeof seed, table, table_len, &tally)
                 : kes3_make(r->h1, r->h2, r->h3, seed, sizeof seed, table, table_len, &tally);
    if (kes_number(answer) == KES_DONE && (kes_release(table, table_len, 0, end) != KES_DONE || kes_release(table, table_len, 1, end) != KES_DONE))
        exit(1);
    return answer;
}

static uint64_t sign(const struct request *r)
{
    if (r->len > sizeof message || !got(message, r->len))
        exit(1);
    return r->op == SIGN ? kes_sign(table, table_len, message, r->len, signature, signature_len, &tally)
                         : kes_fair_sign(cache, cache_len, message, r->len, signature, signature_len, &tally);
}

static uint64_t fair_make(const struct request *r)
{
    size_t seeds_len = kes_fair_seeds_size(r->step);
    cache_len = kes_fair_cache_size(r->step);
    signature_len = KES_FAIR_SIGNATURE_SIZE;
    if (r->len != sizeof seed + seeds_len || !got(seed, sizeof seed) || !got(seeds, seeds_len))
        exit(1);
    return kes_fair_make(r->step, seed, sizeof seed, seeds, seeds_len, cache, cache_len, key, sizeof key, &tally);
}

static uint64_t answered(const struct request *r)
{
    switch (r->op) {
    case MAKE:
    case MAKE3: return make(r);
    case MOVE: return kes_move(table, table_len, r->step, &tally);
    case FAIR_MAKE: return fair_make(r);
    case FAIR_MOVE: return kes_fair_move(cache, cache_len, r->step);
    case SIGN:
    case FAIR_SIGN: return sign(r);
    case WIPE: kes_wipe(); return 0;
    default: exit(1);
    }
}

int main(void)
{
    struct request r;
    uint64_t answer;
    while (got(&r, sizeof r)) {
        silent = r.silent;
        answer = answered(&r);
        give(&answer, sizeof answer);
        if (r.op == SIGN || r.op == FAIR_SIGN)
            give(signature, signature_len);
    }
    return 0;
}
