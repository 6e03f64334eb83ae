#include <string.h>

#include <sodium.h>

#include "../../desk/adapter.h"
#include "kes.h"
#include "plain_fair.h"

enum { HEADER = 4, FIELD = 32, SIGNED = 64, ENTRY = SIGNED + 2 * FIELD, SECRET_AT = SIGNED, VK_AT = SIGNED + FIELD, VOUCHED = 4 + FIELD };

struct header {
    size_t n, step;
};

static size_t two_bytes(const uint8_t *at) { return at[0] | (size_t)at[1] << 8; }

static void put_two_bytes(uint8_t *at, size_t number)
{
    at[0] = (uint8_t)number;
    at[1] = (uint8_t)(number >> 8);
}

static int read_header(const uint8_t *cache, size_t len, struct header *found)
{
    if (len < HEADER)
        return 0;
    found->n = two_bytes(cache);
    found->step = two_bytes(cache + 2);
    return KES_FAIR_FITS(found->n) && found->step < found->n && len == kes_fair_cache_size(found->n);
}

/* What the master signs for a step. */
static void vouch(uint64_t step, const uint8_t *vk, uint8_t out[VOUCHED])
{
    size_t i;
    for (i = 0; i < 4; i++)
        out[i] = (uint8_t)(step >> 8 * i);
    memcpy(out + 4, vk, FIELD);
}

/* Asks for everything first, into vks and signatures of its own, and only then writes; answers whether all was answered. */
static int make(size_t n, uint8_t *master, uint8_t *seeds, uint8_t *cache, uint8_t *key, uint64_t *tally)
{
    uint8_t signatures[KES_FAIR_MAX][SIGNED], vks[KES_FAIR_MAX][FIELD], text[VOUCHED], masters[FIELD];
    size_t i;
    if (desk_ed25519_public_key((*tally)++, master, masters) != 1)
        return 0;
    for (i = 0; i < n; i++) {
        if (desk_ed25519_public_key((*tally)++, seeds + FIELD * i, vks[i]) != 1)
            return 0;
        vouch(i, vks[i], text);
        if (desk_ed25519_sign((*tally)++, master, text, sizeof text, signatures[i]) != 1)
            return 0;
    }
    put_two_bytes(cache, n);
    put_two_bytes(cache + 2, 0);
    for (i = 0; i < n; i++) {
        uint8_t *entry = cache + HEADER + ENTRY * i;
        memcpy(entry, signatures[i], SIGNED);
        memcpy(entry + SECRET_AT, seeds + FIELD * i, FIELD);
        memcpy(entry + VK_AT, vks[i], FIELD);
    }
    memcpy(key, masters, FIELD);
    sodium_memzero(master, FIELD);
    sodium_memzero(seeds, FIELD * n);
    return 1;
}

uint32_t plain_fair_make(uint64_t n, uint8_t *master, size_t master_len, uint8_t *seeds, size_t seeds_len, uint8_t *cache, size_t cache_len, uint8_t *key, size_t key_len, uint64_t *tally)
{
    if (!KES_FAIR_FITS(n))
        return KES_ENTRIES;
    if (master_len != KES_SEED_SIZE || seeds_len != kes_fair_seeds_size(n))
        return KES_SEED_OR_KEY;
    if (cache_len != kes_fair_cache_size(n) || key_len != KES_KEY_SIZE)
        return KES_LENGTH;
    return make((size_t)n, master, seeds, cache, key, tally) ? KES_DONE : KES_UNANSWERED;
}

uint32_t plain_fair_move(uint8_t *cache, size_t cache_len, uint64_t step)
{
    struct header at;
    if (!read_header(cache, cache_len, &at))
        return KES_TABLE;
    if (step >= at.n)
        return KES_PAST_END;
    if (step <= at.step)
        return KES_NOT_LATER;
    memset(cache + HEADER, 0, ENTRY * (size_t)step);
    put_two_bytes(cache + 2, (size_t)step);
    return KES_DONE;
}

uint32_t plain_fair_sign(const uint8_t *cache, size_t cache_len, const uint8_t *message, size_t message_len, uint8_t *signature, size_t signature_len, uint64_t *tally)
{
    uint8_t own[SIGNED];
    struct header at;
    const uint8_t *entry;
    if (!read_header(cache, cache_len, &at))
        return KES_TABLE;
    if (message_len > KES_MESSAGE_MAX)
        return KES_TOO_LONG;
    if (signature_len != KES_FAIR_SIGNATURE_SIZE)
        return KES_LENGTH;
    entry = cache + HEADER + ENTRY * at.step;
    if (desk_ed25519_sign((*tally)++, entry + SECRET_AT, message, message_len, own) != 1)
        return KES_UNANSWERED;
    memcpy(signature, entry, SIGNED);
    memcpy(signature + SIGNED, entry + VK_AT, FIELD);
    memcpy(signature + SIGNED + FIELD, own, SIGNED);
    return KES_DONE;
}

uint32_t plain_fair_verify(uint64_t n, const uint8_t *key, size_t key_len, uint64_t step, const uint8_t *message, size_t message_len, const uint8_t *signature, size_t signature_len)
{
    const uint8_t *vk;
    uint8_t text[VOUCHED];
    if (!KES_FAIR_FITS(n))
        return KES_ENTRIES;
    if (key_len != KES_KEY_SIZE)
        return KES_SEED_OR_KEY;
    if (signature_len != KES_FAIR_SIGNATURE_SIZE)
        return KES_LENGTH;
    if (message_len > KES_MESSAGE_MAX)
        return KES_TOO_LONG;
    if (step >= n)
        return KES_PAST_END;
    vk = signature + SIGNED;
    vouch(step, vk, text);
    return crypto_sign_verify_detached(signature, text, sizeof text, key) == 0
        && crypto_sign_verify_detached(vk + FIELD, message, message_len, vk) == 0 ? KES_DONE : KES_NOT_ACCEPTED;
}
