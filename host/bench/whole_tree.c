#include <string.h>

#include <sodium.h>

#include "../../desk/adapter.h"
#include "whole_tree.h"

enum { NODE = 32, SIGNED = 64, MOST = 1 << KES_PLAIN_HEIGHT_MAX };

static uint8_t *node(uint8_t *table, size_t level, size_t index) { return table + NODE * (((size_t)1 << level) - 1 + index); }

static void hash(const uint8_t *bytes, size_t len, uint8_t *out) { crypto_generichash(out, NODE, bytes, len, NULL, 0); }

/* The seed of a half: 0 is the left one. */
static void half(uint8_t side, const uint8_t *seed, uint8_t *out)
{
    uint8_t text[1 + NODE];
    text[0] = side;
    memcpy(text + 1, seed, NODE);
    hash(text, sizeof text, out);
}

/* The secrets of 2^h leaves, level over level in one room. */
static void grow(const uint8_t *seed, size_t h, uint8_t secrets[MOST][NODE])
{
    size_t n, i;
    memcpy(secrets[0], seed, NODE);
    for (n = 1; n < (size_t)1 << h; n *= 2)
        for (i = n; i-- > 0;) {
            uint8_t parent[NODE];
            memcpy(parent, secrets[i], NODE);
            half(0, parent, secrets[2 * i]);
            half(1, parent, secrets[2 * i + 1]);
        }
}

/* Asks for every vk before it writes; answers whether all was answered. */
static int fill(size_t h, uint8_t *seed, uint8_t *table, uint64_t *tally)
{
    static uint8_t secrets[MOST][NODE], vks[MOST][NODE];
    size_t n = (size_t)1 << h, i;
    grow(seed, h, secrets);
    for (i = 0; i < n; i++)
        if (desk_ed25519_public_key((*tally)++, secrets[i], vks[i]) != 1)
            return 0;
    for (i = 0; i < n; i++) {
        hash(vks[i], NODE, node(table, h, i));
        memcpy(node(table, h + 1, 2 * i), secrets[i], NODE);
        memcpy(node(table, h + 1, 2 * i + 1), vks[i], NODE);
    }
    for (i = n - 1; i-- > 0;)
        hash(table + NODE * (2 * i + 1), 2 * NODE, table + NODE * i);
    sodium_memzero(secrets, sizeof secrets);
    sodium_memzero(seed, NODE);
    return 1;
}

uint32_t whole_fill(uint64_t h, uint8_t *seed, size_t seed_len, uint8_t *table, size_t table_len, uint64_t *tally)
{
    if (!KES_PLAIN_FITS(h))
        return KES_HEIGHT;
    if (seed_len != KES_SEED_SIZE)
        return KES_SEED_OR_KEY;
    if (table_len != kes_plain_table_size(h))
        return KES_LENGTH;
    return fill((size_t)h, seed, table, tally) ? KES_DONE : KES_UNANSWERED;
}

/* 1 and 4, of the calls that read. */
static uint32_t misfit(uint64_t h, size_t table_len, size_t out_len, size_t due)
{
    if (!KES_PLAIN_FITS(h))
        return KES_HEIGHT;
    return table_len != kes_plain_table_size(h) || out_len != due ? KES_LENGTH : KES_DONE;
}

static void put_path(size_t h, const uint8_t *table, size_t leaf, uint8_t *out)
{
    size_t up;
    for (up = 0; up < h; up++)
        memcpy(out + NODE * up, table + NODE * (((size_t)1 << (h - up)) - 1 + (leaf >> up ^ 1)), NODE);
}

uint32_t whole_root(uint64_t h, const uint8_t *table, size_t table_len, uint8_t *root, size_t root_len)
{
    uint32_t number = misfit(h, table_len, root_len, NODE);
    if (number == KES_DONE)
        memcpy(root, table, NODE);
    return number;
}

uint32_t whole_path(uint64_t h, const uint8_t *table, size_t table_len, uint64_t leaf, uint8_t *path, size_t path_len)
{
    uint32_t number = misfit(h, table_len, path_len, kes_plain_path_size(h));
    if (number != KES_DONE)
        return number;
    if (leaf >> h != 0)
        return KES_PAST_END;
    put_path((size_t)h, table, (size_t)leaf, path);
    return KES_DONE;
}

uint32_t whole_sign(uint64_t h, const uint8_t *table, size_t table_len, uint64_t leaf, const uint8_t *message, size_t message_len, uint8_t *signature, size_t signature_len, uint64_t *tally)
{
    uint8_t own[SIGNED];
    uint32_t number = misfit(h, table_len, signature_len, kes_plain_signature_size(h));
    const uint8_t *pair;
    if (number != KES_DONE)
        return number;
    if (message_len > KES_MESSAGE_MAX)
        return KES_TOO_LONG;
    if (leaf >> h != 0)
        return KES_PAST_END;
    pair = table + NODE * (((size_t)2 << h) - 1) + 2 * NODE * (size_t)leaf;
    if (desk_ed25519_sign((*tally)++, pair, message, message_len, own) != 1)
        return KES_UNANSWERED;
    memcpy(signature, pair + NODE, NODE);
    memcpy(signature + NODE, own, SIGNED);
    put_path((size_t)h, table, (size_t)leaf, signature + NODE + SIGNED);
    return KES_DONE;
}
