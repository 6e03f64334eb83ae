#include <stdio.h>
#include <stdlib.h>
#include <string.h>

#include "recorded.h"

/* The linker puts __wrap_X where X is called, and calls X itself __real_X. */
int __real_crypto_sign_seed_keypair(uint8_t *key, uint8_t *pair, const uint8_t *seed);
int __real_crypto_sign_detached(uint8_t *signature, unsigned long long *size, const uint8_t *message, unsigned long long len, const uint8_t *pair);
int __real_crypto_sign_verify_detached(const uint8_t *signature, const uint8_t *message, unsigned long long len, const uint8_t *key);
int __wrap_crypto_sign_seed_keypair(uint8_t *key, uint8_t *pair, const uint8_t *seed);
int __wrap_crypto_sign_detached(uint8_t *signature, unsigned long long *size, const uint8_t *message, unsigned long long len, const uint8_t *pair);
int __wrap_crypto_sign_verify_detached(const uint8_t *signature, const uint8_t *message, unsigned long long len, const uint8_t *key);

static struct record calls[RECORD_MAX];
static size_t count;
static int recording;

static struct record *next_record(enum record_kind kind, const uint8_t *key, size_t key_size)
{
    struct record *r = &calls[count++];
    if (count > RECORD_MAX) {
        fprintf(stderr, "bench: a work makes more Ed25519 calls than expected\n");
        exit(1);
    }
    r->kind = kind;
    memcpy(r->key, key, key_size);
    return r;
}

static void put_message(struct record *r, const uint8_t *message, unsigned long long len)
{
    if (len > sizeof r->message) {
        fprintf(stderr, "bench: a message is longer than expected\n");
        exit(1);
    }
    r->len = (uint32_t)len;
    memcpy(r->message, message, (size_t)len);
}

int __wrap_crypto_sign_seed_keypair(uint8_t *key, uint8_t *pair, const uint8_t *seed)
{
    if (recording)
        next_record(RECORD_PAIR, seed, 32);
    return __real_crypto_sign_seed_keypair(key, pair, seed);
}

int __wrap_crypto_sign_detached(uint8_t *signature, unsigned long long *size, const uint8_t *message, unsigned long long len, const uint8_t *pair)
{
    if (recording)
        put_message(next_record(RECORD_SIGN, pair, 64), message, len);
    return __real_crypto_sign_detached(signature, size, message, len, pair);
}

int __wrap_crypto_sign_verify_detached(const uint8_t *signature, const uint8_t *message, unsigned long long len, const uint8_t *key)
{
    if (recording) {
        struct record *r = next_record(RECORD_VERIFY, key, 32);
        put_message(r, message, len);
        memcpy(r->signature, signature, sizeof r->signature);
    }
    return __real_crypto_sign_verify_detached(signature, message, len, key);
}

void record_start(void)
{
    count = 0;
    recording = 1;
}

size_t record_end(const struct record **made)
{
    recording = 0;
    *made = calls;
    return count;
}

static void repeat(const struct record *r)
{
    uint8_t key[32], pair[64], signature[64];
    switch (r->kind) {
    case RECORD_PAIR: __real_crypto_sign_seed_keypair(key, pair, r->key); return;
    case RECORD_SIGN: __real_crypto_sign_detached(signature, NULL, r->message, r->len, r->key); return;
    default: __real_crypto_sign_verify_detached(r->signature, r->message, r->len, r->key); return;
    }
}

void replay(const struct record *made, size_t n)
{
    size_t i;
    for (i = 0; i < n; i++)
        repeat(&made[i]);
}
