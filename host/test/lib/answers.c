/* An Ed25519 library that says yes, or that it has answered, with another number than 1: libsodium's adapter, but for the number. The
 * contracts assumed of it take only 1, so the library must not accept, and must take nothing for an answer. */
#define desk_ed25519_public_key sodium_public_key
#define desk_ed25519_sign sodium_sign
#define desk_ed25519_verify sodium_verify
#include "../../../desk/ed25519_sodium.c"
#undef desk_ed25519_public_key
#undef desk_ed25519_sign
#undef desk_ed25519_verify
#include "kes.h"

static uint32_t key_given = 1, given = 1, yes = 1;

uint32_t desk_ed25519_public_key(uint64_t tally, const uint8_t secret[32], uint8_t out[32])
{
    return sodium_public_key(tally, secret, out) == 1 ? key_given : 0;
}

uint32_t desk_ed25519_sign(uint64_t tally, const uint8_t secret[32], const uint8_t *message, size_t message_len, uint8_t out[64])
{
    return sodium_sign(tally, secret, message, message_len, out) == 1 ? given : 0;
}

uint32_t desk_ed25519_verify(const uint8_t public_key[32], const uint8_t *message, size_t message_len, const uint8_t signature[64])
{
    return sodium_verify(public_key, message, message_len, signature) == 1 ? yes : 0;
}

static uint8_t seed[KES_SEED_SIZE] = {7}, table[KES_TABLE_SIZE(0, 0)], key[KES_KEY_SIZE], signature[KES_SIGNATURE_SIZE(0, 0)];
static uint64_t tally;

static uint32_t make(void) { return kes_number(kes_make(0, 0, seed, sizeof seed, table, sizeof table, &tally)); }
static uint32_t sign(void) { return kes_sign(table, sizeof table, NULL, 0, signature, sizeof signature, &tally); }
static uint32_t verify(void) { return kes_verify(0, 0, key, sizeof key, 0, NULL, 0, signature, sizeof signature); }

/* What a call answers, where the library's answer to it is this number. */
static int reads(uint32_t *answer, uint32_t number, uint32_t (*call)(void), uint32_t otherwise)
{
    int right;
    *answer = number;
    right = call() == (number == 1 ? KES_DONE : otherwise);
    *answer = 1;
    if (!right)
        fprintf(stderr, "answers: a library's %u is read otherwise\n", (unsigned)number);
    return right;
}

int main(void)
{
    static const uint32_t numbers[] = {0, 2, 257, UINT32_MAX, 1};
    size_t i;
    for (i = 0; i < sizeof numbers / sizeof *numbers; i++)
        if (!reads(&key_given, numbers[i], make, KES_UNANSWERED))
            return 1;
    if (kes_read_key(table, sizeof table, key, sizeof key) != KES_DONE || sign() != KES_DONE)
        return 1;
    for (i = 0; i < sizeof numbers / sizeof *numbers; i++)
        if (!reads(&given, numbers[i], sign, KES_UNANSWERED) || !reads(&yes, numbers[i], verify, KES_NOT_ACCEPTED))
            return 1;
    return 0;
}
