/* guards WAY: a hash, the making of a fair's cache, or its signing that is wrong in one way, called as lent.h calls the library.
 * It prints "answered" where nobody noticed. */
#include <stdio.h>
#include <stdlib.h>

#include "kes.h"
#include "lent.h"

enum { RIGHT, READS_AFTER, READS_BEFORE, READS_NOTHING, WRITES_MESSAGE, WRITES_AFTER, WRITES_BEFORE, WRITES_REFUSED, BY_ADDRESS, NO_END, MAKES, WRITES_EARLY, SIGNS, SAME_NUMBER, TALLY_BACK, WRITES_BESIDE_TALLY, WRITES_UNANSWERED };

static int way;

/* The linker puts these before the library's own. */
uint32_t __real_kes_hash(const uint8_t *message, size_t message_len, uint8_t *digest, size_t digest_len);
uint32_t __wrap_kes_hash(const uint8_t *message, size_t message_len, uint8_t *digest, size_t digest_len);

uint32_t __wrap_kes_hash(const uint8_t *message, size_t message_len, uint8_t *digest, size_t digest_len)
{
    volatile uint8_t *from = (uint8_t *)(uintptr_t)message, *to = digest;
    switch (way) {
    case READS_AFTER: (void)from[message_len]; break;
    case READS_BEFORE: (void)from[-1]; break;
    case READS_NOTHING: (void)from[0]; break;
    case WRITES_MESSAGE: from[0] = 1; break;
    case WRITES_AFTER: to[digest_len] = 1; break;
    case WRITES_BEFORE: to[-1] = 1; break;
    case WRITES_REFUSED: to[0] = to[0]; return KES_LENGTH;
    case BY_ADDRESS: to[0] = (uint8_t)((uintptr_t)message >> 8); return KES_DONE;
    case NO_END: for (;;) to[0] = 1;
    }
    return __real_kes_hash(message, message_len, digest, digest_len);
}

uint32_t __real_kes_fair_make(uint64_t n, uint8_t *master, size_t master_len, uint8_t *seeds, size_t seeds_len, uint8_t *cache, size_t cache_len, uint8_t *key, size_t key_len, uint64_t *tally);
uint32_t __wrap_kes_fair_make(uint64_t n, uint8_t *master, size_t master_len, uint8_t *seeds, size_t seeds_len, uint8_t *cache, size_t cache_len, uint8_t *key, size_t key_len, uint64_t *tally);

uint32_t __wrap_kes_fair_make(uint64_t n, uint8_t *master, size_t master_len, uint8_t *seeds, size_t seeds_len, uint8_t *cache, size_t cache_len, uint8_t *key, size_t key_len, uint64_t *tally)
{
    if (way == WRITES_EARLY)
        cache[0] = 1;
    return __real_kes_fair_make(n, master, master_len, seeds, seeds_len, cache, cache_len, key, key_len, tally);
}

uint32_t __real_kes_fair_sign(const uint8_t *cache, size_t cache_len, const uint8_t *message, size_t message_len, uint8_t *signature, size_t signature_len, uint64_t *tally);
uint32_t __wrap_kes_fair_sign(const uint8_t *cache, size_t cache_len, const uint8_t *message, size_t message_len, uint8_t *signature, size_t signature_len, uint64_t *tally);

uint32_t __wrap_kes_fair_sign(const uint8_t *cache, size_t cache_len, const uint8_t *message, size_t message_len, uint8_t *signature, size_t signature_len, uint64_t *tally)
{
    uint32_t number;
    uint64_t at = *tally;
    if (way == SAME_NUMBER)
        *tally = at - 1;
    number = __real_kes_fair_sign(cache, cache_len, message, message_len, signature, signature_len, tally);
    if (way == TALLY_BACK)
        *tally = at;
    if (way == WRITES_BESIDE_TALLY)
        tally[-1] = at;
    if (way == WRITES_UNANSWERED && number == KES_UNANSWERED)
        *(volatile uint8_t *)signature = signature[0];
    return number;
}

int main(int argc, char **argv)
{
    static struct request hashing = {.op = HASH, .len = {3, KES_DIGEST_SIZE, 0, 0}, .bytes = {"abc"}};
    static struct request making = {.op = FAIR_MAKE, .h1 = 1, .len = {KES_SEED_SIZE, KES_SEED_SIZE, KES_FAIR_CACHE_SIZE(1), KES_KEY_SIZE}};
    static struct request signing = {.op = FAIR_SIGN, .len = {KES_FAIR_CACHE_SIZE(1), 3, KES_FAIR_SIGNATURE_SIZE}, .bytes = {"\1", "abc"}};
    static struct outcome outcome;
    way = argc == 2 ? atoi(argv[1]) : RIGHT;
    if (way == READS_NOTHING)
        hashing.len[0] = 0;
    if (way == WRITES_UNANSWERED)
        signing.every = 1;
    lend_start();
    lend(way >= SIGNS ? &signing : way >= MAKES ? &making : &hashing, &outcome);
    puts("answered");
    return 0;
}
