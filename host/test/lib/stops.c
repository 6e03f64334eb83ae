/* stops CALL N: a host that asks an adapter for a call, over libraries of which the first N calls succeed and the next fails, and prints
 * the answer. */
#include <string.h>

#include "../../../desk/adapter.h"

static int left;
static int fails(void) { return left-- <= 0; }

/* libsodium: 0 is success */
int sodium_init(void) { return -fails(); }
int crypto_sign_seed_keypair(void) { return -fails(); }
int crypto_sign_detached(void) { return -fails(); }
void sodium_memzero(void) {}
/* -1 is an answer here: refused */
int crypto_sign_verify_detached(void) { return -1; }

/* OpenSSL: 1 or a pointer is success */
static void *pointer(void) { return fails() ? NULL : &left; }
void *EVP_PKEY_new_raw_private_key(void) { return pointer(); }
void *EVP_PKEY_new_raw_public_key(void) { return pointer(); }
void *EVP_MD_CTX_new(void) { return pointer(); }
int EVP_PKEY_get_raw_public_key(void) { return !fails(); }
int EVP_DigestSignInit(void) { return !fails(); }
int EVP_DigestSign(void) { return !fails(); }
int EVP_DigestVerifyInit(void) { return !fails(); }
/* 0 would be an answer: refused */
int EVP_DigestVerify(void) { return fails() ? -1 : 1; }
void EVP_MD_CTX_free(void) {}
void EVP_PKEY_free(void) {}

int main(int argc, char **argv)
{
    uint8_t first[32] = {0}, key[32], signature[64] = {0};
    uint32_t answer;
    left = argc == 3 ? atoi(argv[2]) : 0;
    if (strcmp(argv[1], "public_key") == 0)
        answer = desk_ed25519_public_key(7, first, key);
    else if (strcmp(argv[1], "sign") == 0)
        answer = desk_ed25519_sign(7, first, NULL, 0, signature);
    else
        answer = desk_ed25519_verify(first, NULL, 0, signature);
    printf("%u\n", (unsigned)answer);
    return 0;
}
