/* The three Ed25519 calls of libkes, by OpenSSL. */
#include <openssl/evp.h>

#include "adapter.h"

/* The key of a secret, or NULL. OpenSSL makes its public half from the secret, and none is ever taken from a caller: a signature made
   with another public key gives the secret away to whoever also sees the right one. EVP_PKEY_free wipes the copy in it. */
static EVP_PKEY *key_of(const uint8_t secret[32])
{
    return EVP_PKEY_new_raw_private_key(EVP_PKEY_ED25519, NULL, secret, 32);
}

uint32_t desk_ed25519_public_key(uint64_t tally, const uint8_t secret[32], uint8_t out[32])
{
    size_t len = 32;
    EVP_PKEY *key = key_of(secret);
    int made = key != NULL && EVP_PKEY_get_raw_public_key(key, out, &len) == 1 && len == 32;
    (void)tally;
    EVP_PKEY_free(key);
    return made ? 1 : 0;
}

uint32_t desk_ed25519_sign(uint64_t tally, const uint8_t secret[32], const uint8_t *message, size_t message_len, uint8_t out[64])
{
    size_t len = 64;
    EVP_PKEY *key = key_of(secret);
    EVP_MD_CTX *work = key == NULL ? NULL : EVP_MD_CTX_new();
    int made = work != NULL && EVP_DigestSignInit(work, NULL, NULL, NULL, key) == 1
        && EVP_DigestSign(work, out, &len, bytes_of(message, message_len), message_len) == 1 && len == 64;
    (void)tally;
    EVP_MD_CTX_free(work);
    EVP_PKEY_free(key);
    return made ? 1 : 0;
}

uint32_t desk_ed25519_verify(const uint8_t public_key[32], const uint8_t *message, size_t message_len, const uint8_t signature[64])
{
    EVP_PKEY *key = EVP_PKEY_new_raw_public_key(EVP_PKEY_ED25519, NULL, public_key, 32);
    EVP_MD_CTX *work = EVP_MD_CTX_new();
    if (key == NULL || work == NULL || EVP_DigestVerifyInit(work, NULL, NULL, NULL, key) != 1)
        stop("OpenSSL does not begin to verify");
    int answer = EVP_DigestVerify(work, signature, 64, bytes_of(message, message_len), message_len);
    EVP_MD_CTX_free(work);
    EVP_PKEY_free(key);
    /* 0 is a refusal; a negative number says that there was no answer */
    if (answer < 0)
        stop("OpenSSL does not verify");
    return answer == 1;
}
