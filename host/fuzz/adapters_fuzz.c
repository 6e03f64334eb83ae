/* A fuzzer's target: a secret's key and signature by both adapters, then a verdict on them with the input laid over. */
#include <string.h>

#include "../../desk/adapter.h"
#include "input.h"

enum { MESSAGE = 255 };

/* y of 0, 1, P - 1, P or P + 1: points of small order, some written unreduced. */
static void small_order(uint8_t point[32], uint8_t which)
{
    memset(point, which % 5 < 2 ? 0 : 0xff, 32);
    point[0] = (uint8_t)(which % 5 < 2 ? which % 5 : 0xec + which % 5 - 2);
    point[31] = (uint8_t)(which % 5 < 2 ? which & 0x80 : 0x7f | (which & 0x80));
}

int LLVMFuzzerTestOneInput(const uint8_t *data, size_t size);

int LLVMFuzzerTestOneInput(const uint8_t *data, size_t size)
{
    struct input in = {data, size};
    uint8_t secret[32], key[32], signature[64], message[MESSAGE], ways = next(&in);
    size_t len = next(&in);
    memset(secret, next(&in), sizeof secret);
    memset(message, next(&in), len);
    (void)desk_ed25519_public_key(ways, secret, key);
    (void)desk_ed25519_sign(ways, secret, len == 0 ? NULL : message, len, signature);
    if (desk_ed25519_verify(key, message, len, signature) != 1)
        wrong("a signature by a secret is refused under its public key");
    if (ways & 1)
        small_order(key, next(&in));
    if (ways & 2)
        small_order(signature, next(&in));
    if (ways & 4)
        memset(signature + 32, 0, 32);
    while (in.left > 2) {
        patch(&in, key, ways & 8 ? 0 : sizeof key);
        patch(&in, signature, sizeof signature);
    }
    (void)desk_ed25519_verify(key, message, len, signature);
    return 0;
}
