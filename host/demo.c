/* demo TEXT: the digest of a text. */
#include <stdio.h>
#include <string.h>

#include "kes.h"

int main(int argc, char **argv)
{
    uint8_t digest[KES_DIGEST_SIZE];
    size_t i;
    if (argc != 2 || kes_hash((const uint8_t *)argv[1], strlen(argv[1]), digest, sizeof digest) != KES_DONE)
        return 1;
    for (i = 0; i < sizeof digest; i++)
        printf("%02x", digest[i]);
    return puts("") == EOF;
}
