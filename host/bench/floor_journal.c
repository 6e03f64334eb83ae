/* Makes again Ed25519 calls that judging a journal takes, as make_journal wrote them to a file, from standard input: a floor of the judge. */
#include <stdio.h>

#include <sodium.h>

#include "recorded.h"

int main(void)
{
    struct record call;
    if (sodium_init() < 0)
        return 1;
    while (fread(&call, sizeof call, 1, stdin) == 1)
        replay(&call, 1);
    return 0;
}
