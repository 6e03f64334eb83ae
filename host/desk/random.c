#define _DEFAULT_SOURCE
#include "random.h"

#include <unistd.h>

#include "show.h"

/* The system hands out at most so many at once. */
enum { AT_ONCE = 256 };

void random_fill(uint8_t *bytes, size_t len)
{
    size_t done, piece;
    for (done = 0; done < len; done += piece) {
        piece = len - done < AT_ONCE ? len - done : AT_ONCE;
        if (getentropy(bytes + done, piece) != 0)
            failed("random numbers");
    }
}
