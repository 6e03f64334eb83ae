/* Stands between a program and its adapter, by the linker's --wrap, and says at the program's end how often Ed25519 was asked. */
#include <stddef.h>
#include <stdint.h>
#include <stdio.h>

static unsigned long asked;

uint32_t __real_desk_ed25519_verify(const uint8_t *key, const uint8_t *message, size_t len, const uint8_t *signature);
uint32_t __wrap_desk_ed25519_verify(const uint8_t *key, const uint8_t *message, size_t len, const uint8_t *signature);

uint32_t __wrap_desk_ed25519_verify(const uint8_t *key, const uint8_t *message, size_t len, const uint8_t *signature)
{
    asked++;
    return __real_desk_ed25519_verify(key, message, len, signature);
}

__attribute__((destructor)) static void say(void)
{
    fprintf(stderr, "%lu\n", asked);
}
