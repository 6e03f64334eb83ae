/* module.h: the module that keeps Ed25519, which may be out of reach. Every call of kes.h that takes a tally is made so:
 *
 *     do {
 *         number = kes_sign(.., module_tally());
 *         kes_wipe();
 *     } while (module_silent(number)); */
#ifndef MODULE_H
#define MODULE_H

#include <stdint.h>

/* The one tally of the one module. */
uint64_t *module_tally(void);

/* Whether a call was not answered and is to be made again. Shows that the module is out of reach, and later that it is back; waits in
 * between. */
int module_silent(uint32_t number);

#endif
