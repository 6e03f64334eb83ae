/* desk.h: one desk, with its key and its journal in a folder. What a call does is done, and safe from a power cut, when it
 * returns; what cannot be done ends the desk. */
#ifndef DESK_H
#define DESK_H

#include "registered.h"

/* Makes the folder's key, at step 0, for one window or for two, and a journal for each. */
void desk_make(const char *folder, uint64_t h1, uint64_t h2, int windows);

/* Opens the desk again, after a clean end or a crash. */
void desk_open(const char *folder);

/* Tops a card up: a record in the journal, money on the chip, "done" on the display. Card and amount are in a record's range. */
void desk_top_up(const char *card, uint64_t amount);

/* What the clock says: moves the key, if the step is a later one. One that is further ahead than DESK_TICK_MOST steps asks a person,
 * since nothing brings a burnt step back, and moves nothing. */
enum { DESK_TICK_MOST = 288 };
void desk_tick(uint64_t step);

/* What a person says who was asked: moves the key however far. */
void desk_jump(uint64_t step);

/* Where two windows share the key, each in a process of its own: guards the memory, once; then a turn for each thing that a window does,
 * during which the other waits. */
void desk_guard(void);
void desk_turn(const char *folder, int window);
void desk_turn_end(void);

/* The clock of a window: it needs no step before this one any more, and the key moves there if the other needs none either. */
void desk_release(uint64_t step);

/* What an open desk is registered as, and the step that it stands at. */
const struct registered *desk_registered(void);
uint64_t desk_step(void);

/* Signs a text at the desk's step, into bytes of signature_size. */
void desk_sign(const char *text, size_t len, uint8_t *signature);

#endif
