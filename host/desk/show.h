/* show.h: what the clerk sees, and the ways in which the desk ends early. */
#ifndef SHOW_H
#define SHOW_H

#include <stdint.h>

/* A line on the clerk's display; it is out when this returns. */
__attribute__((format(printf, 1, 2))) void show(const char *format, ...);

/* Ends the desk: the desk itself will not go on, or the system said no. The next start repairs what was left half done. */
__attribute__((noreturn)) void refuse(const char *why);
__attribute__((noreturn)) void failed(const char *what);

/* Ends the desk unless a call of kes.h answered that it is done. */
void need(uint32_t number, const char *call);

#endif
