/* paint.h: measures how much stack a call takes. */
#ifndef SUIT_PAINT_H
#define SUIT_PAINT_H

#include <stddef.h>

/* Makes the call on a stack of its own, of 8 MiB, which was painted with one byte value before. Returns how many bytes of that stack
 * were used: those from its top down to the lowest byte that no longer has that value. They include what entering the call takes. */
size_t suit_painted(void (*call)(void));

#endif
