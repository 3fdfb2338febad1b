/* arena.h: an allocator for the calls of suit.h that allocate memory. It serves them from one buffer of the caller's instead of malloc.
 * Link arena.c instead of the kit's liblibc_c.a.
 *
 * A program has one arena, which takes no lock. Give it its room before the first call that allocates.
 */
#ifndef SUIT_ARENA_H
#define SUIT_ARENA_H

#include <stddef.h>

/* Allocates from `room`, which has `length` bytes, from now on, and starts the figures below afresh. The room must have at least 64 bytes
 * and be aligned to 16, and the caller must leave it alone until another one is given. Memory from an earlier room must not be freed
 * after that. */
void suit_arena(void *room, size_t length);

/* How many bytes are in use, including the header of each block. */
size_t suit_arena_in_use(void);

/* The most bytes that were in use at once since the room was given, including the header of each block. */
size_t suit_arena_peak(void);

/* How many blocks were asked for since the room was given, including those that were refused. */
size_t suit_arena_asked(void);

/* Refuses the request for a block that has this number, counted from 1 since the room was given, and serves all others as far as the
 * room allows. 0 refuses none, and giving a room sets it to 0. */
void suit_arena_refuse(size_t number);

#endif
