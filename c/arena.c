/* An arena: a first-fit allocator in one room. The room is a row of blocks, each with a header that says how long the block is and
 * whether it is in use. The first free block that is large enough is taken, and what it has left over becomes a free block. Free
 * neighbours are joined when the search comes to them. */
#include "arena.h"

#include <stdint.h>
#include <string.h>

struct block {
  size_t length; /* of the bytes after this header, a multiple of 16 */
  size_t used;
};

/* The answer to the proved code: whether there was memory, and where it is. */
struct taken {
  uint64_t there;
  void *bytes;
};

static uint8_t *room;
static size_t room_length, in_use, peak, asked, refused;

static struct block *at(size_t place) { return (struct block *)(room + place); }

static size_t behind(size_t place) { return place + sizeof(struct block) + at(place)->length; }

void suit_arena(void *given, size_t length) {
  room = given;
  room_length = length - length % 16;
  in_use = peak = asked = refused = 0;
  *at(0) = (struct block){room_length - sizeof(struct block), 0};
}

size_t suit_arena_in_use(void) { return in_use; }

size_t suit_arena_peak(void) { return peak; }

size_t suit_arena_asked(void) { return asked; }

void suit_arena_refuse(size_t number) { refused = number; }

static void count(size_t more) {
  in_use += more;
  if (peak < in_use)
    peak = in_use;
}

static void join(size_t place) {
  while (behind(place) < room_length && !at(behind(place))->used)
    at(place)->length += sizeof(struct block) + at(behind(place))->length;
}

static void *take_at(size_t place, size_t length) {
  struct block *block = at(place);
  if (block->length >= length + 2 * sizeof(struct block)) {
    size_t rest = block->length - length - sizeof(struct block);
    block->length = length;
    *at(behind(place)) = (struct block){rest, 0};
  }
  block->used = 1;
  count(sizeof(struct block) + block->length);
  return block + 1;
}

static void *take(uint64_t wanted) {
  if (wanted > room_length)
    return NULL;
  size_t length = (size_t)(wanted + 15) / 16 * 16;
  for (size_t place = 0; place < room_length; place = behind(place)) {
    if (at(place)->used)
      continue;
    join(place);
    if (at(place)->length >= length)
      return take_at(place, length);
  }
  return NULL;
}

static struct taken taken(void *bytes) {
  static uint8_t nothing[16];
  return bytes ? (struct taken){1, bytes} : (struct taken){0, nothing};
}

struct taken rattle_alloc(uint64_t length, uint64_t alignment) {
  return taken(++asked == refused ? NULL : take(length ? length : alignment));
}

void rattle_dealloc(void *bytes) {
  struct block *block = (struct block *)bytes - 1;
  block->used = 0;
  in_use -= sizeof(struct block) + block->length;
}

struct taken rattle_realloc(void *bytes, uint64_t kept, uint64_t length, uint64_t alignment) {
  if (length == 0)
    length = alignment;
  if (length <= ((struct block *)bytes - 1)->length)
    return taken(bytes);
  struct taken other = rattle_alloc(length, alignment);
  if (other.there) {
    memcpy(other.bytes, bytes, kept);
    rattle_dealloc(bytes);
  }
  return other;
}
