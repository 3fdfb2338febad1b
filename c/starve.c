/* starve: boots from a flash, and looks for the slot in use of each component, while each block of memory that is asked for is refused
 * in turn.
 *
 *     starve FLASH
 *
 * Every such call must return SUIT_NO_MEMORY, report nothing, and free what it allocated. So a boot asks for no memory once its
 * procedure has begun. Exits with 1 if a call does not.
 */
#include "arena.h"
#include "suit.h"

#include <stdio.h>
#include <stdlib.h>
#include <string.h>

static uint8_t flash[4194304];
static _Alignas(16) uint8_t room[131072];

/* What a call returned, and whether it reported anything. */
struct told {
  int32_t answer;
  int something;
};

static struct told booted(void) {
  struct suit_image image;
  int32_t answer = suit_boot(flash, sizeof flash, &image);
  return (struct told){answer, image.found != 0};
}

static struct told looked_for(uint32_t component) {
  struct suit_slot slot, before;
  memset(&before, 0xa5, sizeof before);
  memcpy(&slot, &before, sizeof slot);
  int32_t answer = suit_slot(flash, sizeof flash, component, &slot);
  return (struct told){answer, memcmp(&slot, &before, sizeof slot) != 0};
}

/* Boots if `asked` is negative, and otherwise looks for the slot of that component. Refuses the block of that number. */
static struct told called(int asked, size_t refused) {
  suit_arena(room, sizeof room);
  suit_arena_refuse(refused);
  struct told told = asked < 0 ? booted() : looked_for((uint32_t)asked);
  if (suit_arena_in_use() != 0) {
    printf("block %zu refused: %zu bytes are not given back\n", refused, suit_arena_in_use());
    exit(1);
  }
  return told;
}

int main(int argc, char **argv) {
  if (argc != 2)
    return 2;
  FILE *file = fopen(argv[1], "rb");
  if (!file || fread(flash, 1, sizeof flash, file) != sizeof flash) {
    perror(argv[1]);
    return 70;
  }
  fclose(file);
  for (int asked = -1; asked < 32; asked++) {
    struct told whole = called(asked, 0);
    size_t count = suit_arena_asked();
    for (size_t number = 1; number <= count; number++) {
      struct told starved = called(asked, number);
      if (starved.answer != SUIT_NO_MEMORY || starved.something) {
        printf("block %zu of %zu refused: %d\n", number, count, (int)starved.answer);
        return 1;
      }
    }
    if (asked < 0)
      printf("status %d; each of %zu blocks refused ends a boot before its procedure\n", (int)whole.answer, count);
  }
  return 0;
}
