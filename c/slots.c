/* slots: prints the contents in use of a flash, as `suit run status` does.
 *
 *     slots FLASH
 */
#include "arena.h"
#include "suit.h"

#include <inttypes.h>
#include <stdio.h>

static uint8_t flash[4194304];
static _Alignas(16) uint8_t room[65536];

int main(int argc, char **argv) {
  if (argc != 2)
    return 2;
  FILE *file = fopen(argv[1], "rb");
  if (!file || fread(flash, 1, sizeof flash, file) != sizeof flash) {
    perror(argv[1]);
    return 70;
  }
  fclose(file);
  for (uint32_t component = 0; component < 32; component++) {
    struct suit_slot slot;
    suit_arena(room, sizeof room);
    int32_t answer = suit_slot(flash, sizeof flash, component, &slot);
    if (answer == SUIT_DONE)
      printf("component %" PRIu32 " slot %" PRIu32 " length %" PRIu64 "\n", component, slot.number, slot.length);
    else if (answer != SUIT_UNKNOWN_COMPONENT)
      return answer;
  }
  return 0;
}
