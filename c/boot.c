/* boot: prints which image of a flash is to be started. A boot loader would jump to it.
 *
 *     boot FLASH [IMAGE]
 *
 * Writes the image to the file IMAGE, if one is named. Allocates from 128 kB and nowhere else. Exits with what
 * suit_boot returned, with 2 for wrong arguments, and with 70 if a file cannot be read or written.
 */
#include "arena.h"
#include "suit.h"

#include <inttypes.h>
#include <stdio.h>

static uint8_t flash[4194304];
static _Alignas(16) uint8_t room[131072];

int main(int argc, char **argv) {
  if (argc != 2 && argc != 3)
    return 2;
  FILE *file = fopen(argv[1], "rb");
  if (!file || fread(flash, 1, sizeof flash, file) != sizeof flash) {
    perror(argv[1]);
    return 70;
  }
  fclose(file);
  suit_arena(room, sizeof room);
  struct suit_image image;
  int32_t answer = suit_boot(flash, sizeof flash, &image);
  if (image.found) {
    printf("component %" PRIu32 ": %" PRIu64 " bytes at %" PRIu64 "\ndigest ", image.component, image.length, image.place);
    for (size_t i = 0; i < image.digest_length; i++)
      printf("%02x", image.digest[i]);
    printf("\n");
  }
  printf("%zu bytes of memory\n", suit_arena_peak());
  if (image.found && argc == 3) {
    file = fopen(argv[2], "wb");
    if (!file || fwrite(flash + image.place, 1, image.length, file) != image.length || fclose(file) != 0) {
      perror(argv[2]);
      return 70;
    }
  }
  return answer;
}
