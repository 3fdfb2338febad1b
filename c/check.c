/* check: checks an envelope, as `suit check` does.
 *
 *     check FILE [TRIMMED]
 *
 * Writes the trimmed envelope to the file TRIMMED, if one is named. Allocates from 16 MB and nowhere else.
 */
#include "arena.h"
#include "suit.h"

#include <inttypes.h>
#include <stdio.h>

static uint8_t bytes[1048577];
static _Alignas(16) uint8_t room[16777216];

/* Writes the trimmed envelope to a file. */
static int trim(size_t length, const char *name) {
  static uint8_t trimmed[16384];
  uint64_t count;
  int32_t answer = suit_trim(bytes, length, trimmed, sizeof trimmed, &count);
  if (answer != SUIT_DONE)
    return answer;
  FILE *file = fopen(name, "wb");
  if (!file || fwrite(trimmed, 1, count, file) != count || fclose(file) != 0) {
    perror(name);
    return 70;
  }
  return 0;
}

int main(int argc, char **argv) {
  if (argc != 2 && argc != 3)
    return 2;
  FILE *file = fopen(argv[1], "rb");
  if (!file) {
    perror(argv[1]);
    return 70;
  }
  size_t length = fread(bytes, 1, sizeof bytes, file);
  fclose(file);
  suit_arena(room, sizeof room);
  uint64_t place = 0;
  int32_t answer = suit_check(bytes, length, &place);
  int32_t trimmed = argc == 3 ? trim(length, argv[2]) : SUIT_DONE;
  if (suit_arena_in_use() != 0) {
    printf("%zu bytes of memory are not given back\n", suit_arena_in_use());
    return 70;
  }
  if (trimmed != SUIT_DONE)
    return trimmed;
  if (answer == SUIT_DONE)
    printf("safe\n");
  else if (answer == SUIT_REFUSED)
    printf("refused at %" PRIu64 "\n", place);
  else
    printf("answer %" PRId32 "\n", answer);
  return answer;
}
