/* damage: boots from a flash in which one byte is damaged. Each of the first COUNT bytes is damaged in turn, and then each byte of the
 * image and of its length in front of it, by exclusive or with 01, 80 and FF.
 *
 *     damage FLASH COUNT [BEFORE]
 *
 * A boot may report the image of the undamaged flash or none, and must report none if a byte of the image or of its length is damaged.
 * BEFORE is the flash before its last update: if its record is still on a page of FLASH, a boot may report its image too. Exits with 1
 * if a boot reports any other image.
 */
#include "arena.h"
#include "suit.h"

#include <stdio.h>
#include <stdlib.h>
#include <string.h>

static uint8_t flash[4194304];
static _Alignas(16) uint8_t room[131072];

static struct suit_image booted(void) {
  struct suit_image image;
  suit_arena(room, sizeof room);
  suit_boot(flash, sizeof flash, &image);
  return image;
}

static int is_same(const struct suit_image *one, const struct suit_image *other) {
  return one->place == other->place && one->length == other->length && one->component == other->component &&
         memcmp(one->digest, other->digest, sizeof one->digest) == 0;
}

/* How many boots reported the image of BEFORE. */
static size_t told_before;

/* Damages each of `count` bytes from `place` on in turn, and counts the boots that report the whole image. */
static size_t damaged(size_t place, size_t count, const struct suit_image *whole, const struct suit_image *before) {
  static const uint8_t changes[] = {0x01, 0x80, 0xff};
  size_t told = 0;
  for (size_t end = place + count; place < end; place++)
    for (size_t i = 0; i < sizeof changes; i++) {
      flash[place] ^= changes[i];
      struct suit_image image = booted();
      flash[place] ^= changes[i];
      if (!image.found)
        continue;
      if (is_same(&image, whole))
        told++;
      else if (before->found && is_same(&image, before))
        told_before++;
      else {
        printf("another image with byte %zu changed\n", place);
        exit(1);
      }
    }
  return told;
}

static void load(const char *name) {
  FILE *file = fopen(name, "rb");
  if (!file || fread(flash, 1, sizeof flash, file) != sizeof flash) {
    perror(name);
    exit(70);
  }
  fclose(file);
}

int main(int argc, char **argv) {
  if (argc != 3 && argc != 4)
    return 2;
  size_t count = strtoul(argv[2], NULL, 10);
  struct suit_image before = {0};
  if (argc == 4) {
    load(argv[3]);
    before = booted();
  }
  load(argv[1]);
  struct suit_image whole = booted();
  if (!whole.found || whole.place < count + 8) {
    printf("no image behind the first %zu bytes\n", count);
    return 1;
  }
  size_t told = damaged(0, count, &whole, &before);
  size_t told_of_it = told_before;
  if (damaged(whole.place - 8, 8 + whole.length, &whole, &before) != 0 || told_before != told_of_it) {
    printf("an image whose own bytes are damaged\n");
    return 1;
  }
  printf("of %zu damaged bytes, three ways each, %zu boots tell the image, ", count, told);
  if (argc == 4)
    printf("%zu that of the record before, ", told_of_it);
  printf("and the others none\n");
  return 0;
}
