/* costs: prints how many bytes of stack and of memory each call takes. The stack is measured by painting it, the memory by the arena.
 *
 *     costs FLASH ENVELOPE KEY
 *
 * The last line is for a call that does nothing: its stack is part of every other figure.
 */
#include "arena.h"
#include "paint.h"
#include "suit.h"

#include <stdio.h>
#include <stdlib.h>

struct bytes {
  size_t length;
  uint8_t data[4194304];
};

static struct bytes flash, envelope, key;
static _Alignas(16) uint8_t room[16777216];

static void boot(void) {
  struct suit_image image;
  suit_boot(flash.data, flash.length, &image);
}

static void slot(void) {
  struct suit_slot slot;
  suit_slot(flash.data, flash.length, 0, &slot);
}

static void status(void) {
  struct suit_record record;
  suit_status(flash.data, flash.length, &record);
}

static void check(void) {
  uint64_t place;
  suit_check(envelope.data, envelope.length, &place);
}

static void trim(void) {
  static uint8_t trimmed[16384];
  uint64_t count;
  suit_trim(envelope.data, envelope.length, trimmed, sizeof trimmed, &count);
}

static void read_envelope(void) {
  struct suit_envelope numbers;
  uint64_t place;
  suit_read(envelope.data, envelope.length, &numbers, &place);
}

static void authentic(void) { suit_authentic(envelope.data, envelope.length, key.data, key.length); }

static void nothing(void) {}

static void load(const char *name, struct bytes *bytes) {
  FILE *file = fopen(name, "rb");
  if (!file) {
    perror(name);
    exit(70);
  }
  bytes->length = fread(bytes->data, 1, sizeof bytes->data, file);
  fclose(file);
}

static void tell(const char *name, void (*call)(void)) {
  suit_arena(room, sizeof room);
  size_t stack = suit_painted(call);
  printf("%-14s %7zu of stack %7zu of memory\n", name, stack, suit_arena_peak());
}

int main(int argc, char **argv) {
  if (argc != 4)
    return 2;
  load(argv[1], &flash);
  load(argv[2], &envelope);
  load(argv[3], &key);
  tell("suit_boot", boot);
  tell("suit_slot", slot);
  tell("suit_status", status);
  tell("suit_check", check);
  tell("suit_trim", trim);
  tell("suit_read", read_envelope);
  tell("suit_authentic", authentic);
  tell("nothing", nothing);
  return 0;
}
