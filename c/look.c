/* look: prints an envelope's numbers and whether it is authentic under a key, or the record of a flash.
 *
 *     look envelope FILE KEY
 *     look flash FILE
 */
#include "suit.h"

#include <inttypes.h>
#include <stdio.h>
#include <stdlib.h>
#include <string.h>

struct bytes {
  uint8_t *data;
  size_t length;
};

/* Reads a whole file. */
static struct bytes load(const char *name) {
  FILE *file = fopen(name, "rb");
  if (!file || fseek(file, 0, SEEK_END) != 0) {
    perror(name);
    exit(70);
  }
  struct bytes read = {NULL, (size_t)ftell(file)};
  rewind(file);
  read.data = malloc(read.length + 1);
  if (!read.data || fread(read.data, 1, read.length, file) != read.length) {
    perror(name);
    exit(70);
  }
  fclose(file);
  return read;
}

static void print_hex(const uint8_t *bytes, size_t length) {
  for (size_t i = 0; i < length; i++)
    printf("%02x", bytes[i]);
}

static int look_at_envelope(const char *name, const char *key_name) {
  struct bytes file = load(name), key = load(key_name);
  struct suit_envelope numbers;
  uint64_t place;
  int32_t answer = suit_read(file.data, file.length, &numbers, &place);
  if (answer == SUIT_DONE) {
    printf("sequence %" PRIu64 "\ncomponents %" PRIu32 "\nmanifest %" PRIu64 " bytes at %" PRIu64 "\ntrimmed %" PRIu64 "\ndigest ",
           numbers.sequence, numbers.components, numbers.manifest_length, numbers.manifest_place, numbers.trimmed_length);
    print_hex(numbers.digest, numbers.digest_length);
    answer = suit_authentic(file.data, file.length, key.data, key.length);
    printf("\n%s\n", answer == SUIT_DONE ? "authentic" : "not authentic");
  } else {
    printf("refused at %" PRIu64 "\n", place);
  }
  free(file.data);
  free(key.data);
  return answer;
}

static int look_at_flash(const char *name) {
  struct bytes flash = load(name);
  struct suit_record record;
  int32_t answer = suit_status(flash.data, flash.length, &record);
  if (answer == SUIT_DONE) {
    printf("installed %" PRIu64 "\ngeneration %" PRIu64 "\nbank %" PRIu32 ", %" PRIu64 " bytes\ndigest ", record.sequence,
           record.generation, record.bank, record.length);
    print_hex(record.digest, record.digest_length);
    printf("\n");
  } else {
    printf("%s\n", answer == SUIT_NOTHING_INSTALLED ? "nothing installed" : "flash fault");
  }
  free(flash.data);
  return answer;
}

int main(int argc, char **argv) {
  if (argc == 4 && strcmp(argv[1], "envelope") == 0)
    return look_at_envelope(argv[2], argv[3]);
  if (argc == 3 && strcmp(argv[1], "flash") == 0)
    return look_at_flash(argv[2]);
  fprintf(stderr, "usage: look envelope FILE KEY\n       look flash FILE\n");
  return 2;
}
