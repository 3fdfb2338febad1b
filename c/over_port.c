/* over_port: runs a command of `suit` over a port. A second process at the other end answers the messages: its flash is the file
 * suit.flash, and its files are those of the working directory.
 *
 *     over_port [-r N] WORD...
 *
 * The exit status is that of the command. With -r the N-th message is refused; if there were fewer than N messages, the status is 99.
 * Built with -DOVER_ARENA, and linked with arena.c and paint.c, it also prints to standard error how much stack and memory the command
 * took.
 */
#define _XOPEN_SOURCE 700
#ifdef OVER_ARENA
#include "arena.h"
#include "paint.h"
#endif
#include "suit.h"

#include <fcntl.h>
#include <stdio.h>
#include <stdlib.h>
#include <string.h>
#include <sys/socket.h>
#include <sys/wait.h>
#include <unistd.h>

enum { FLASH_SIZE = 4194304, FEWER = 99 };

/* The end of the port that answers messages. */
struct server {
  int line;
  int flash;
  FILE *file;     /* the one that was opened last, or null */
  uint64_t count; /* how many messages have come so far */
  uint64_t refused; /* the number of the message that is refused, counted from 1; 0 if none is */
};

static void fail(const char *what) {
  perror(what);
  exit(70);
}

/* Fills the room with `length` bytes. Returns 0 if the line ends or fails before that. */
static int take(int line, void *room, size_t length) {
  for (size_t done = 0; done < length;) {
    ssize_t count = read(line, (uint8_t *)room + done, length - done);
    if (count <= 0)
      return 0;
    done += (size_t)count;
  }
  return 1;
}

/* Sends all the bytes. Exits if they cannot be sent. */
static void give(int line, const void *bytes, size_t length) {
  for (size_t done = 0; done < length;) {
    ssize_t count = write(line, (const uint8_t *)bytes + done, length - done);
    if (count <= 0)
      exit(0);
    done += (size_t)count;
  }
}

static void answer(struct server *server, const struct suit_message *message, uint64_t number) {
  struct suit_port_answer said = {message->serial, number};
  give(server->line, &said, sizeof said);
}

/* How many bytes follow the head of a message: none, its bytes, or a name and its bytes. */
static size_t follows(const struct suit_message *message) {
  switch (message->request) {
  case SUIT_PORT_WRITE:
  case SUIT_PORT_START:
  case SUIT_PORT_ARGUMENTS:
  case SUIT_PORT_LAUNCH_MEMORY:
  case SUIT_PORT_PUT:
    return message->length;
  case SUIT_PORT_STORE:
    return message->place + message->length;
  default:
    return 0;
  }
}

static uint64_t store(const char *name, const uint8_t *bytes, size_t length) {
  FILE *file = fopen(name, "wb");
  if (!file)
    return 1;
  int whole = fwrite(bytes, 1, length, file) == length;
  return fclose(file) == 0 && whole ? 0 : 1;
}

/* Writes a launched image to the file to which the program would write it. */
static uint64_t launch(const struct suit_message *message, const uint8_t *bytes) {
  char name[32];
  snprintf(name, sizeof name, "boot-%u.img", (unsigned)message->component);
  return store(name, bytes, message->length);
}

static void launch_flash(struct server *server, const struct suit_message *message) {
  uint8_t *bytes = malloc(message->length + 1);
  if (!bytes)
    fail("over_port");
  int read = pread(server->flash, bytes, message->length, (off_t)message->place) == (ssize_t)message->length;
  answer(server, message, read ? launch(message, bytes) : 1);
  free(bytes);
}

static void read_flash(struct server *server, const struct suit_message *message) {
  uint8_t *bytes = malloc(message->length + 1);
  if (!bytes)
    fail("over_port");
  int read = pread(server->flash, bytes, message->length, (off_t)message->place) == (ssize_t)message->length;
  answer(server, message, read ? 0 : 1);
  if (read)
    give(server->line, bytes, message->length);
  free(bytes);
}

static void pull(struct server *server, const struct suit_message *message) {
  uint8_t *bytes = malloc(message->length + 1);
  if (!bytes)
    fail("over_port");
  size_t count = server->file ? fread(bytes, 1, message->length, server->file) : 0;
  answer(server, message, count);
  give(server->line, bytes, count);
  free(bytes);
}

static uint64_t start(struct server *server, const uint8_t *name, size_t length) {
  char text[4096];
  if (server->file)
    fclose(server->file);
  server->file = NULL;
  if (length >= sizeof text)
    return 2;
  memcpy(text, name, length);
  text[length] = 0;
  server->file = fopen(text, "rb");
  return server->file ? 0 : 1;
}

static uint64_t store_named(const struct suit_message *message, const uint8_t *bytes) {
  char name[4096];
  if (message->place >= sizeof name)
    return 1;
  memcpy(name, bytes, message->place);
  name[message->place] = 0;
  return store(name, bytes + message->place, message->length);
}

static void perform(struct server *server, const struct suit_message *message, const uint8_t *bytes) {
  switch (message->request) {
  case SUIT_PORT_READ:
    read_flash(server, message);
    break;
  case SUIT_PORT_WRITE:
    answer(server, message,
           pwrite(server->flash, bytes, message->length, (off_t)message->place) == (ssize_t)message->length ? 0 : 1);
    break;
  case SUIT_PORT_SYNC:
    answer(server, message, fsync(server->flash) == 0 ? 0 : 1);
    break;
  case SUIT_PORT_START:
    answer(server, message, start(server, bytes, message->length));
    break;
  case SUIT_PORT_PULL:
    pull(server, message);
    break;
  case SUIT_PORT_STORE:
    answer(server, message, store_named(message, bytes));
    break;
  case SUIT_PORT_ARGUMENTS:
    answer(server, message, 0);
    break;
  case SUIT_PORT_LAUNCH_FLASH:
    launch_flash(server, message);
    break;
  case SUIT_PORT_LAUNCH_MEMORY:
    answer(server, message, launch(message, bytes));
    break;
  case SUIT_PORT_PUT:
    answer(server, message, fwrite(bytes, 1, message->length, stdout) == message->length && fflush(stdout) == 0 ? 0 : 1);
    break;
  default:
    answer(server, message, UINT64_MAX);
  }
}

/* Answers messages until the line ends. */
static void serve(struct server *server) {
  struct suit_message message;
  while (take(server->line, &message, sizeof message)) {
    size_t length = follows(&message);
    uint8_t *bytes = malloc(length + 1);
    if (!bytes || !take(server->line, bytes, length))
      fail("over_port");
    server->count++;
    if (server->count == server->refused)
      answer(server, &message, UINT64_MAX);
    else
      perform(server, &message, bytes);
    free(bytes);
  }
}

/* Writes the words to `words`, separated by zero bytes, and returns how long they are. */
static size_t joined(char *words, size_t room, int count, char **word) {
  size_t length = 0;
  for (int i = 0; i < count; i++) {
    size_t more = strlen(word[i]);
    if (length + more + 1 > room)
      fail("over_port: too many words");
    if (i > 0)
      words[length++] = 0;
    memcpy(words + length, word[i], more);
    length += more;
  }
  return length;
}

static struct {
  char words[65536];
  size_t length;
  int line;
  int32_t status;
} asked;

static void command(void) { asked.status = suit_command((const uint8_t *)asked.words, asked.length, asked.line, FLASH_SIZE); }

#ifdef OVER_ARENA
static _Alignas(16) uint8_t room[67108864];

static void run(void) {
  suit_arena(room, sizeof room);
  size_t stack = suit_painted(command);
  fprintf(stderr, "%zu of stack %zu of memory\n", stack, suit_arena_peak());
}
#else
static void run(void) { command(); }
#endif

int main(int argc, char **argv) {
  int first = 1;
  uint64_t refused = 0;
  if (argc > 2 && strcmp(argv[1], "-r") == 0) {
    refused = strtoull(argv[2], NULL, 10);
    first = 3;
  }
  asked.length = joined(asked.words, sizeof asked.words, argc - first, argv + first);
  int ends[2];
  if (socketpair(AF_UNIX, SOCK_STREAM, 0, ends) != 0)
    fail("socketpair");
  pid_t child = fork();
  if (child < 0)
    fail("fork");
  if (child == 0) {
    close(ends[0]);
    int flash = open("suit.flash", O_RDWR | O_CREAT, 0666);
    if (flash < 0 || ftruncate(flash, FLASH_SIZE) != 0)
      fail("suit.flash");
    struct server server = {ends[1], flash, NULL, 0, refused};
    serve(&server);
    return refused > server.count ? FEWER : 0;
  }
  close(ends[1]);
  asked.line = ends[0];
  run();
  close(ends[0]);
  int ended;
  if (waitpid(child, &ended, 0) != child || !WIFEXITED(ended))
    fail("over_port: the other end");
  return WEXITSTATUS(ended) == 0 ? asked.status : WEXITSTATUS(ended);
}
