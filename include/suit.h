/* suit.h: SUIT envelopes and the flash of `suit`, for C programs on 64-bit targets.
 *
 * `rt lib`, called in the folder of a crate, builds its archive there, as out/libNAME.a:
 *
 *   suit_c    suit_read, suit_authentic and suit_status; these allocate nothing. Needs memcpy, memmove and memset.
 *   check_c   suit_check and suit_trim; both allocate memory.
 *   boot_c    suit_boot and suit_slot; both allocate memory.
 *   port_c    suit_command; it allocates memory. Needs the two functions of the port, at the end of this file.
 *
 * docs/proved.md says what is proved of each call, under the name of its crate. The proofs are about the very bytes that are passed.
 *
 * The caller must see to the following, since nothing checks it:
 *
 *   - No pointer is null, not even one to a buffer of length 0. Each buffer has as many bytes as its length says.
 *   - A pointer to a struct or to a number is aligned for its type. Byte buffers need no alignment.
 *   - The buffers of one call, including those for its results, do not overlap, and nothing else writes to them during the call.
 *
 * No call keeps a pointer that it was passed, or writes to any of these buffers except those for its results. A call that allocates
 * memory has freed it when it returns. Link c/arena.c to allocate from a buffer of your own, or the kit's liblibc_c.a to allocate with
 * malloc.
 *
 * Also trusted, and not proved: the allocator, the two functions of the port, the compilers, and that the stack is large enough.
 * bench/README.md says how much of it each call takes.
 */
#ifndef SUIT_H
#define SUIT_H

#include <stddef.h>
#include <stdint.h>

#if SIZE_MAX != UINT64_MAX
#error "suit.h: for 64-bit targets alone"
#endif

#ifdef __cplusplus
extern "C" {
#endif

/* What the calls return. Each number is the program's exit status for the same outcome, except that suit_check has a lower limit on the
 * length. suit_command also returns the program's other statuses (docs/formats.md), and no other call returns SUIT_HOST_FAULT. */
enum suit_answer {
  SUIT_DONE = 0,               /* the call was done, or what it asks is so */
  SUIT_UNSAFE = 1,             /* on some path an invoke is not covered */
  SUIT_REFUSED = 3,            /* the bytes are refused */
  SUIT_NOT_AUTHENTIC = 4,      /* the envelope is not authentic under the key */
  SUIT_STOPPED = 6,            /* a condition failed, or a directive could not be done */
  SUIT_HOST_FAULT = 7,         /* a call of the host failed */
  SUIT_FLASH_FAULT = 8,        /* a call of the flash failed */
  SUIT_LAUNCH_FAULT = 10,      /* an image could not be launched */
  SUIT_NO_MEMORY = 11,         /* memory ran out */
  SUIT_TOO_WIDE = 12,          /* there is too much to judge */
  SUIT_UNCONFIGURED = 13,      /* the flash has no configuration, or a bad one */
  SUIT_NOTHING_INSTALLED = 15, /* the flash has no record */
  SUIT_SEVERED = 16,           /* a severed member is not in the envelope */
  SUIT_DIFFERS = 17,           /* a severed member has another digest than the manifest states */
  SUIT_UNKNOWN_COMPONENT = 18, /* the layout lacks a component */
  SUIT_TOO_LONG = 21           /* the trimmed envelope is longer than the limit, or than the room for it */
};

/* The numbers of an envelope. Lengths are in bytes. The manifest lies within the bytes that were passed. */
struct suit_envelope {
  uint64_t sequence;       /* the manifest's sequence number */
  uint64_t manifest_place; /* the offset of the manifest, in bytes from the first byte of the envelope */
  uint64_t manifest_length;
  uint64_t trimmed_length; /* of the envelope with only its wrapper and manifest; at most UINT64_MAX */
  uint8_t digest[64];      /* the digest that the wrapper states, then zeros */
  uint32_t components;     /* how many components the manifest has */
  uint32_t digest_length;  /* in bytes: 32 for SHA-256, 48 for SHA-384, 64 for SHA-512 */
};

/* The record of a flash: the manifest that is installed. */
struct suit_record {
  uint64_t sequence;      /* the manifest's sequence number */
  uint64_t generation;    /* one more for each record that was committed */
  uint64_t length;        /* of the envelope in its bank, in bytes */
  uint32_t bank;          /* the bank that holds the envelope, 0 or 1 */
  uint32_t digest_length; /* in bytes: 32 for SHA-256, 48 for SHA-384, 64 for SHA-512 */
  uint8_t digest[64];     /* the digest of the manifest, then zeros */
  uint8_t active[32];     /* the slot in use of each component of the layout, 0 or 1; 0 after the last component */
};

/* Reads the numbers of the envelope in `file`. Does not judge whether the envelope is authentic.
 *
 *   SUIT_DONE      *out has the numbers; *place is left as it was.
 *   SUIT_REFUSED   The bytes do not spell an envelope, or its manifest is refused. *place is the offset of the fault, in bytes from the
 *                  start of the file; *out is left as it was.
 */
int32_t suit_read(const uint8_t *file, size_t length, struct suit_envelope *out, uint64_t *place);

/* Judges whether the envelope in `file` is authentic under `key`.
 *
 *   SUIT_DONE            Exactly if the wrapper states the digest of the manifest, and some block of the wrapper verifies under the key.
 *   SUIT_REFUSED         The bytes do not spell an envelope.
 *   SUIT_NOT_AUTHENTIC   Otherwise.
 */
int32_t suit_authentic(const uint8_t *file, size_t length, const uint8_t *key, size_t key_length);

/* Reads the record of a flash of either layout version. `flash` is the whole flash, of `length` bytes. Unless SUIT_DONE is returned,
 * *out is left as it was.
 *
 *   SUIT_DONE                *out is the record.
 *   SUIT_NOTHING_INSTALLED   The flash has no record. A flash of fewer than 49,152 bytes has none, nor has one whose root is open and
 *                            names another version than 2, or a base that the size of the flash does not allow.
 *   SUIT_FLASH_FAULT         A read failed. That this never happens with a flash in memory is tested, but not proved.
 */
int32_t suit_status(const uint8_t *flash, size_t length, struct suit_record *out);

/* Checks the envelope in `file`: whether each invoke is covered on each path of both procedures of the manifest. Unless SUIT_REFUSED is
 * returned, *place is left as it was.
 *
 *   SUIT_DONE        Each invoke is covered on each path.
 *   SUIT_UNSAFE      On some path an invoke is not covered.
 *   SUIT_TOO_WIDE    There is too much to judge.
 *   SUIT_REFUSED     The grammar refuses the envelope, its manifest, or a severed member. *place is the offset of the fault, in bytes
 *                    from the start of the file.
 *   SUIT_TOO_LONG    The trimmed envelope has more than 16,384 bytes.
 *   SUIT_SEVERED     A severed member is not in the envelope.
 *   SUIT_DIFFERS     A severed member has another digest than the manifest states.
 *   SUIT_NO_MEMORY   Memory ran out.
 *
 * The checks are made in this order: the envelope's grammar, its trimmed length, the manifest's grammar, the severed members, how much
 * there is to judge, and the paths. The first that fails is the answer. Unless memory runs out, each answer is returned exactly when
 * it applies.
 *
 * 16,384 bytes is what a bank of layout version 1 holds. The program's `check` takes a trimmed envelope of up to 65,536 bytes, which is
 * what a bank of version 2 holds. For a length between the two, suit_check returns SUIT_TOO_LONG, whatever `check` says of the envelope.
 */
int32_t suit_check(const uint8_t *file, size_t length, uint64_t *place);

/* Trims the envelope in `file`: writes it, with only its wrapper and manifest, to the front of `room`, which has `most` bytes.
 *
 *   SUIT_DONE        *count bytes were written. The rest of the room is left as it was.
 *   SUIT_TOO_LONG    The trimmed envelope has *count bytes, and the room has fewer. The room is left as it was.
 *   SUIT_REFUSED     The bytes do not spell an envelope. The room and *count are left as they were.
 *   SUIT_NO_MEMORY   Memory ran out. The room and *count are left as they were.
 */
int32_t suit_trim(const uint8_t *file, size_t length, uint8_t *room, size_t most, uint64_t *count);

/* The image that is to be started. Unless `found` is 1 the other fields mean nothing; if it is, all bytes of the image lie within the
 * flash. */
struct suit_image {
  uint64_t place;         /* where the image begins, in bytes from the start of the flash */
  uint64_t length;        /* in bytes */
  uint32_t component;     /* the index of its component in the manifest */
  uint32_t found;         /* 1 if there is an image, and otherwise 0 */
  uint32_t digest_length; /* in bytes: 32 for SHA-256, 48 for SHA-384, 64 for SHA-512 */
  uint8_t digest[64];     /* the digest that the manifest names for the image, then zeros */
};

/* Boots from a flash in memory: runs the invocation procedure of the installed manifest, and reports which image it invoked. It starts
 * nothing: jumping to the image is left to the caller. `flash` is the whole flash, of `length` bytes, and is never written to. *out is
 * always written.
 *
 *   SUIT_DONE                The procedure ran to its end. out->found is 1 if it invoked an image, and otherwise 0.
 *   SUIT_UNCONFIGURED        The flash has no configuration, or a bad one.
 *   SUIT_NOTHING_INSTALLED   The flash has no record.
 *   SUIT_REFUSED             The installed envelope, or its manifest, is refused.
 *   SUIT_NOT_AUTHENTIC       The installed envelope is not authentic under the flash's key.
 *   SUIT_UNKNOWN_COMPONENT   The layout lacks a component of the manifest.
 *   SUIT_STOPPED             A condition of the procedure failed, or a directive could not be done.
 *   SUIT_FLASH_FAULT         The procedure tried to write to the flash, which stopped it.
 *   SUIT_LAUNCH_FAULT        The procedure invoked a second image, one in working memory, one for which the manifest has no digest in
 *                            force, or one with more than 256 bytes of arguments.
 *   SUIT_NO_MEMORY           Memory ran out, before the procedure began.
 *
 * If out->found is 1, the manifest is the one that the flash's record names, and is authentic under the flash's key. On a sound flash,
 * which is one that only `suit` has written, the bytes of the image have out->digest as their digest, and the size that the manifest
 * names, if it names one. Unless SUIT_DONE is returned, out->found is 0.
 *
 * Configuration, record, envelope, authenticity and components are checked in this order, and then the procedure begins. It is not
 * proved that SUIT_FLASH_FAULT and SUIT_LAUNCH_FAULT have no other causes than these.
 *
 * Most of the memory that this call allocates is room for a bank: 16,384 bytes, or 65,536 for layout version 2.
 */
int32_t suit_boot(const uint8_t *flash, size_t length, struct suit_image *out);

/* Where the content of a component is in the flash. The content is no longer than `capacity`, and that many bytes from `place` on lie
 * within the flash. */
struct suit_slot {
  uint64_t place;    /* where the content begins, in bytes from the start of the flash */
  uint64_t length;   /* of the content, in bytes */
  uint64_t capacity; /* the most bytes that the content may have */
  uint32_t number;   /* the number of its slot, 0 or 1 */
};

/* Finds the content in use of the component with this index in the flash's layout. `flash` is the whole flash, of `length` bytes. Unless
 * SUIT_DONE is returned, *out is left as it was.
 *
 *   SUIT_DONE                *out says where the content is.
 *   SUIT_UNCONFIGURED        The flash has no configuration, or a bad one.
 *   SUIT_UNKNOWN_COMPONENT   The layout has no component of this index, or it is in working memory.
 *   SUIT_NOTHING_INSTALLED   The flash has no record.
 *   SUIT_NO_MEMORY           Memory ran out.
 *   SUIT_FLASH_FAULT         A read failed. As for suit_status, that this never happens is tested, but not proved.
 *
 * SUIT_UNCONFIGURED, SUIT_UNKNOWN_COMPONENT and SUIT_NOTHING_INSTALLED are checked for in this order. Unless memory runs out or a read
 * fails, each is returned exactly when it is the first that applies.
 */
int32_t suit_slot(const uint8_t *flash, size_t length, uint32_t component, struct suit_slot *out);

/* ---- over a port ---- */

/* Runs a command of the program over a port. Whatever the command does with the flash, the files, the launcher and the output, it asks
 * the other end of the port to do, in messages.
 *
 *   words, length   The words of the command, separated by zero bytes, such as "run\0update\0first.suit". Do not count a zero after the
 *                   last word: it would add an empty word. Bytes that are not UTF-8 are a usage error, status 2.
 *   port            The number that the port's two functions are called with.
 *   flash_size      The size of the flash in bytes.
 *
 * Returns the status of the program. Returns SUIT_FLASH_FAULT if the flash has fewer than 49,152 bytes, and SUIT_NO_MEMORY if memory
 * runs out for the words; in these two cases no message is sent.
 */
int32_t suit_command(const uint8_t *words, size_t length, int32_t port, uint64_t flash_size);

/* What a message asks for. `place` and `length` are fields of the message. */
enum suit_request {
  SUIT_PORT_READ = 1,          /* read `length` bytes of the flash from `place` on; the answer is 0, followed by these bytes */
  SUIT_PORT_WRITE = 2,         /* write the `length` bytes that follow to the flash, from `place` on */
  SUIT_PORT_SYNC = 3,          /* answer once everything that was written is durable */
  SUIT_PORT_START = 4,         /* open the file whose name follows, of `length` bytes, at its first byte; answer 1 if it is absent */
  SUIT_PORT_PULL = 5,          /* read at most `length` more bytes of that file; the answer is their number, 0 at its end, then the bytes */
  SUIT_PORT_STORE = 6,         /* store a file: its name follows, of `place` bytes, and then its `length` bytes */
  SUIT_PORT_ARGUMENTS = 7,     /* keep the `length` bytes that follow as the arguments of the image that is launched next */
  SUIT_PORT_LAUNCH_FLASH = 8,  /* launch the `length` bytes of the flash from `place` on */
  SUIT_PORT_LAUNCH_MEMORY = 9, /* launch the `length` bytes that follow */
  SUIT_PORT_PUT = 10           /* print the `length` bytes of text that follow */
};

/* The head of a message, as it is sent: each number has its lowest byte first. The bytes that belong to the request follow it. */
struct suit_message {
  uint32_t request;   /* one of enum suit_request */
  uint32_t component; /* the index of the component that is launched, and otherwise 0 */
  uint64_t serial;    /* the serial number of the message, which its answer repeats */
  uint64_t place;
  uint64_t length;
};

/* The answer to a message, in the same byte order. Any number other than 0 and those that the request names is a failure.
 *
 * A command sends messages from four objects: the flash, the files, the launcher and the output. After an answer that is incomplete, or
 * that belongs to another message, the object that sent the message sends no more. */
struct suit_port_answer {
  uint64_t serial; /* that of the message */
  uint64_t number; /* 0 if the request was done, unless the request says otherwise */
};

/* The port's two functions are called read and write. A POSIX system has them: there the port is a descriptor that is open for both, such
 * as a socket. On any other system supply these two; each transfers at least one byte and returns how many, or else returns -1:
 *
 *   ssize_t write(int port, const void *bytes, size_t most);
 *   ssize_t read(int port, void *room, size_t most);
 */

#ifdef __cplusplus
}
#endif
#endif
