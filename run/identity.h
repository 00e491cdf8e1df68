/* By what a start of a server is known. It stands in the server's file, and in its memory, where a run reads it when it opens and compares. */

#ifndef NOLTHEWYR_IDENTITY_H
#define NOLTHEWYR_IDENTITY_H

#include <stdbool.h>
#include <stddef.h>
#include <stdint.h>

#include "nolthewyr.h"

/* Inside the library alone. */
#pragma GCC visibility push(hidden)

/* How a server's memory is laid out: this number grows when an identity, words or units are laid out otherwise. A start has 32 hexadecimal
 * digits, of 128 random bits. */
enum { NOLTHEWYR_LAYOUT = 1, NOLTHEWYR_START_SIZE = 40, NOLTHEWYR_ERROR_SIZE = 1000 };

/* Of one size on every machine, and read as it lies there. */
typedef struct nolthewyr_identity {
    uint64_t layout;
    char start[NOLTHEWYR_START_SIZE];
    nolthewyr_settings settings;
    uint64_t units; /* how many there are */
} nolthewyr_identity;

/* Draws the start of an identity. False if the machine gives no random bits. */
bool nolthewyr_start_drawn(nolthewyr_identity *identity);

/* A random number of 64 bits; false if the machine gives none. */
bool nolthewyr_number_drawn(uint64_t *number);

/* Whether the identity that the server's memory has is that of its file. If not, `error` says what differs, and what to do. */
bool nolthewyr_identity_same(const nolthewyr_identity *in_file, const nolthewyr_identity *at_server, const char *file, char *error);

#pragma GCC visibility pop

#endif
