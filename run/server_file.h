/* The file that a memory server writes: by what its start is known, and how its words and units are reached. A text, one `name value` a line. */

#ifndef NOLTHEWYR_SERVER_FILE_H
#define NOLTHEWYR_SERVER_FILE_H

#include <stdbool.h>
#include <stddef.h>
#include <stdint.h>

#include "identity.h"

/* Inside the library alone. */
#pragma GCC visibility push(hidden)

enum { NOLTHEWYR_NAME_SIZE = 64, NOLTHEWYR_ADDRESS_SIZE = 128 };

/* Words, units or the identity where a card or a provider finds them. */
typedef struct nolthewyr_region {
    uint64_t key;
    uint64_t base;
} nolthewyr_region;

typedef struct nolthewyr_server {
    char version[NOLTHEWYR_NAME_SIZE]; /* the library's: what words mean may change between series */
    nolthewyr_identity identity;
    char over[NOLTHEWYR_NAME_SIZE];    /* `memory`, or a provider of libfabric */
    char memory[NOLTHEWYR_NAME_SIZE];  /* the name of the shared memory */
    char host[NOLTHEWYR_NAME_SIZE];    /* the server's machine; empty where the provider stays on one */
    char port[NOLTHEWYR_NAME_SIZE];    /* at which it listens; empty where the provider has none, or is to choose one */
    char address[2 * NOLTHEWYR_ADDRESS_SIZE + 1]; /* of the server's endpoint, in hexadecimal digits */
    int file; /* of a run: the server's file, open */
    nolthewyr_region start; /* the identity */
    nolthewyr_region words;
    nolthewyr_region units;
} nolthewyr_server;

/* 64 * 4^(levels - 1) (document 01, "The tree"); 0 for levels that no tree has. */
uint64_t nolthewyr_unit_count(uint64_t levels);

/* Document 01's test of the settings, and one that only runs need: the patience is over the wait. If not, `error` says why. */
bool nolthewyr_server_settled(nolthewyr_settings settings, char *error);

bool nolthewyr_server_over_memory(const nolthewyr_server *server);

/* Reads the open file, all of whose lines it must know. If it cannot, `error` says why and names the file. */
bool nolthewyr_server_read(nolthewyr_server *server, int opened, const char *file, char *error);

/* The bytes of the server's address, of which there are at most NOLTHEWYR_ADDRESS_SIZE. */
void nolthewyr_address_read(const nolthewyr_server *server, unsigned char *bytes);

/* Writes the file whole, for its user alone, where none is, and locks it as its server. Gives the file, which stays open, or -1; `error` then
 * says why. */
int nolthewyr_server_write(const nolthewyr_server *server, const char *file, char *error);

#pragma GCC visibility pop

#endif
