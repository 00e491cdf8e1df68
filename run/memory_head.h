/* How a server's shared memory is laid out: the head, then the words, and behind them the units. */

#ifndef NOLTHEWYR_MEMORY_HEAD_H
#define NOLTHEWYR_MEMORY_HEAD_H

#include <stdatomic.h>

#include "identity.h"

/* The words begin at a page of their own. */
enum { NOLTHEWYR_HEAD_SIZE = 4096 };

typedef struct nolthewyr_memory_head {
    nolthewyr_identity identity;
    /* The server's thread while it lives, in the bits FUTEX_TID_MASK. The server sets it to 0 when it ends; if it dies, the kernel takes the thread
     * out (set_robust_list(2)). So a run knows at every access whether it is served, and asks nobody. */
    _Atomic uint32_t server;
} nolthewyr_memory_head;

_Static_assert(sizeof(nolthewyr_memory_head) <= NOLTHEWYR_HEAD_SIZE, "the head has room");

#endif
