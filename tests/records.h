/* The calls on one client that the Rattle library crate `probe` exports, over the structs of the library `nolthewyr`. A call on one client
   does not look at its number, nor at the kind in the struct: it is passed the kind beside it. */
#ifndef RECORDS_H
#define RECORDS_H

#include "../include/nolthewyr.h"

#include <stdbool.h>

/* The number (0 accepted), and the client after the call. */
struct stepped {
    uint64_t number;
    nolthewyr_client client;
};

/* The call that the kind names: 0 request, 1 step, 2 release, any other number cancel. */
struct stepped probe_act(nolthewyr_client self, uint64_t *words, size_t count, nolthewyr_settings s, nolthewyr_call c, uint64_t kind);

/* Whether the record is unreadable by this last clock; H, m, T and P are within their ranges. */
bool probe_unreadable(nolthewyr_record self, nolthewyr_settings s, uint64_t last);

#endif
