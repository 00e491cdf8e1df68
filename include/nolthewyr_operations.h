/* A run on another machine than the words: a step as one operation on one word. nolthewyr.h has these declarations too. docs/REMOTE.md says
 * how an operation is carried out over a network, and when a run reads its clock.
 *
 * None of these calls touches a word: a client goes in and comes back by value. It starts all zero. All is tested: a call with any numbers is
 * accepted or refused by a number. A run makes its request, and then one operation after another until its phase is 9: it asks which
 * (nolthewyr_operation), has it carried out, which gives back the word as it was found, and asks what becomes of its client
 * (nolthewyr_completed). Each operation is atomic: it leaves nolthewyr_applied of the word found, and nobody touches that word between. By one
 * clock for both calls this is what nolthewyr_step does with words in the caller's memory.
 *
 * Operations can also be posted together, and are then awaited once: nolthewyr_operations_ahead says which, and nolthewyr_completed_all what
 * becomes of the client when all words found have come back. The two are lent lists, whose lengths must be true, as nolthewyr.h has it. */

#ifndef NOLTHEWYR_OPERATIONS_H
#define NOLTHEWYR_OPERATIONS_H

#include "nolthewyr.h"

#ifdef __cplusplus
extern "C" {
#endif

/* What an operation does to its word. */
enum nolthewyr_operation_kind {
    NOLTHEWYR_OPERATION_NONE = 0, /* no word is touched: it is completed at once, by any `found` */
    NOLTHEWYR_OPERATION_READ = 1,
    NOLTHEWYR_OPERATION_ADD = 2,  /* masked fetch-add: adds within each of the six fields, which wraps by itself and carries nothing */
    NOLTHEWYR_OPERATION_SWAP = 3  /* masked compare-and-swap: compares and sets only the bits under its masks */
};

/* The number, the kind, and the node, whose word is word `node` - 1; 0 where no word is touched. A swap sets the bits of `swapped` to those of
 * `value` if the word has in the bits of `compared` those of `expected`. An add has in `value` what is added to each field, in the field's place:
 * from bit 63 down Exp 1 bit, Occ 1, TCnt 15, TMax 15, DCnt 16, DMax 16. All else is 0, and so is all but the number in a refused answer. */
typedef struct nolthewyr_operation_answer {
    uint64_t number;
    uint64_t kind;
    uint64_t node;
    uint64_t compared;
    uint64_t expected;
    uint64_t swapped;
    uint64_t value;
} nolthewyr_operation_answer;

/* The number, and the client after the call; in a refused answer the client as it was. */
typedef struct nolthewyr_client_answer {
    uint64_t number;
    nolthewyr_client next;
} nolthewyr_client_answer;

/* The number, and how many operations are in the list; 0 where no word is touched now, and in a refused answer. */
typedef struct nolthewyr_ahead_answer {
    uint64_t number;
    uint64_t count;
} nolthewyr_ahead_answer;

/* The number, how many of the words found counted, and the client after these; in a refused answer 0, and the client as it was. */
typedef struct nolthewyr_completed_all_answer {
    uint64_t number;
    uint64_t counted;
    nolthewyr_client next;
} nolthewyr_completed_all_answer;

/* Which operation the client's phase says, by its own clock. Where its patience has run out, none. Tests the settings (1), the clock (5) and
 * that the record is readable (6). */
nolthewyr_operation_answer nolthewyr_operation(nolthewyr_client client, nolthewyr_settings settings, uint64_t clock);

/* The word that an operation leaves where it finds this one. One of an unknown kind leaves it as it was; the number is not looked at. */
uint64_t nolthewyr_applied(nolthewyr_operation_answer operation, uint64_t found);

/* The client after its operation, which found this word; the clock is then its last. Tests the settings (1), the clock (5), that the record is
 * readable (6), and that a returning leaf finds no wanted bit clear (9). */
nolthewyr_client_answer nolthewyr_completed(nolthewyr_client client, nolthewyr_settings settings, uint64_t clock, uint64_t found);

/* Which operations can be posted together now, in this order: those that come next whatever the words found are, and reads that come next if
 * all before them find nobody in the way. Never a write that a word found could forbid. Fills the lent list, of `room` operations, and leaves
 * what is behind the last one as it was. They must be carried out in the order of the list, and others' operations may come between. Where no
 * word is touched now there is none: such a step is completed by nolthewyr_completed. Tests as nolthewyr_operation does.
 *
 * A list of a later piece (`current` over 0) in which the parent may be read, in phases 1, 2 and 4, and in 3 at place 0, is posted only if
 * clock + T < taken + P, with T the wait and P the patience. Else nothing is posted until patience has run out, by which the window is given back. */
nolthewyr_ahead_answer nolthewyr_operations_ahead(nolthewyr_client client, nolthewyr_settings settings, uint64_t clock,
                                                  nolthewyr_operation_answer *operations, size_t room);

/* The client after those of its operations that were posted together and found these words, in the order of the list; they may be fewer than
 * the list has. At the first that turns another way, what was read behind it does not count: it is posted again when it comes next. Tests as
 * nolthewyr_completed does, by 9 only where the first word found is refused by it.
 *
 * One clock completes all. For a list begun in phase 5 or 6 it is read after the last has come back, for every other before the first is posted.
 * If by that later reading the patience of a later piece is over (current > 0 and clock - taken >= P), none of what was posted is due by it:
 * number 0 with counted 0 says so, and the words stay changed with nobody to give them back. Then the clock is the later of the one before posting
 * and t1 + T, by both of which patience is not over, since the list that noted t1 was posted as above.
 *
 * In a list begun in phase 5, 6 or 10 all count. If fewer do, a word was damaged (9, at a word that is not the first): all were carried out, and
 * must not be posted again. */
nolthewyr_completed_all_answer nolthewyr_completed_all(nolthewyr_client client, nolthewyr_settings settings, uint64_t clock,
                                                       const uint64_t *found, size_t found_count);

/* Asks for [left, right) for an idle client. Tests the settings (1), that the record is readable (6), the window (7) and the phase (8). */
nolthewyr_client_answer nolthewyr_own_request(nolthewyr_client client, nolthewyr_settings settings, uint64_t left, uint64_t right);

/* Ends the holding of a client in phase 9, which then gives its words back by operations until it is idle. Tests 1, 6 and 8. */
nolthewyr_client_answer nolthewyr_own_release(nolthewyr_client client, nolthewyr_settings settings);

/* Gives up a window that is not yet held. What the client has of it, it gives back by operations until it is idle. Tests 1, 6 and 8. */
nolthewyr_client_answer nolthewyr_own_cancel(nolthewyr_client client, nolthewyr_settings settings);

/* A kind of operation in plain words, an unknown one too. */
const char *nolthewyr_operation_text(uint64_t number);

#ifdef __cplusplus
}
#endif

#endif
