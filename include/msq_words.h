/*
 * Queues of three words: they come out just as they went in, whatever they are, as pointers of any kind, keys of 64 bits, or the
 * bytes of a small struct. Such a queue is of MSQ_NON_BLOCKING or MSQ_TWO_LOCK.
 * Its seats are of a type of their own, which calls of msq.h don't take; what the caller owes, and what each code means, stands
 * there.
 */
#ifndef MSQ_WORDS_H
#define MSQ_WORDS_H

#include "msq.h"

#ifdef __cplusplus
extern "C" {
#endif

/* A seat of such a queue: all zeros, or what the last call left. */
typedef struct msq_words_seat { msq_seat seat; } msq_words_seat;

/* Pushes these words, in so many turns at most, 1 or more. MSQ_OK, MSQ_NO_NODE, MSQ_WORN_FREE, MSQ_BUSY, MSQ_CLOSED,
 * MSQ_BAD_SIZE where there are no turns, MSQ_NO_SEAT or MSQ_NO_ROLE; of MSQ_NON_BLOCKING also MSQ_WORN_NEXT or MSQ_WORN_TAIL.
 * Refused, nothing was pushed. MSQ_BUSY also comes where each place for words that it tried, one a turn, was taken: with as many
 * turns as nodes it tries each. */
MSQ_NODISCARD uint32_t msq_words_push(msq_words_seat *seat, const msq_words *words, uint32_t turns);

/* The others are as those of msq.h without `words` in their names, but that MSQ_BAD_SIZE comes of MSQ_RING too. */
MSQ_NODISCARD uint32_t msq_words_create(uint32_t kind, uint32_t nodes, uint64_t limit, const uint8_t *roles, size_t roles_len,
                                        msq_words_seat *seats, size_t seats_len);
MSQ_NODISCARD uint32_t msq_words_pop(msq_words_seat *seat, uint32_t turns, msq_item *item);
MSQ_NODISCARD uint32_t msq_words_shut(msq_words_seat *seat, uint32_t turns);
uint32_t msq_words_meet(msq_words_seat *one, msq_words_seat *other);
MSQ_NODISCARD uint32_t msq_words_emptiness(msq_words_seat *seat);
MSQ_NODISCARD uint32_t msq_words_len(msq_words_seat *seat, msq_length *length);
MSQ_NODISCARD uint32_t msq_words_close(msq_words_seat *seats, size_t seats_len, msq_item *items, size_t items_len,
                                       msq_rest *rest);
void msq_words_drop(msq_words_seat *seat);

#ifdef __cplusplus
}
#endif

MSQ_BEGIN

MSQ_CALLS_OF(words_, words_, msq_words_seat, const msq_words *, msq_item)

MSQ_END

#define msq_words_create(...) msq_checked_words_create(__VA_ARGS__)
#define msq_words_push(...) msq_checked_words_push(__VA_ARGS__)
#define msq_words_pop(...) msq_checked_words_pop(__VA_ARGS__)
#define msq_words_shut(...) msq_checked_words_shut(__VA_ARGS__)
#define msq_words_meet(...) msq_checked_words_meet(__VA_ARGS__)
#define msq_words_emptiness(...) msq_checked_words_emptiness(__VA_ARGS__)
#define msq_words_len(...) msq_checked_words_len(__VA_ARGS__)
#define msq_words_close(...) msq_checked_words_close(__VA_ARGS__)
#define msq_words_drop(...) msq_checked_words_drop(__VA_ARGS__)

#endif
