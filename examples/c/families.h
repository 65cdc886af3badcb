/* All calls by seats that push, pop or shut, by families, for calls.c and stopped.c: of seats with numbers, with three words and with
 * one. Those of the queue that any thread calls are for queue_codes.c. */
#include "msq_words.h"

#include <stdio.h>

enum { MOST_CALLS = 2, SEATS = 4 };

struct call {
    const char *name;
    uint32_t (*make)(void);
};

/* Calls of one kind of queue. What they are of is made with so many nodes, a limit, and so many seats. */
struct family {
    const char *name;
    bool has_ring;
    uint32_t (*open)(uint32_t kind, uint32_t nodes, uint64_t limit, uint16_t seats);
    void (*drop)(void);
    uint32_t (*see)(void);
    void (*push_and_pop)(void); /* by seats that the other calls don't use */
    struct call pushes[MOST_CALLS + 1], pops[MOST_CALLS + 1], shuts[MOST_CALLS + 1];
};

/* A call of this name, which is to be made so. */
#define CALL(name, made)                                                                                               \
    static uint32_t name(void) {                                                                                       \
        return made;                                                                                                   \
    }

/* What a call answers, where it doesn't matter. */
static inline void any(uint32_t code) {
    (void)code;
}

static unsigned right, wrong;

static void expect(const char *family, const char *call, const char *when, uint32_t found, uint32_t due) {
    if (found == due) {
        right++;
    } else {
        wrong++;
        fprintf(stderr, "%s, %s, %s: %s, and not %s\n", family, call, when, msq_code_name(found), msq_code_name(due));
    }
}

static const uint8_t roles[SEATS] = {MSQ_GIVER, MSQ_TAKER, MSQ_BOTH, MSQ_BOTH};
static uint32_t turns = 8;

/* Numbers, by seats. */
static msq_seat seats[SEATS], *giver = &seats[0], *taker = &seats[1];
static uint64_t body = 1;
static msq_value value;
static size_t count;

static uint32_t open_numbers(uint32_t kind, uint32_t nodes, uint64_t limit, uint16_t number) {
    return msq_create(kind, nodes, limit, roles, number, seats, number);
}
static void drop_numbers(void) {
    for (size_t k = 0; k < SEATS; k++) {
        msq_drop(&seats[k]);
    }
}
CALL(see_numbers, msq_emptiness(taker))
static void push_and_pop_numbers(void) {
    static msq_value own;
    any(msq_try_push(&seats[2], 7, 8));
    any(msq_try_pop(&seats[3], 8, &own));
}
CALL(try_push, msq_try_push(giver, body, turns))
CALL(push_all, msq_push_all(giver, &body, 1, turns, &count))
CALL(try_pop, msq_try_pop(taker, turns, &value))
CALL(pop_up_to, msq_pop_up_to(taker, turns, &value, 1, &count))
CALL(try_shut, msq_try_shut(giver, turns))

/* Words, by seats. */
static msq_words_seat word_seats[SEATS], *word_giver = &word_seats[0], *word_taker = &word_seats[1];
static const msq_words words = {{1, UINT64_MAX, 3}};
static msq_item item;

static uint32_t open_words(uint32_t kind, uint32_t nodes, uint64_t limit, uint16_t number) {
    return msq_words_create(kind, nodes, limit, roles, number, word_seats, number);
}
static void drop_words(void) {
    for (size_t k = 0; k < SEATS; k++) {
        msq_words_drop(&word_seats[k]);
    }
}
CALL(see_words, msq_words_emptiness(word_taker))
static void push_and_pop_words(void) {
    static msq_item own;
    any(msq_words_push(&word_seats[2], &words, 8));
    any(msq_words_pop(&word_seats[3], 8, &own));
}
CALL(words_push, msq_words_push(word_giver, &words, turns))
CALL(words_pop, msq_words_pop(word_taker, turns, &item))
CALL(words_shut, msq_words_shut(word_giver, turns))

/* Which of its seats gives, and which takes. */
static inline void sit(size_t gives, size_t takes) {
    giver = &seats[gives], taker = &seats[takes];
    word_giver = &word_seats[gives], word_taker = &word_seats[takes];
}

static const struct family families[] = {
    {"numbers", true, open_numbers, drop_numbers, see_numbers, push_and_pop_numbers,
     {{"msq_try_push", try_push}, {"msq_push_all", push_all}},
     {{"msq_try_pop", try_pop}, {"msq_pop_up_to", pop_up_to}},
     {{"msq_try_shut", try_shut}}},
    {"words", false, open_words, drop_words, see_words, push_and_pop_words,
     {{"msq_words_push", words_push}},
     {{"msq_words_pop", words_pop}},
     {{"msq_words_shut", words_shut}}},
};

enum { FAMILIES = sizeof families / sizeof *families };

static const struct family *all; /* the one whose calls are made */

/* Each of these calls answers so. */
static inline void each(const struct call *calls, const char *when, uint32_t due) {
    for (; calls->make != NULL; calls++) {
        expect(all->name, calls->name, when, calls->make(), due);
    }
}

static inline void opens(uint32_t kind, uint32_t nodes, uint64_t limit, uint16_t number) {
    expect(all->name, "open", msq_kind_name(kind), all->open(kind, nodes, limit, number), MSQ_OK);
}

static inline void seen(const char *when, uint32_t due) {
    expect(all->name, "a look", when, all->see(), due);
}

static inline void first_of(const struct call *calls, const char *when, uint32_t due) {
    expect(all->name, calls->name, when, calls->make(), due);
}

/* Prints what was found. */
static int told(void) {
    printf("%u answers as they should be, %u not\n", right, wrong);
    return wrong != 0;
}
