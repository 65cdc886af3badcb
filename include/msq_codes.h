/* What calls of the library answer, what they hand over, and the kinds of queues: for all its headers. */
#ifndef MSQ_CODES_H
#define MSQ_CODES_H

#include <stdbool.h>
#include <stddef.h>
#include <stdint.h>

#define MSQ_VERSION_MAJOR 0
#define MSQ_VERSION_MINOR 5
#define MSQ_VERSION_PATCH 0
#define MSQ_VERSION "0.5.0"

/* A call whose answer is to be looked at: where it isn't, the compiler warns. */
#define MSQ_NODISCARD __attribute__((warn_unused_result))

/* What a call answers: each code with its number, and what it says. Free, Tail and Head are words of the queue that count; one
 * is worn when its count is at the limit. The codes up to 16 are the numbers of refusals in docs/FAULTS.md. */
#define MSQ_EACH_CODE(CODE)                                                                                            \
    CODE(MSQ_OK, 0, "done")                                                                                            \
    CODE(MSQ_NO_NODE, 1, "no node is free") /* nor any left that was never used; of MSQ_RING it was full */            \
    CODE(MSQ_WORN_FREE, 2, "the count of the free list is at its limit") /* no node is taken from it any more */       \
    CODE(MSQ_BUSY, 3, "others were in the way") /* in each of the turns, call again */                                 \
    CODE(MSQ_MEMORY, 4, "no memory")                                                                                   \
    CODE(MSQ_BAD_SIZE, 5, "a number is out of its range")                                                              \
    CODE(MSQ_CLOSED, 16, "the queue is shut") /* of a pop, and empty */                                                \
    CODE(MSQ_EMPTY, 32, "the queue is empty")                                                                          \
    CODE(MSQ_NO_SEAT, 33, "there is no seat")                                                                          \
    CODE(MSQ_NO_ROLE, 34, "the seat may not do this") /* push, or pop */                                               \
    CODE(MSQ_IN_USE, 35, "a seat is full, or the queue has a further one") /* as seats are filled, or close */         \
    CODE(MSQ_RACED, 36, "the queue got a further seat meanwhile") /* as it was closed */                               \
    CODE(MSQ_WORN_NEXT, 37, "the count of a node is at its limit") /* push again, by another node */                   \
    CODE(MSQ_WORN_TAIL, 38, "the count of the tail is at its limit") /* the last value comes by a close */             \
    CODE(MSQ_WORN_HEAD, 39, "the count of the head is at its limit") /* no value is popped any more */                 \
    CODE(MSQ_TWO_QUEUES, 40, "the seats are of two queues") /* misuse */                                               \
    CODE(MSQ_TWO_CALLS, 41, "another call uses the seat") /* or a copy of it; misuse, told with MSQ_DEBUG */           \
    CODE(MSQ_UNCOUNTED, 42, "the length of such a queue isn't counted") /* of MSQ_TWO_LOCK */                          \
    CODE(MSQ_FULL, 43, "the queue is full")                                                                            \
    CODE(MSQ_TIMED_OUT, 44, "the time is over") /* whatever was in the way */                                          \
    CODE(MSQ_WORN, 45, "the queue is worn out") /* nothing is pushed any more */

#define MSQ_NUMBERED(code, number, text) code = number,
typedef enum msq_code { MSQ_EACH_CODE(MSQ_NUMBERED) } msq_code;

typedef enum msq_kind {
    MSQ_NON_BLOCKING = 0, /* a thread that stops keeps no other from going on: proved of the model, of calls tested */
    MSQ_TWO_LOCK = 1,     /* a thread that stops within a call may keep others from pushing, or from popping */
    MSQ_RING = 2          /* the fastest; a thread that stops within a push may keep others from popping */
} msq_kind;

/* A body, and the number of the seat that pushed it, from 1 on in the order of the roles. */
typedef struct msq_value {
    uint64_t body;
    uint16_t from;
} msq_value;

/* A value of three words, and one with the number of its seat. */
typedef struct msq_words { uint64_t word[3]; } msq_words;

typedef struct msq_item {
    msq_words words;
    uint16_t from;
} msq_item;

typedef struct msq_rest {
    uint64_t left;  /* how many values were left */
    uint64_t taken; /* how many were popped in all */
    bool whole;     /* whether the seats given made all pushes, pops and the shut, where there was one */
    bool was_shut;  /* whether the queue was shut */
} msq_rest;

#if !defined(__has_feature)
#define MSQ_HAS_FEATURE(name) 0
#else
#define MSQ_HAS_FEATURE(name) __has_feature(name)
#endif
#if defined(__SANITIZE_THREAD__) || MSQ_HAS_FEATURE(thread_sanitizer)
#define MSQ_THREAD_SANITIZER
#endif
#if defined(__SANITIZE_ADDRESS__) || MSQ_HAS_FEATURE(address_sanitizer)
#define MSQ_ADDRESS_SANITIZER
#endif

/* What is inline differs by MSQ_DEBUG and by sanitizer: in C++ it is of a namespace for each, so that files of both can be
 * linked. */
#ifndef __cplusplus
#define MSQ_INLINE static inline
#define MSQ_BEGIN
#define MSQ_END
#else
#define MSQ_INLINE inline __attribute__((visibility("hidden"))) /* so that it is of one library */
#if defined(MSQ_THREAD_SANITIZER)
#define MSQ_BEGIN inline namespace msq_with_threads {
#elif defined(MSQ_DEBUG) && defined(MSQ_ADDRESS_SANITIZER)
#define MSQ_BEGIN inline namespace msq_debug_with_addresses {
#elif defined(MSQ_DEBUG)
#define MSQ_BEGIN inline namespace msq_debug {
#elif defined(MSQ_ADDRESS_SANITIZER)
#define MSQ_BEGIN inline namespace msq_with_addresses {
#else
#define MSQ_BEGIN inline namespace msq_plain {
#endif
#define MSQ_END }
#endif

MSQ_BEGIN

#define MSQ_SAYS(code, number, text)                                                                                   \
    case code:                                                                                                         \
        return text;
#define MSQ_IS_NAMED(code, number, text)                                                                               \
    case code:                                                                                                         \
        return #code;

/* What a code says in a few words, as "the queue is shut"; of another number "no such code". */
MSQ_INLINE const char *msq_strerror(uint32_t code) {
    switch (code) {
        MSQ_EACH_CODE(MSQ_SAYS)
    default:
        return "no such code";
    }
}

/* The name of a code, as "MSQ_CLOSED"; of another number "no such code". */
MSQ_INLINE const char *msq_code_name(uint32_t code) {
    switch (code) {
        MSQ_EACH_CODE(MSQ_IS_NAMED)
    default:
        return "no such code";
    }
}

/* The name of a kind, as "non-blocking"; of another number "no such kind". */
MSQ_INLINE const char *msq_kind_name(uint32_t kind) {
    static const char *const names[] = {"non-blocking", "two-lock", "ring", "no such kind"};
    return names[kind < 3 ? kind : 3];
}

MSQ_END

#endif
