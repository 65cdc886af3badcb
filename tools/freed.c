/* Tells of each block of FREED bytes that is freed, on file 9, the number in its word WORD, from 0, without the lowest 24 bits. */
#include <malloc.h>
#include <stdint.h>
#include <stdio.h>
#include <stdlib.h>

void __libc_free(void *block);

static size_t said(const char *name) {
    const char *text = getenv(name);
    return text == NULL ? 0 : (size_t)atol(text);
}

void free(void *block) {
    size_t size = said("FREED");
    size_t room = block == NULL ? 0 : malloc_usable_size(block);
    if (size > 0 && room >= size && room < size + 16) {
        dprintf(9, "%llu\n", (unsigned long long)(((uint64_t *)block)[said("WORD")] >> 24));
    }
    __libc_free(block);
}
