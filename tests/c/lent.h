/* Lent slices between guards. Before a call every word has a value of its own, so a changed one is noticed wherever it stands. */
#ifndef LENT_H
#define LENT_H

#include <stdbool.h>
#include <stddef.h>
#include <stdint.h>

enum { GUARD = 8, ROOM = 256, WHOLE = GUARD + ROOM + GUARD };

typedef struct {
    uint32_t word[WHOLE];
} words;

typedef struct {
    uint8_t byte[WHOLE];
} bytes;

static inline uint32_t old_word(size_t i) { return 0xA5000000u + 7u * (uint32_t)i; }

static inline uint8_t old_byte(size_t i) { return (uint8_t)(0x80u + i % 97u); }

/* Fills the whole, and returns the slice between the guards. */
static inline uint32_t *lend_words(words *w) {
    for (size_t i = 0; i < WHOLE; i++) w->word[i] = old_word(i);
    return w->word + GUARD;
}

static inline uint8_t *lend_bytes(bytes *b) {
    for (size_t i = 0; i < WHOLE; i++) b->byte[i] = old_byte(i);
    return b->byte + GUARD;
}

/* Every word but the slice's first `written` has its old value. */
static inline bool words_kept(const words *w, size_t written) {
    for (size_t i = 0; i < WHOLE; i++)
        if ((i < GUARD || i >= GUARD + written) && w->word[i] != old_word(i)) return false;
    return true;
}

static inline bool bytes_kept(const bytes *b, size_t written) {
    for (size_t i = 0; i < WHOLE; i++)
        if ((i < GUARD || i >= GUARD + written) && b->byte[i] != old_byte(i)) return false;
    return true;
}

#endif
