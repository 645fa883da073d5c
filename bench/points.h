/* The caller's bytes beside the words of the yardstick's grid. It stands behind pdcch.c. */
#ifndef POINTS_H
#define POINTS_H

/* The twelve points of a block as bytes, 0 to 4, in the yardstick's word, and back. */
static inline u64 word_of(const uint8_t *from)
{
    static const u8 codes_of[5] = {0, 4, 6, 5, 7};
    u64 v = 0;
    for (int k = 0; k < 12; k++) {
        u64 code = codes_of[from[k]];
        v |= (code & 3) << 2 * k | (code >> 2) << (32 + k);
    }
    return v;
}

static inline void bytes_of_word(u64 v, uint8_t *to)
{
    static const u8 points_of[4] = {1, 3, 2, 4};
    for (int k = 0; k < 12; k++)
        to[k] = v >> (32 + k) & 1 ? points_of[v >> 2 * k & 3] : 0;
}

/* All of a grid. */
static inline void pack_all(const uint8_t *from, Grid *to)
{
    for (size_t block = 0; block < 14 * (size_t)to->blocks; block++)
        to->cells[block] = word_of(from + 12 * block);
}

static inline void unpack_all(const Grid *from, uint8_t *to)
{
    for (size_t block = 0; block < 14 * (size_t)from->blocks; block++)
        bytes_of_word(from->cells[block], to + 12 * block);
}

#endif
