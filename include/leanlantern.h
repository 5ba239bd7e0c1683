/* Leanlantern: a small heap over memory that you lend, with proved answers. For C99 and later, and for C++.
 *
 * The caller keeps the seven numbers of a heap and lends the arena, its memory, to each call: the `len` bytes from
 * `arena` on, which are 16,777,216 (16 MiB) at most. The arena's first byte counts as the address `base`, whatever you
 * name at the opening. Alignments are of these addresses and not of pointers; with the arena's own address for `base`,
 * an address is the pointer.
 *
 * A call gives 0 (LANTERN_ACCEPTED) or the number of a refusal, and puts two values into `answer`. It tests its
 * refusals in the order in which they are listed with it, and the first one that is due is given. A refused call
 * changes neither heap nor arena and puts zeros into `answer`; LANTERN_NO_ROOM alone puts the number of holes into
 * `answer->two`.
 *
 * Any numbers and any bytes may be lent: every call ends with its answer. What the pointers of one call lead to must be
 * as long as told and must not overlap. No pointer is null, not even to an array of length 0.
 */
#ifndef LEANLANTERN_H
#define LEANLANTERN_H

#include <stddef.h>
#include <stdint.h>

/* The version of this header and its library; the original that they are a port of has numbers of its own. MAJOR grows
 * where a program that was linked before would no longer link, or would get another answer. MINOR grows where calls or
 * refusals are added. PATCH grows with every other change.
 */
#define LEANLANTERN_VERSION_MAJOR 0
#define LEANLANTERN_VERSION_MINOR 1
#define LEANLANTERN_VERSION_PATCH 0
#define LEANLANTERN_VERSION "0.1.0"

#ifdef __cplusplus
extern "C" {
#endif

/* What is kept for a heap from call to call. All zeros are a heap that is not opened. It lies in memory as an array of
 * seven 64-bit words does.
 */
struct lantern_heap {
    uint64_t base;    /* the address that the arena's first byte counts as */
    uint64_t len;     /* the arena's length at the opening, in bytes */
    uint64_t bottom;  /* the address of the heap's first byte */
    uint64_t top;     /* the address behind its last byte */
    uint64_t first;   /* the place of the first hole, counted from the arena's start; all ones if there is no hole */
    uint64_t pending; /* bytes behind top that are too few to be used yet */
    uint64_t used;    /* bytes that are held */
};

/* The two values of an answer. What they say stands with each call. It lies in memory as an array of two words does. */
struct lantern_answer {
    uint64_t one;
    uint64_t two;
};

/* What a call gives. */
enum lantern_refusal {
    LANTERN_ACCEPTED = 0,       /* no refusal */
    LANTERN_BAD_OPENING = 1,    /* the base is 0, the arena is over 16 MiB or ends above 2^63, more bytes are named than
                                   it has, or under 16 of them are left after rounding */
    LANTERN_ALREADY_OPENED = 2, /* the heap is opened already */
    LANTERN_UNOPENED = 3,       /* the heap is not opened */
    LANTERN_OTHER_LENGTH = 4,   /* the arena is not as long as it was at the opening */
    LANTERN_NOT_SOUND = 5,      /* the heap's numbers or its holes break a rule */
    LANTERN_BAD_LAYOUT = 6,     /* the alignment is no power of two, or it and the rounded size are together above
                                   2^63 */
    LANTERN_NO_ROOM = 7,        /* no hole suits */
    LANTERN_BAD_SPAN = 8,       /* the span is no block that could be held: it is not aligned, lies outside, overlaps a
                                   hole, or leaves a stretch of 8 bytes */
    LANTERN_PAST_ARENA = 9,     /* the arena ends before the bytes that are to be added */
    LANTERN_BAD_STRETCH = 10    /* the stretch less the new rounded size is neither 0 nor at least 16 */
};

/* A rounded size is a size raised to at least 16 and to a multiple of 8. */

/* Opens a heap on the first `named` bytes of the arena. The other bytes are there for extensions.
 * Answer: bottom; size.
 * Refused with: 2 LANTERN_ALREADY_OPENED, 1 LANTERN_BAD_OPENING.
 */
uint64_t lantern_open(struct lantern_heap *heap, uint8_t *arena, size_t len, uint64_t base, uint64_t named,
                      struct lantern_answer *answer);

/* Grants a block of the rounded size at the lowest address that fits and is a multiple of `align`.
 * Answer: the block's address; how many holes were looked at.
 * Refused with: 3 LANTERN_UNOPENED, 4 LANTERN_OTHER_LENGTH, 5 LANTERN_NOT_SOUND, 6 LANTERN_BAD_LAYOUT,
 * 7 LANTERN_NO_ROOM.
 */
uint64_t lantern_allocate(struct lantern_heap *heap, uint8_t *arena, size_t len, uint64_t size, uint64_t align,
                          struct lantern_answer *answer);

/* Takes back the block at the address `addr`, which was asked for with this size and this alignment. That the block is
 * held is not found out: held bytes that could be a block are taken.
 * Answer: the rounded size; used.
 * Refused with: 3 LANTERN_UNOPENED, 4 LANTERN_OTHER_LENGTH, 5 LANTERN_NOT_SOUND, 6 LANTERN_BAD_LAYOUT,
 * 8 LANTERN_BAD_SPAN.
 */
uint64_t lantern_free(struct lantern_heap *heap, uint8_t *arena, size_t len, uint64_t addr, uint64_t size,
                      uint64_t align, struct lantern_answer *answer);

/* Lets the block at the address `addr` grow or shrink where it lies. The bytes that both sizes have stay. The stretch
 * is the block and the hole that touches its end, if there is one. What the new block leaves of it is a hole or
 * nothing.
 * Answer: the new rounded size; used.
 * Refused with: 3 LANTERN_UNOPENED, 4 LANTERN_OTHER_LENGTH, 5 LANTERN_NOT_SOUND, 6 LANTERN_BAD_LAYOUT (for the old size
 * or for the new one), 8 LANTERN_BAD_SPAN, 10 LANTERN_BAD_STRETCH.
 */
uint64_t lantern_resize(struct lantern_heap *heap, uint8_t *arena, size_t len, uint64_t addr, uint64_t old_size,
                        uint64_t align, uint64_t new_size, struct lantern_answer *answer);

/* Gives the heap the next `by` bytes of its arena. Fewer than 16 wait as pending bytes.
 * Answer: size; pending.
 * Refused with: 3 LANTERN_UNOPENED, 4 LANTERN_OTHER_LENGTH, 5 LANTERN_NOT_SOUND, 9 LANTERN_PAST_ARENA.
 */
uint64_t lantern_extend(struct lantern_heap *heap, uint8_t *arena, size_t len, uint64_t by,
                        struct lantern_answer *answer);

/* Lists the holes in the order of their addresses: addresses into `addrs`, sizes into `sizes`, as many as the shorter
 * row holds. The rest of the rows stays, and so do the rows of a refused call.
 * Answer: how many holes there are; free bytes.
 * Refused with: 3 LANTERN_UNOPENED, 4 LANTERN_OTHER_LENGTH, 5 LANTERN_NOT_SOUND.
 */
uint64_t lantern_list(const struct lantern_heap *heap, const uint8_t *arena, size_t len, uint64_t *addrs,
                      size_t n_addrs, uint64_t *sizes, size_t n_sizes, struct lantern_answer *answer);

/* Says what an allocation at the alignment would be granted.
 * Answer: the largest rounded size, 0 if there is none; how many holes there are.
 * Refused with: 3 LANTERN_UNOPENED, 4 LANTERN_OTHER_LENGTH, 5 LANTERN_NOT_SOUND, 6 LANTERN_BAD_LAYOUT (which counts the
 * size as 16).
 */
uint64_t lantern_room(const struct lantern_heap *heap, const uint8_t *arena, size_t len, uint64_t align,
                      struct lantern_answer *answer);

/* The readers take no arena and are never refused. Each gives 0 where the heap is not opened, where its numbers break a
 * rule, or where used is above its size.
 */

/* The address of the heap's first byte. */
uint64_t lantern_bottom(const struct lantern_heap *heap);

/* The address behind its last byte, pending bytes counted. */
uint64_t lantern_top(const struct lantern_heap *heap);

/* The bytes that it deals out, pending bytes not counted. */
uint64_t lantern_size(const struct lantern_heap *heap);

/* The bytes that are held. */
uint64_t lantern_used(const struct lantern_heap *heap);

/* The bytes that are free: size less used. */
uint64_t lantern_free_bytes(const struct lantern_heap *heap);

/* What the number that a call gave means, in a few words, for 0 too. Any number may be asked for. */
static inline const char *lantern_refusal_text(uint64_t number)
{
    switch (number) {
    case LANTERN_ACCEPTED: return "accepted";
    case LANTERN_BAD_OPENING: return "no heap can be made of what was lent";
    case LANTERN_ALREADY_OPENED: return "the heap is opened already";
    case LANTERN_UNOPENED: return "the heap is not opened";
    case LANTERN_OTHER_LENGTH: return "the arena is not as long as it was at the opening";
    case LANTERN_NOT_SOUND: return "the heap is not sound";
    case LANTERN_BAD_LAYOUT: return "the alignment is no power of two, or the size is too large for it";
    case LANTERN_NO_ROOM: return "no hole suits";
    case LANTERN_BAD_SPAN: return "the span is no block that could be held";
    case LANTERN_PAST_ARENA: return "the arena ends before the bytes that are to be added";
    case LANTERN_BAD_STRETCH: return "the stretch less the new rounded size is neither 0 nor at least 16";
    default: return "no refusal has this number";
    }
}

#ifdef __cplusplus
}
#endif

#endif
