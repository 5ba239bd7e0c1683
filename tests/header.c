/* What include/leanlantern.h says of itself, and that a program in one of three forms gets the same answers: with the
 * header's structs; with arrays of words, cast to them (CAST); and with arrays of words as the prototypes had them
 * before there were structs (BEFORE), as in a program that was compiled then. Built as C and as C++ and run by
 * header.sh, which compares what the forms print. Exit status 1 where a text of a refusal or the version's is not right.
 */
#include <stddef.h>
#include <stdint.h>
#include <stdio.h>
#include <string.h>

#ifdef BEFORE

#ifdef __cplusplus
extern "C" {
#endif
uint64_t lantern_open(uint64_t heap[7], uint8_t *arena, size_t len, uint64_t base, uint64_t named, uint64_t answer[2]);
uint64_t lantern_allocate(uint64_t heap[7], uint8_t *arena, size_t len, uint64_t size, uint64_t align, uint64_t answer[2]);
uint64_t lantern_free(uint64_t heap[7], uint8_t *arena, size_t len, uint64_t addr, uint64_t size, uint64_t align, uint64_t answer[2]);
uint64_t lantern_extend(uint64_t heap[7], uint8_t *arena, size_t len, uint64_t by, uint64_t answer[2]);
uint64_t lantern_room(const uint64_t heap[7], const uint8_t *arena, size_t len, uint64_t align, uint64_t answer[2]);
uint64_t lantern_resize(uint64_t heap[7], uint8_t *arena, size_t len, uint64_t addr, uint64_t old_size, uint64_t align, uint64_t new_size,
                        uint64_t answer[2]);
uint64_t lantern_list(const uint64_t heap[7], const uint8_t *arena, size_t len, uint64_t *addrs, size_t n_addrs, uint64_t *sizes,
                      size_t n_sizes, uint64_t answer[2]);
uint64_t lantern_bottom(const uint64_t heap[7]);
uint64_t lantern_top(const uint64_t heap[7]);
uint64_t lantern_size(const uint64_t heap[7]);
uint64_t lantern_used(const uint64_t heap[7]);
uint64_t lantern_free_bytes(const uint64_t heap[7]);
#ifdef __cplusplus
}
#endif

#else

#include "leanlantern.h"

/* C99 and C++98 have no static assertions; an array of -1 elements is refused as well */
#if defined __cplusplus && __cplusplus >= 201103L
#define HOLDS(fact) static_assert(fact, #fact)
#elif !defined __cplusplus && __STDC_VERSION__ >= 201112L
#define HOLDS(fact) _Static_assert(fact, #fact)
#else
#define HOLDS(fact) extern char holds[(fact) ? 1 : -1]
#endif

/* the structs are the arrays of before: the words in the paper's order, and nothing between or behind them */
#define WORD(type, name, index) \
    HOLDS(offsetof(struct type, name) == (index) * sizeof(uint64_t) && sizeof(((struct type *)0)->name) == sizeof(uint64_t))
HOLDS(sizeof(struct lantern_heap) == sizeof(uint64_t[7]));
WORD(lantern_heap, base, 0);
WORD(lantern_heap, len, 1);
WORD(lantern_heap, bottom, 2);
WORD(lantern_heap, top, 3);
WORD(lantern_heap, first, 4);
WORD(lantern_heap, pending, 5);
WORD(lantern_heap, used, 6);
HOLDS(sizeof(struct lantern_answer) == sizeof(uint64_t[2]));
WORD(lantern_answer, one, 0);
WORD(lantern_answer, two, 1);

/* as aligned as a word is */
struct after_a_byte_heap { char byte; struct lantern_heap it; };
struct after_a_byte_answer { char byte; struct lantern_answer it; };
struct after_a_byte_word { char byte; uint64_t it; };
HOLDS(offsetof(struct after_a_byte_heap, it) == offsetof(struct after_a_byte_word, it));
HOLDS(offsetof(struct after_a_byte_answer, it) == offsetof(struct after_a_byte_word, it));

/* the paper's numbers */
HOLDS(LANTERN_ACCEPTED == 0);
HOLDS(LANTERN_BAD_OPENING == 1);
HOLDS(LANTERN_ALREADY_OPENED == 2);
HOLDS(LANTERN_UNOPENED == 3);
HOLDS(LANTERN_OTHER_LENGTH == 4);
HOLDS(LANTERN_NOT_SOUND == 5);
HOLDS(LANTERN_BAD_LAYOUT == 6);
HOLDS(LANTERN_NO_ROOM == 7);
HOLDS(LANTERN_BAD_SPAN == 8);
HOLDS(LANTERN_PAST_ARENA == 9);
HOLDS(LANTERN_BAD_STRETCH == 10);

enum { LAST = LANTERN_BAD_STRETCH };

/* numbers that are no refusal's have one text, and each of the others has one of its own */
static int texts(void)
{
    static const uint64_t others[] = {LAST + 1, 15, 16, 255, (uint64_t)1 << 32, (uint64_t)1 << 63, ~(uint64_t)0};
    const char *plain = lantern_refusal_text(LAST + 1);
    size_t i, j;
    int wrong = *plain == 0;
    for (i = 0; i < sizeof others / sizeof *others; i++)
        wrong |= strcmp(lantern_refusal_text(others[i]), plain) != 0;
    for (i = 0; i <= LAST; i++) {
        wrong |= *lantern_refusal_text(i) == 0 || strcmp(lantern_refusal_text(i), plain) == 0;
        for (j = 0; j < i; j++)
            wrong |= strcmp(lantern_refusal_text(i), lantern_refusal_text(j)) == 0;
    }
    return wrong;
}

/* the version's numbers and its text say the same */
static int version(void)
{
    char text[64];
    sprintf(text, "%d.%d.%d", LEANLANTERN_VERSION_MAJOR, LEANLANTERN_VERSION_MINOR, LEANLANTERN_VERSION_PATCH);
    return strcmp(text, LEANLANTERN_VERSION) != 0;
}

#endif

#if defined BEFORE
static uint64_t heap_words[7], answer_words[2];
#define HEAP heap_words
#define ANSWER answer_words
#elif defined CAST
static uint64_t heap_words[7], answer_words[2];
#define HEAP (struct lantern_heap *)heap_words
#define ANSWER (struct lantern_answer *)answer_words
#else
static struct lantern_heap heap_struct;
static struct lantern_answer answer_struct;
#define HEAP &heap_struct
#define ANSWER &answer_struct
#endif

#define ARENA 256
#define ROW 3

static uint8_t arena[ARENA];
static uint64_t addrs[ROW], sizes[ROW];

static void words(const uint64_t *from, size_t count)
{
    size_t i;
    for (i = 0; i < count; i++)
        printf(" %lx", (unsigned long)from[i]);
}

/* prints everything that a call may have left: its number, its values, the heap, the readers, the rows and the arena */
static void told(const char *call, uint64_t number)
{
    uint64_t heap[7], answer[2], readers[5], sum = 0;
    size_t i;
    memcpy(heap, HEAP, sizeof heap);
    memcpy(answer, ANSWER, sizeof answer);
    readers[0] = lantern_bottom(HEAP);
    readers[1] = lantern_top(HEAP);
    readers[2] = lantern_size(HEAP);
    readers[3] = lantern_used(HEAP);
    readers[4] = lantern_free_bytes(HEAP);
    for (i = 0; i < ARENA; i++)
        sum = sum * 31 + arena[i];
    printf("%s %lu:", call, (unsigned long)number);
    words(answer, 2);
    printf(", heap");
    words(heap, 7);
    printf(", readers");
    words(readers, 5);
    printf(", rows");
    words(addrs, ROW);
    words(sizes, ROW);
    printf(", arena %lx\n", (unsigned long)sum);
}

/* every call, accepted, and every refusal, in the order of their numbers */
static void calls(void)
{
    told("open", lantern_open(HEAP, arena, ARENA, 0x1001, 100, ANSWER));
    told("allocate", lantern_allocate(HEAP, arena, ARENA, 20, 8, ANSWER));
    told("allocate", lantern_allocate(HEAP, arena, ARENA, 1, 32, ANSWER));
    told("resize", lantern_resize(HEAP, arena, ARENA, 0x1008, 20, 8, 0, ANSWER));
    told("extend", lantern_extend(HEAP, arena, ARENA, 19, ANSWER));
    told("list", lantern_list(HEAP, arena, ARENA, addrs, ROW, sizes, ROW - 1, ANSWER));
    told("room", lantern_room(HEAP, arena, ARENA, 16, ANSWER));
    told("free", lantern_free(HEAP, arena, ARENA, 0x1008, 16, 8, ANSWER));

    told("open", lantern_open(HEAP, arena, ARENA, 0x1001, 100, ANSWER));
    told("allocate", lantern_allocate(HEAP, arena, ARENA - 1, 20, 8, ANSWER));
    told("allocate", lantern_allocate(HEAP, arena, ARENA, 20, 24, ANSWER));
    told("allocate", lantern_allocate(HEAP, arena, ARENA, ARENA, 8, ANSWER));
    told("free", lantern_free(HEAP, arena, ARENA, 0x1008, 16, 8, ANSWER));
    told("extend", lantern_extend(HEAP, arena, ARENA, ARENA, ANSWER));
    told("resize", lantern_resize(HEAP, arena, ARENA, 0x1020, 1, 32, ARENA, ANSWER));
    arena[8] ^= 1;
    told("room", lantern_room(HEAP, arena, ARENA, 16, ANSWER));
    memset(HEAP, 0, sizeof(uint64_t[7]));
    told("list", lantern_list(HEAP, arena, ARENA, addrs, ROW, sizes, ROW, ANSWER));
    told("open", lantern_open(HEAP, arena, ARENA, 0, 100, ANSWER));
}

int main(void)
{
#ifndef BEFORE
    if (texts() != 0 || version() != 0) {
        fprintf(stderr, "header: a text of a refusal or the version's is not right\n");
        return 1;
    }
#endif
    calls();
    return 0;
}
