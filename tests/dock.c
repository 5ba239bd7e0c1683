/* A box of 16 MiB through the C calls: the arena limit, one byte above it, and heads whose places need a third byte. Every answer is held
 * to the paper's, and a refused call to having changed no word and no byte. Built and run by dock.sh. Exit status 1 where one differs.
 */
#include <stdio.h>
#include <string.h>

#include "../include/leanlantern.h"

#define LIMIT 16777216
#define BASE 0x1000
#define STEP 2048
#define HOLES (LIMIT / STEP / 2)

static uint8_t arena[LIMIT + 1], before[LIMIT + 1];
static struct lantern_heap heap, heap_before;
static struct lantern_answer answer;
static uint64_t addrs[HOLES], sizes[HOLES];
static unsigned cases, wrong;

static void keep(void)
{
    memcpy(before, arena, sizeof arena);
    heap_before = heap;
    answer.one = answer.two = ~0ull;
}

static void told(const char *what, uint64_t no, enum lantern_refusal wanted, uint64_t one, uint64_t two)
{
    int changed = memcmp(before, arena, sizeof arena) != 0 || memcmp(&heap_before, &heap, sizeof heap) != 0;
    cases++;
    if (no == wanted && answer.one == one && answer.two == two && (no == LANTERN_ACCEPTED || !changed)) return;
    fprintf(stderr, "dock: %s: %s, %llx, %llx%s\n", what, lantern_refusal_text(no), (unsigned long long)answer.one,
            (unsigned long long)answer.two, no != LANTERN_ACCEPTED && changed ? ", and something changed" : "");
    wrong++;
}

static void opens(size_t len, uint64_t named, enum lantern_refusal wanted, uint64_t bottom, uint64_t size)
{
    keep();
    told("open", lantern_open(&heap, arena, len, BASE, named, &answer), wanted, bottom, size);
}

static void allocates(size_t len, uint64_t size, uint64_t align, enum lantern_refusal wanted, uint64_t addr, uint64_t count)
{
    keep();
    told("allocate", lantern_allocate(&heap, arena, len, size, align, &answer), wanted, addr, count);
}

static void frees(uint64_t addr, uint64_t size, enum lantern_refusal wanted, uint64_t rounded, uint64_t used)
{
    keep();
    told("free", lantern_free(&heap, arena, LIMIT, addr, size, 8, &answer), wanted, rounded, used);
}

static void resizes(uint64_t addr, uint64_t old_size, uint64_t new_size, enum lantern_refusal wanted, uint64_t rounded, uint64_t used)
{
    keep();
    told("resize", lantern_resize(&heap, arena, LIMIT, addr, old_size, 8, new_size, &answer), wanted, rounded, used);
}

static void extends(uint64_t by, enum lantern_refusal wanted, uint64_t size, uint64_t pending)
{
    keep();
    told("extend", lantern_extend(&heap, arena, LIMIT, by, &answer), wanted, size, pending);
}

static void rooms(size_t len, enum lantern_refusal wanted, uint64_t largest, uint64_t holes)
{
    keep();
    told("room", lantern_room(&heap, arena, len, 8, &answer), wanted, largest, holes);
}

int main(void)
{
    /* one byte above the limit opens nothing */
    opens(LIMIT + 1, LIMIT, LANTERN_BAD_OPENING, 0, 0);

    /* extend up to the last byte, and one beyond it */
    opens(LIMIT, LIMIT - 24, LANTERN_ACCEPTED, BASE, LIMIT - 24);
    extends(25, LANTERN_PAST_ARENA, 0, 0);
    extends(24, LANTERN_ACCEPTED, LIMIT, 0);
    extends(1, LANTERN_PAST_ARENA, 0, 0);

    /* the limit itself */
    memset(&heap, 0, sizeof heap);
    opens(LIMIT, LIMIT + 1, LANTERN_BAD_OPENING, 0, 0);
    opens(LIMIT, LIMIT, LANTERN_ACCEPTED, BASE, LIMIT);

    /* a heap that is sound but for one byte more of arena; then the arena is of another length */
    heap.len = LIMIT + 1;
    rooms(LIMIT + 1, LANTERN_NOT_SOUND, 0, 0);
    allocates(LIMIT + 1, 16, 8, LANTERN_NOT_SOUND, 0, 0);
    heap.len = LIMIT;
    allocates(LIMIT + 1, 16, 8, LANTERN_OTHER_LENGTH, 0, 0);

    /* all of it, then a byte; then, with all of it free, one byte too many */
    allocates(LIMIT, LIMIT, 8, LANTERN_ACCEPTED, BASE, 1);
    allocates(LIMIT, 1, 1, LANTERN_NO_ROOM, 0, 0);
    frees(BASE, LIMIT, LANTERN_ACCEPTED, LIMIT, 0);
    allocates(LIMIT, LIMIT + 1, 8, LANTERN_NO_ROOM, 0, 1);
    rooms(LIMIT, LANTERN_ACCEPTED, LIMIT, 1);

    /* the last block, whose head stands sixteen bytes before the limit once it is free */
    allocates(LIMIT, LIMIT - 16, 8, LANTERN_ACCEPTED, BASE, 1);
    allocates(LIMIT, 16, 8, LANTERN_ACCEPTED, BASE + LIMIT - 16, 1);
    frees(BASE + LIMIT - 16, 16, LANTERN_ACCEPTED, 16, LIMIT - 16);
    rooms(LIMIT, LANTERN_ACCEPTED, 16, 1);
    resizes(BASE, LIMIT - 16, LIMIT, LANTERN_ACCEPTED, LIMIT, LIMIT);
    resizes(BASE, LIMIT, LIMIT + 1, LANTERN_BAD_STRETCH, 0, 0);
    resizes(BASE, LIMIT, LIMIT - 16, LANTERN_ACCEPTED, LIMIT - 16, LIMIT - 16);
    frees(BASE, LIMIT - 16, LANTERN_ACCEPTED, LIMIT - 16, 0);

    /* an alignment of 8 MiB finds its place in the middle */
    allocates(LIMIT, 16, LIMIT / 2, LANTERN_ACCEPTED, LIMIT / 2, 1);
    rooms(LIMIT, LANTERN_ACCEPTED, LIMIT / 2 + BASE - 16, 2);
    frees(LIMIT / 2, 16, LANTERN_ACCEPTED, 16, 0);

    /* every other block of the box is given back, from the last to the first, and all holes are listed */
    for (uint64_t i = 0; i < LIMIT / STEP; i++) {
        uint64_t no = lantern_allocate(&heap, arena, LIMIT, STEP, 8, &answer);
        if (no != LANTERN_ACCEPTED || answer.one != BASE + i * STEP) wrong++;
    }
    for (uint64_t i = HOLES; i-- > 0;) {
        uint64_t no = lantern_free(&heap, arena, LIMIT, BASE + 2 * i * STEP, STEP, 8, &answer);
        if (no != LANTERN_ACCEPTED || answer.two != LIMIT - (HOLES - i) * STEP) wrong++;
    }
    keep();
    told("list", lantern_list(&heap, arena, LIMIT, addrs, HOLES, sizes, HOLES, &answer), LANTERN_ACCEPTED, HOLES, LIMIT / 2);
    for (uint64_t i = 0; i < HOLES; i++) {
        if (addrs[i] != BASE + 2 * i * STEP || sizes[i] != STEP) wrong++;
    }
    if (wrong != 0) {
        fprintf(stderr, "dock: %u answers differ\n", wrong);
        return 1;
    }
    printf("dock: %u calls at the arena limit and %u around them, each as the paper answers it\n", cases, LIMIT / STEP + HOLES);
    return 0;
}
