/* The paper's example of lines on the wire, through the C calls: each answer is printed as the line that the paper gives, and held to it.
 * Then the readers, the room report at several alignments, and resizes. Built and run by c_example.sh. Exit status 1 where an answer
 * differs.
 */
#include <stdio.h>
#include <string.h>

#include "../include/leanlantern.h"

#define ARENA 65536
#define ROWS 4
#define LINE 64

static const char *const wanted[] = {
    "0000000000000010000000000000000040",
    "0000000000000010000000000000000001",
    "0000000000000010200000000000000001",
    "0700000000000000000000000000000002",
    "0000000000000000100000000000000010",
    "0000000000000000400000000000000007",
    "0000000000000000020000000000000030",
    "2000000000000010000000000000000020",
    "2000000000000010300000000000000010",
};

enum { LINES = sizeof wanted / sizeof *wanted };

static unsigned printed, differing, wrong;

static void line(uint64_t byte, uint64_t one, uint64_t two)
{
    char text[LINE];
    snprintf(text, sizeof text, "%02llx%016llx%016llx", (unsigned long long)byte, (unsigned long long)one, (unsigned long long)two);
    puts(text);
    if (printed >= LINES || strcmp(text, wanted[printed]) != 0) {
        fprintf(stderr, "c_example: line %u: wanted %s\n", printed + 1, printed < LINES ? wanted[printed] : "no line");
        differing++;
    }
    printed++;
}

static uint8_t arena[ARENA];

/* the room report at an alignment is this one */
static void room(const struct lantern_heap *heap, size_t len, uint64_t align, enum lantern_refusal no, uint64_t largest, uint64_t holes)
{
    struct lantern_answer answer = {~0ull, ~0ull};
    uint64_t told = lantern_room(heap, arena, len, align, &answer);
    if (told != no || answer.one != largest || answer.two != holes) {
        fprintf(stderr, "c_example: room at %llu: %s, %llu, %llu\n", (unsigned long long)align, lantern_refusal_text(told),
                (unsigned long long)answer.one, (unsigned long long)answer.two);
        wrong++;
    }
}

/* a resize is answered so; refused, it changes neither heap nor arena */
static void resize(struct lantern_heap *heap, size_t len, uint64_t addr, uint64_t old_size, uint64_t align, uint64_t new_size,
                   enum lantern_refusal no, uint64_t rounded, uint64_t used)
{
    static uint8_t arena_before[ARENA];
    struct lantern_heap heap_before = *heap;
    struct lantern_answer answer = {~0ull, ~0ull};
    memcpy(arena_before, arena, sizeof arena);
    uint64_t told = lantern_resize(heap, arena, len, addr, old_size, align, new_size, &answer);
    int changed = memcmp(&heap_before, heap, sizeof heap_before) != 0 || memcmp(arena_before, arena, sizeof arena) != 0;
    if (told != no || answer.one != rounded || answer.two != used || (no != LANTERN_ACCEPTED && changed)) {
        fprintf(stderr, "c_example: resize at %llx from %llu to %llu: %s, %llu, %llu%s\n", (unsigned long long)addr,
                (unsigned long long)old_size, (unsigned long long)new_size, lantern_refusal_text(told), (unsigned long long)answer.one,
                (unsigned long long)answer.two, no != LANTERN_ACCEPTED && changed ? ", and something changed" : "");
        wrong++;
    }
}

int main(void)
{
    struct lantern_heap heap = {0};
    struct lantern_answer answer;
    uint64_t addrs[ROWS], sizes[ROWS], no;

    no = lantern_open(&heap, arena, ARENA, 0x1000, 0x40, &answer);
    line(no, answer.one, answer.two);
    no = lantern_allocate(&heap, arena, ARENA, 1, 1, &answer);
    line(no, answer.one, answer.two);
    no = lantern_allocate(&heap, arena, ARENA, 0x10, 0x20, &answer);
    line(no, answer.one, answer.two);
    no = lantern_allocate(&heap, arena, ARENA, 0x18, 8, &answer);
    line(no, answer.one, answer.two);
    no = lantern_free(&heap, arena, ARENA, 0x1000, 1, 1, &answer);
    line(no, answer.one, answer.two);
    no = lantern_extend(&heap, arena, ARENA, 7, &answer);
    line(no, answer.one, answer.two);
    no = lantern_list(&heap, arena, ARENA, addrs, ROWS, sizes, ROWS, &answer);
    line(no, answer.one, answer.two);
    for (uint64_t i = 0; no == LANTERN_ACCEPTED && i < answer.one && i < ROWS; i++)
        line(0x20, addrs[i], sizes[i]);

    if (lantern_bottom(&heap) != 0x1000 || lantern_top(&heap) != 0x1047 || lantern_size(&heap) != 0x40 || lantern_used(&heap) != 0x10
        || lantern_free_bytes(&heap) != 0x30) {
        fprintf(stderr, "c_example: a reader differs\n");
        return 1;
    }

    /* holes of 32 at 0x1000 and of 16 at 0x1030 */
    room(&heap, ARENA, 1, LANTERN_ACCEPTED, 0x20, 2);
    room(&heap, ARENA, 0x20, LANTERN_ACCEPTED, 0x20, 2);
    room(&heap, ARENA, 0x2000, LANTERN_ACCEPTED, 0, 2);
    room(&heap, ARENA, 1ull << 62, LANTERN_ACCEPTED, 0, 2);
    /* numbers that are no alignment, and what is tested before: an unopened heap, another length, a heap that is not sound */
    room(&heap, ARENA, 0, LANTERN_BAD_LAYOUT, 0, 0);
    room(&heap, ARENA, 3, LANTERN_BAD_LAYOUT, 0, 0);
    room(&heap, ARENA, 1ull << 63, LANTERN_BAD_LAYOUT, 0, 0);
    struct lantern_heap unopened = {0}, unsound = heap;
    unsound.used += 8;
    room(&unopened, ARENA, 3, LANTERN_UNOPENED, 0, 0);
    room(&heap, ARENA - 1, 3, LANTERN_OTHER_LENGTH, 0, 0);
    room(&unsound, ARENA, 3, LANTERN_NOT_SOUND, 0, 0);
    room(&unsound, ARENA, 8, LANTERN_NOT_SOUND, 0, 0);
    /* a hole of 48 at 0x1010, of which 32 lie behind a multiple of 32 */
    if (lantern_free(&heap, arena, ARENA, 0x1020, 0x10, 0x20, &answer) != LANTERN_ACCEPTED
        || lantern_allocate(&heap, arena, ARENA, 1, 1, &answer) != LANTERN_ACCEPTED) {
        fprintf(stderr, "c_example: no hole of 48 is made\n");
        return 1;
    }
    room(&heap, ARENA, 1, LANTERN_ACCEPTED, 0x30, 1);
    room(&heap, ARENA, 0x20, LANTERN_ACCEPTED, 0x20, 1);
    if (lantern_allocate(&heap, arena, ARENA, 0x30, 0x20, &answer) != LANTERN_NO_ROOM
        || lantern_allocate(&heap, arena, ARENA, 0x30, 1, &answer) != LANTERN_ACCEPTED) {
        fprintf(stderr, "c_example: the room report is not what allocate grants\n");
        return 1;
    }
    /* no hole */
    room(&heap, ARENA, 1, LANTERN_ACCEPTED, 0, 0);

    /* blocks of 16 at 0x1000 and of 48 at 0x1010: sizes that round alike, and 8 more or less where there is no hole */
    for (int i = 0; i < 0x30; i++)
        arena[0x10 + i] = (uint8_t)(i + 1);
    resize(&heap, ARENA, 0x1000, 1, 1, 0, LANTERN_ACCEPTED, 0x10, 0x40);
    resize(&heap, ARENA, 0x1000, 0, 1, 0x18, LANTERN_BAD_STRETCH, 0, 0);
    resize(&heap, ARENA, 0x1010, 0x30, 1, 0x28, LANTERN_BAD_STRETCH, 0, 0);
    /* 24 less is a hole of 24 at 0x1028: part of it, all but 8, more than it, and all of it; the first 24 bytes stay throughout */
    resize(&heap, ARENA, 0x1010, 0x30, 1, 0x18, LANTERN_ACCEPTED, 0x18, 0x28);
    room(&heap, ARENA, 1, LANTERN_ACCEPTED, 0x18, 1);
    resize(&heap, ARENA, 0x1010, 0x18, 1, 0x20, LANTERN_ACCEPTED, 0x20, 0x30);
    room(&heap, ARENA, 1, LANTERN_ACCEPTED, 0x10, 1);
    resize(&heap, ARENA, 0x1010, 0x20, 1, 0x28, LANTERN_BAD_STRETCH, 0, 0);
    resize(&heap, ARENA, 0x1010, 0x20, 1, 0x31, LANTERN_BAD_STRETCH, 0, 0);
    resize(&heap, ARENA, 0x1010, 0x20, 1, 0x30, LANTERN_ACCEPTED, 0x30, 0x40);
    room(&heap, ARENA, 1, LANTERN_ACCEPTED, 0, 0);
    for (int i = 0; i < 0x18; i++)
        if (arena[0x10 + i] != i + 1) {
            fprintf(stderr, "c_example: byte %d of the resized block changed\n", i);
            return 1;
        }
    /* no block that could be held, though the stretch is bad too; no alignment, too large a size, old or new; the
     * largest that is not */
    resize(&heap, ARENA, 0x1008, 0x10, 1, 0x18, LANTERN_BAD_SPAN, 0, 0);
    resize(&heap, ARENA, 0x1010, 0x30, 3, 0x30, LANTERN_BAD_LAYOUT, 0, 0);
    resize(&heap, ARENA, 0x1010, ~0ull, 1, 0x30, LANTERN_BAD_LAYOUT, 0, 0);
    resize(&heap, ARENA, 0x1010, 0x30, 1, ~0ull, LANTERN_BAD_LAYOUT, 0, 0);
    resize(&heap, ARENA, 0x1010, 0x30, 8, (1ull << 63) - 8, LANTERN_BAD_STRETCH, 0, 0);
    /* what is tested before */
    unsound = heap;
    unsound.used -= 8;
    resize(&unopened, ARENA, 0x1010, 0x30, 3, 0x30, LANTERN_UNOPENED, 0, 0);
    resize(&heap, ARENA - 1, 0x1010, 0x30, 3, 0x30, LANTERN_OTHER_LENGTH, 0, 0);
    resize(&unsound, ARENA, 0x1010, 0x30, 3, 0x30, LANTERN_NOT_SOUND, 0, 0);
    resize(&unsound, ARENA, 0x1010, 0x30, 1, 0x30, LANTERN_NOT_SOUND, 0, 0);
    if (wrong != 0)
        return 1;
    if (printed != LINES || differing != 0) {
        fprintf(stderr, "c_example: %u lines of %d, %u of them differ\n", printed, LINES, differing);
        return 1;
    }
    return 0;
}
