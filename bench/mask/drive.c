// The mask generator of the archive and the Rust one: the cases, the random descriptors, the comparison.
#define WITHOUT_FLOOR
#include "../drive.h"

enum { LENT = 32, PAST = 16 };
void rust_mask(u64 m, u64 n, u64 descriptor, u8 *mask, size_t length, u64 *answer);

// A descriptor: the four start counts (the first lowest), the four first spans, how long the runs of set and of clear bits are.
#define RUNS(starts, spans, set, clear) (starts##ul | spans##ul << 32 | 1ul << 39 | (set - 1ul) << 40 | (clear - 1ul) << 48)
static const struct question { const char *name; u64 m, n, descriptor; } cases[] = {
    {"128 256, runs 4 and 5", 128, 256, RUNS(0, 0, 4, 5)},
    {"64 256, runs 4 and 5", 64, 256, RUNS(0, 2, 4, 5)},
    {"32 256, runs 4 and 5", 32, 256, RUNS(0, 5, 4, 5)},
    {"128 256, start counts", 128, 256, RUNS(0xff, 0, 4, 5)},
    {"64 256, start counts", 64, 256, RUNS(0x03ff, 2, 4, 5)},
    {"32 256, start counts", 32, 256, RUNS(0x070503ff, 5, 4, 5)},
    {"128 256, runs of one", 128, 256, RUNS(0, 0, 1, 1)},
    {"64 256, runs of one", 64, 256, RUNS(0, 2, 1, 1)},
    {"32 256, runs of one", 32, 256, RUNS(0, 5, 1, 1)},
    {"128 256, runs of 256", 128, 256, RUNS(0x64, 0, 256, 256)},
    {"64 256, runs of 256", 64, 256, RUNS(0xe064, 2, 256, 256)},
    {"32 256, runs of 256", 32, 256, RUNS(0xf0e0d0e4, 5, 256, 256)},
    {"128 256, all clear", 128, 256, 0},
    {"64 256, all clear", 64, 256, 0},
    {"32 256, all clear", 32, 256, 0},
    {"32 248, runs 4 and 5", 32, 248, RUNS(0x070503ff, 5, 4, 5)},
    {"32 128, runs 4 and 5", 32, 128, RUNS(0x070503ff, 5, 4, 5)},
    {"128 32, runs 4 and 5", 128, 32, RUNS(0xff, 0, 4, 5)},
    {"64 32, runs 4 and 5", 64, 32, RUNS(0x03ff, 2, 4, 5)},
    {"32 32, document 01's load", 32, 32, 0x0203028301020100},
    {"32 32, runs of one", 32, 32, RUNS(0, 5, 1, 1)},
    {"32 32, all clear", 32, 32, 0},
    {"32 24, runs 4 and 5", 32, 24, RUNS(0x070503ff, 5, 4, 5)},
    {"128 16, runs 4 and 5", 128, 16, RUNS(0xff, 0, 4, 5)},
    {"32 16, runs 4 and 5", 32, 16, RUNS(0x070503ff, 5, 4, 5)},
    {"128 8, runs 4 and 5", 128, 8, RUNS(0xff, 0, 4, 5)},
    {"64 8, runs 4 and 5", 64, 8, RUNS(0x03ff, 2, 4, 5)},
    {"32 8, runs 4 and 5", 32, 8, RUNS(0x070503ff, 5, 4, 5)},
    {"32 8, runs of one", 32, 8, RUNS(0, 5, 1, 1)},
    {"128 8, all clear", 128, 8, 0},
    {"32 8, all clear", 32, 8, 0},
};
enum { CASES = sizeof cases / sizeof *cases };

static u8 lent[LENT + PAST], other[LENT + PAST];
static u64 answer[4];
static int number_of_cases(void) { return CASES; }
static const char *name(int i) { return cases[i].name; }
static void ask_rust(int i) { rust_mask(cases[i].m, cases[i].n, cases[i].descriptor, lent, LENT, answer); }
static void ask_archive(int i) { urszovely_mask(cases[i].m, cases[i].n, cases[i].descriptor, lent, LENT, answer); }

// Both on one question and the first `length` bytes of memory in which anything stands: whether answers or bytes differ, those past
// the length too. Leaves Rust's answer in `answer`.
static int differ(struct question q, u64 length) {
    u64 out[4];
    for (u64 i = 0; i < sizeof lent; i++) lent[i] = other[i] = any() >> 32;
    for (int i = 0; i < 4; i++) answer[i] = out[i] = 99;
    rust_mask(q.m, q.n, q.descriptor, lent, length, answer);
    urszovely_mask(q.m, q.n, q.descriptor, other, length, out);
    if (!memcmp(answer, out, sizeof out) && !memcmp(lent, other, sizeof lent)) return 0;
    printf("%s: M %lu, N %lu, descriptor %016lx, %lu bytes lent\n", q.name, q.m, q.n, q.descriptor, length);
    printf("  Rust answers %lu %lu %lu %lu", answer[0], answer[1], answer[2], answer[3]);
    for (u64 i = 0; i < sizeof lent; i++) printf(" %02x", lent[i]);
    printf("\n  the archive  %lu %lu %lu %lu", out[0], out[1], out[2], out[3]);
    for (u64 i = 0; i < sizeof lent; i++) printf(" %02x", other[i]);
    printf("\n");
    return 1;
}

// Mostly a question that is answered, and mostly short runs; now and then a wrong M or N, a reserved bit, a shift above the limit
// or too little memory.
static int random_differs(void) {
    struct question q = {"a random mask", 32ul << below(3), 8 * (1 + below(32)), any()};
    u64 reserved = 7ul << 36 | 3ul << 62;
    if (below(30)) q.descriptor &= ~reserved;
    if (below(10)) q.descriptor &= ~(1ul << 61);
    if (below(8)) q.descriptor |= 1ul << 39;
    if (below(4)) q.descriptor &= ~(0xf0f0ul << 40);
    if (below(30) == 0) q.m = below(200);
    if (below(30) == 0) q.n = below(300);
    u64 length = q.n / 8 + below(3) - !below(30);
    return differ(q, length > LENT + PAST ? LENT : length);
}

static int compare(int count) {
    int bad = 0, asked = 0;
    for (int i = 0; i < CASES; i++) bad += differ(cases[i], LENT);
    for (; asked < count && bad < 10; asked++) {
        bad += random_differs();
        answered[answer[0] % 32]++;
    }
    printf("%d cases and %d random masks: %d differ; ", CASES, asked, bad);
    print_answered();
    return bad != 0;
}
