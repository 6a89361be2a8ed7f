// The four questions on values, of the project and in Rust: the cases, the random questions, the comparison.
#define WITHOUT_FLOOR
#include "../drive.h"

void *memcpy(void *to, const void *from, size_t count);
void rust_deal(u64, u64, const u8 *, const float *, const double *, u8 *, float *, double *, u64 *);
void rust_collect(u64, u64, const u8 *, const float *, const double *, u8 *, float *, double *, u64 *);
void rust_deal_f64(u64, u64, const u8 *, const float *, const double *, double *, u64 *);
void rust_collect_f64(u64, u64, const double *, u8 *, float *, double *, u64 *);

enum word { DEAL, COLLECT, DEAL_F64, COLLECT_F64 };
static const struct question { const char *name; enum word word; u64 kind, computation, wrong; } cases[] = {
    {"deal 5 0", DEAL, 5, 0, 0},
    {"deal 5 3", DEAL, 5, 3, 0},
    {"deal 6", DEAL, 6, 0, 0},
    {"deal 7", DEAL, 7, 0, 0},
    {"deal 8", DEAL, 8, 0, 0},
    {"collect 5 0", COLLECT, 5, 0, 0},
    {"collect 5 3", COLLECT, 5, 3, 0},
    {"collect 6", COLLECT, 6, 0, 0},
    {"collect 7", COLLECT, 7, 0, 0},
    {"collect 8", COLLECT, 8, 0, 0},
    {"deal_f64 6", DEAL_F64, 6, 0, 0},
    {"deal_f64 7", DEAL_F64, 7, 0, 0},
    {"deal_f64 8", DEAL_F64, 8, 0, 0},
    {"collect_f64 6", COLLECT_F64, 6, 0, 0},
    {"collect_f64 7", COLLECT_F64, 7, 0, 0},
    {"collect_f64 8", COLLECT_F64, 8, 0, 0},
    {"deal 5 3, the last wrong", DEAL, 5, 3, 256},
    {"collect 8, the last wrong", COLLECT, 8, 0, 256},
    {"deal 8, the first wrong", DEAL, 8, 0, 1},
    {"deal 9, no such kind", DEAL, 9, 0, 0},
};
enum { CASES = sizeof cases / sizeof *cases };

// A tile, the lanes and the holdings; what is filled is one of the last three.
struct memory {
    u8 tile_sorts[64], lane_sorts[256];
    float tile_singles[64], lane_singles[256];
    double tile_doubles[64], lane_doubles[256], holdings[128];
    u64 answer[4];
};
static struct memory asked, other;

static void ask(const struct question *q, struct memory *m, int rust) {
    switch (q->word) {
    case DEAL:
        (rust ? rust_deal : urszovely_deal)(q->kind, q->computation, m->tile_sorts, m->tile_singles, m->tile_doubles, m->lane_sorts, m->lane_singles, m->lane_doubles, m->answer);
        break;
    case COLLECT:
        (rust ? rust_collect : urszovely_collect)(q->kind, q->computation, m->lane_sorts, m->lane_singles, m->lane_doubles, m->tile_sorts, m->tile_singles, m->tile_doubles, m->answer);
        break;
    case DEAL_F64:
        (rust ? rust_deal_f64 : urszovely_deal_f64)(q->kind, q->computation, m->tile_sorts, m->tile_singles, m->tile_doubles, m->holdings, m->answer);
        break;
    case COLLECT_F64:
        (rust ? rust_collect_f64 : urszovely_collect_f64)(q->kind, q->computation, m->holdings, m->tile_sorts, m->tile_singles, m->tile_doubles, m->answer);
        break;
    }
}

// Any bits in all memory, but what is to be moved has the kind's sort, but for `wrong`: 1 the first register's of the computation, 256 the last's,
// by the place that it gets where it is dealt; 2 any one entry's; 3 some of them.
static void fill(const struct question *q) {
    u8 *bytes = (u8 *)&asked;
    for (u64 i = 0; i < sizeof asked; i++) bytes[i] = any() >> 32;
    int dealt = q->word != COLLECT, size = dealt ? 64 : 256;
    u8 *sorts = dealt ? asked.tile_sorts : asked.lane_sorts, sort = q->kind == 5 ? 1 : 2;
    for (int i = 0; i < size; i++) sorts[i] = q->wrong == 3 && below(50) == 0 ? below(4) : sort;
    if (q->wrong == 2) sorts[below(size)] = below(256);
    if (q->wrong == 1) sorts[0] = 0;
    if (q->wrong == 256) sorts[dealt ? 63 : q->kind == 5 ? 255 : 249] = 0;
}

static struct memory of_case[CASES];
// the cases' memory is filled before the first is counted: a question leaves what it is asked of as it is
static int number_of_cases(void) {
    static int filled;
    for (; filled < CASES; filled++) {
        fill(&cases[filled]);
        of_case[filled] = asked;
    }
    return CASES;
}
static const char *name(int i) { return cases[i].name; }
static void ask_rust(int i) { ask(&cases[i], &of_case[i], 1); }
static void ask_archive(int i) { ask(&cases[i], &of_case[i], 0); }

// Both on one question: whether answers or anything in memory differ. Leaves Rust's answer in asked.
static int differ(const struct question *q) {
    fill(q);
    memcpy(&other, &asked, sizeof asked);
    ask(q, &asked, 1);
    ask(q, &other, 0);
    if (!memcmp(&asked, &other, sizeof asked)) return 0;
    printf("%s: word %d, kind %lu, computation %lu, wrong %lu\n", q->name, q->word, q->kind, q->computation, q->wrong);
    printf("  Rust answers %lu %lu %lu %lu\n", asked.answer[0], asked.answer[1], asked.answer[2], asked.answer[3]);
    printf("  the project  %lu %lu %lu %lu\n", other.answer[0], other.answer[1], other.answer[2], other.answer[3]);
    for (u64 i = 0; i < sizeof asked; i++)
        if (((u8 *)&asked)[i] != ((u8 *)&other)[i]) { printf("  and byte %lu of the memory is the first to differ\n", i); break; }
    return 1;
}

static int compare(int count) {
    for (int i = 0; i < CASES; i++) if (differ(&cases[i])) return 1;
    for (int i = 0; i < count; i++) {
        struct question q = {"random", below(4), 5 + below(4), 0, below(4)};
        q.computation = q.kind == 5 ? below(4) : 0;
        if (below(20) == 0) q.kind = below(2) ? below(12) : any();
        if (below(20) == 0) q.computation = below(2) ? below(6) : any();
        if (differ(&q)) return 1;
        answered[asked.answer[0]]++;
    }
    print_answered();
    return 0;
}
