// The placement of one element, of the archive and in Rust: the cases, the comparison, on cards of ../card.h.
#define WITHOUT_FLOOR
#include "../drive.h"
#include "../card.h"

enum { LENT = 64 };
struct tuple { u64 count, at[8]; };
struct place { const struct card *card; struct tuple shape, coordinates; };

typedef void placement(const u64 *card, u64 marks, const u64 *shape, const u64 *coordinates, u32 *memory, size_t length, u64 *answer);
placement rust_place;
static void ask(placement *of, const struct place *q, u32 *memory, u64 length, u64 *answer) {
    of((const u64 *)q->card, q->card->marks, &q->shape.count, &q->coordinates.count, memory, length, answer);
}

// The last element of a card, named by its flat index.
static const struct { const char *name; struct place place; } cases[] = {
    {"X 127, 2 copies", {&cards[0].card, {1, {128}}, {1, {127}}}},
    {"C 255, 64 copies", {&cards[3].card, {1, {256}}, {1, {255}}}},
    {"D 16,383, 8 iters", {&cards[4].card, {1, {16384}}, {1, {16383}}}},
};
enum { CASES = sizeof cases / sizeof *cases };

static u32 memory[LENT + PAST], other[LENT + PAST];
static u64 answer[4];
static int number_of_cases(void) { return CASES; }
static const char *name(int i) { return cases[i].name; }
static void ask_rust(int i) { ask(rust_place, &cases[i].place, memory, LENT, answer); }
static void ask_archive(int i) { ask(urszovely_place, &cases[i].place, memory, LENT, answer); }

// Both on one question and the first `length` entries of memory in which anything stands: whether answers or entries differ, those
// past the length too. Leaves Rust's answer in `answer`.
static int differ(const char *name, const struct place *q, u64 length) {
    u64 out[4];
    for (u64 i = 0; i < LENT + PAST; i++) memory[i] = other[i] = any() >> 32;
    for (int i = 0; i < 4; i++) answer[i] = out[i] = 99;
    ask(rust_place, q, memory, length, answer);
    ask(urszovely_place, q, other, length, out);
    if (!memcmp(answer, out, sizeof out) && !memcmp(memory, other, sizeof memory)) return 0;
    printf("%s: Rust answers %lu %lu %lu %lu, the archive %lu %lu %lu %lu\n", name, answer[0], answer[1], answer[2], answer[3], out[0], out[1], out[2], out[3]);
    printf("  memory of %lu, shape", length);
    for (int i = 0; i < 9; i++) printf(" %lu", (&q->shape.count)[i]);
    printf(", coordinates");
    for (int i = 0; i < 9; i++) printf(" %lu", (&q->coordinates.count)[i]);
    printf(", ");
    print_card(q->card);
    return 1;
}

// A shape of the card's elements: their number taken apart, with a factor of 1 here and there; now and then a number is anything.
static struct place random_place(const struct card *card, u64 elements) {
    struct place q = {card};
    u64 rest = elements;
    q.shape.count = q.coordinates.count = 1 + below(8);
    for (u64 k = 0; k < q.shape.count; k++) {
        u64 size = k + 1 == q.shape.count ? rest : 1 + below(6);
        if (rest % size) size = 1;
        rest /= size;
        q.shape.at[k] = size;
        q.coordinates.at[k] = below(size);
    }
    if (!below(25)) (&q.shape.count)[below(9)] = below(3) ? below(10) : any();
    if (!below(25)) (&q.coordinates.count)[below(9)] = below(3) ? below(10) : any();
    return q;
}

static int compare(int count) {
    int bad = 0, asked = 0;
    for (int i = 0; i < CASES; i++) bad += differ(cases[i].name, &cases[i].place, LENT);
    for (; asked < count && bad < 10; asked++) {
        struct card card;
        struct sizes sizes = random_card(&card);
        struct place q = random_place(&card, sizes.elements);
        bad += differ("a random element", &q, below(20) ? LENT : below(LENT));
        answered[answer[0] % 32]++;
        note_card(&card, sizes.cells);
    }
    printf("%d cases and %d random elements: %d differ; ", CASES, asked, bad);
    print_answered();
    print_noted();
    return bad != 0;
}
