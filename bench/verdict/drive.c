// The verdict of the archive and the Rust one: the comparison, on the cards of ../card.h.
#include "../drive.h"
#include "../card.h"
#include "floor.h"

typedef void verdict(const u64 *card, u64 marks, u32 *table, size_t length, u64 *answer);
verdict rust_verdict;

static u32 table[MOST + 2 * PAST], other[MOST + 2 * PAST];
static u64 answer[4];
static int number_of_cases(void) { return CARDS; }
static const char *name(int i) { return cards[i].name; }
static void ask(verdict *of, const struct card *card, u32 *table, u64 length, u64 *answer) { of((const u64 *)card, card->marks, table, length, answer); }
static void ask_rust(int i) { ask(rust_verdict, &cards[i].card, table, MOST, answer); }
static void ask_archive(int i) { ask(urszovely_verdict, &cards[i].card, table, MOST, answer); }
static void ask_floor(int i) { put_all(table, nests + i); }
static int has_floor(int i) { return nests[i].cells != 0; }

// Both on one card and the first `length` entries of a table in which anything stands: whether answers or entries differ, those
// past the length too. Leaves Rust's answer in `answer`.
static int differ(const char *name, const struct card *card, u64 length) {
    static u32 seed;
    u64 out[4];
    for (u32 i = 0; i < length + PAST; i++) table[i] = other[i] = (i + seed) * 2654435761u;
    seed++;
    for (int i = 0; i < 4; i++) answer[i] = out[i] = 99;
    ask(rust_verdict, card, table, length, answer);
    ask(urszovely_verdict, card, other, length, out);
    int answers = memcmp(answer, out, sizeof out) != 0, tables = memcmp(table, other, (length + PAST) * sizeof *table) != 0;
    if (answers) printf("%s: Rust answers %lu %lu %lu %lu, the archive %lu %lu %lu %lu\n", name, answer[0], answer[1], answer[2], answer[3], out[0], out[1], out[2], out[3]);
    if (tables) printf("%s: another table\n", name);
    if (answers || tables) { printf("  table of %lu, ", length); print_card(card); }
    return answers || tables;
}

// The floor leaves the table of the case's verdict.
static int floor_differs(int i) {
    if (!has_floor(i)) return 0;
    ask_rust(i);
    u64 cells = answer[3];
    for (u64 k = 0; k < cells; k++) other[k] = table[k], table[k] = ~table[k];
    ask_floor(i);
    int differs = answer[0] != 0 || memcmp(table, other, cells * sizeof *table) != 0;
    if (differs) printf("%s: another table at the floor\n", name(i));
    return differs;
}

static int compare(int count) {
    int bad = 0, asked = 0;
    for (int i = 0; i < CARDS; i++) bad += differ(cards[i].name, &cards[i].card, MOST) + floor_differs(i);
    for (; asked < count && bad < 10; asked++) {
        struct card card;
        u64 cells = random_card(&card).cells;
        bad += differ("a random card", &card, cells + below(5) - !below(20));
        answered[answer[0] % 32]++;
        note_card(&card, cells);
    }
    printf("%d cases and %d random cards: %d differ; ", CARDS, asked, bad);
    print_answered();
    print_noted();
    return bad != 0;
}
