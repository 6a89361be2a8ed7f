// The reader of the archive and the Rust one: three correct texts, the longest first, and one that is wrong at its last byte; the random
// texts, the comparison.
#define WITHOUT_FLOOR
#include "../drive.h"

enum { ROOM = 512, CARD = URSZOVELY_CARD };
u64 strlen(const char *);
void *memcpy(void *, const void *, u64);
typedef void reading(const u8 *text, size_t length, u64 *card, u64 *marks, u64 *answer);
reading rust_read;

#define TWO(part) part "," part
#define FOUR(part) TWO(part) "," TWO(part)
#define EIGHT(part) FOUR(part) "," FOUR(part)
#define NEAR "+-99999@pid+-99999@warpid+-99999@laneid+-99999@P"
#define LONGEST "S[(" EIGHT("99999") "):(" EIGHT("-99999@warpid*") ")]+R[(" FOUR("99999") "):(" FOUR("-99999@warpid") ")]" NEAR "+-99999@F+-99999@TLane+-99999@TCol+-99999@"
#define MIDDLE "S[(" FOUR("99999") "):(" FOUR("-99999@warpid*") ")]+R[(" TWO("99999") "):(" TWO("-99999@warpid") ")]" NEAR
#define TEXT(name, text) {name, (const u8 *)text, sizeof text - 1}
static const struct { const char *name; const u8 *text; u64 length; } cases[] = {
    TEXT("352 bytes, the longest", LONGEST "m"),
    TEXT("185 bytes", MIDDLE),
    TEXT("27 bytes", "S[(99999):(-99999@warpid*)]"),
    TEXT("352 bytes, the last one wrong", LONGEST "x"),
};
enum { CASES = sizeof cases / sizeof *cases };

static u64 card[CARD], marks, answer[4];
static int number_of_cases(void) { return CASES; }
static const char *name(int i) { return cases[i].name; }
static void ask_rust(int i) { rust_read(cases[i].text, cases[i].length, card, &marks, answer); }
static void ask_archive(int i) { urszovely_read(cases[i].text, cases[i].length, card, &marks, answer); }

// Both on one text, with anything in what is written: whether answers, cards or marks differ. Leaves Rust's answer in `answer`.
static int differ(const u8 *text, u64 length) {
    u64 card_of[CARD], marks_of = marks = any(), out[4];
    for (int i = 0; i < CARD; i++) card[i] = card_of[i] = any();
    for (int i = 0; i < 4; i++) answer[i] = out[i] = 99;
    rust_read(text, length, card, &marks, answer);
    urszovely_read(text, length, card_of, &marks_of, out);
    if (!memcmp(answer, out, sizeof out) && !memcmp(card, card_of, sizeof card) && marks == marks_of) return 0;
    printf("Rust answers %lu %lu, the archive %lu %lu, marks %lx and %lx: ", answer[0], answer[1], out[0], out[1], marks, marks_of);
    printf("%.*s\n", (int)length, text);
    return 1;
}

static u8 random_text[ROOM];
static u64 length;
static void put(const char *part) {
    memcpy(random_text + length, part, strlen(part));
    length += strlen(part);
}
static void put_axis(u64 axis) {
    static const char *const axes[] = {"pid", "warpid", "laneid", "P", "F", "TLane", "TCol", "m"};
    put(axes[axis]);
}
static void put_number(void) {
    u64 digits = below(20) ? 1 + below(5) : below(7);
    for (u64 i = 0; i < digits; i++) random_text[length++] = '0' + (i || !below(30) ? below(10) : 1 + below(9));
}
static void put_step(int mark) {
    if (!below(4)) put("-");
    put_number();
    if (below(3)) { put("@"); put_axis(below(8)); if (mark && !below(4)) put("*"); }
}
static void put_iters(u64 count, int mark) {
    int single = !mark && count == 1;
    put(mark ? "S[" : "+R[");
    if (!single) put("(");
    for (u64 i = 0; i < count; i++) { if (i) put(","); put_number(); }
    put(single ? ":" : "):(");
    if (!below(40)) count++;
    for (u64 i = 0; i < count; i++) { if (i) put(","); put_step(mark || !below(40)); }
    put(single ? "]" : ")]");
}

// Mostly a correct text or one that is wrong in one byte; now and then it is cut, has a list too long or offsets that do not rise.
static void spell(void) {
    length = 0;
    put_iters(below(30) ? 1 + below(8) : below(10), 1);
    if (below(2)) put_iters(1 + (below(20) ? below(4) : 4), 0);
    for (u64 axis = below(4); axis < 8 && below(4); axis = below(30) ? axis + 1 + below(3) : below(8)) {
        put("+");
        if (!below(4)) put("-");
        put_number();
        if (axis < 7 || below(2)) { put("@"); put_axis(axis); }
    }
    if (!below(3)) random_text[below(length)] = "S[](),:+-R0123456789@*pidwarlneTLCoFmx"[below(38)];
    if (!below(8)) length = below(length + 1);
}

static int compare(int count) {
    int bad = 0, asked = 0;
    for (int i = 0; i < CASES; i++) bad += differ(cases[i].text, cases[i].length);
    for (; asked < count && bad < 10; asked++) {
        spell();
        bad += differ(random_text, length);
        answered[answer[0] % 32]++;
    }
    printf("%d cases and %d random texts: %d differ; ", CASES, asked, bad);
    print_answered();
    return bad != 0;
}
