/* Questions as numbers on standard input, answers as numbers on standard output: the road of the Python package to the proved archive where
 * the processor cannot load it. A question is a frame of 64-bit words, in the processor's own order: how many words follow, the place of
 * the question in the list below, and its words in the order of urszovely.h without the answer. A number is a word; memory is a word with
 * its bytes and then so many bytes, filled up to whole words. The answer is four words, and then all memory that the question may write.
 * Of the C library it takes read and write alone. */
#include "urszovely.h"

long read(int file, void *bytes, size_t length);
long write(int file, const void *bytes, size_t length);

/* The words of each question: n a number; U, E, B memory of 64, 32 and 8 bits that is read, u, e, b such memory that may be written. The
 * list is that of urszovely/_ask.py. */
static const char *const questions[] = {
    "nnnn", "nn", "nn", "nnn", "nnnn",             /* swizzle, mode, bank, fragment, holder */
    "nnBEUbeu", "nnBEUbeu", "nnBEUu", "nnUbeu",    /* deal, collect, deal_f64, collect_f64 */
    "nb", "nBn", "nnnbn",                          /* fields, descriptor, mask */
    "Un", "UnUUen", "Unen", "UnUen", "EnUnU",      /* admit, place, verdict, owner, stretch */
    "Bnuu", "Unbn",                                /* read, write */
    "nnnnnnnnenu", "nnnnnnnnu",                    /* canonical, canonical_card */
    "UnBnbn", "Bnuuu",                             /* block, page */
    "UnUnUnenen", "UnUnunenen",                    /* carry, plan */
    "nnnn", "nnnn", "nu",                          /* mma, mma_holder, mma_layout */
};
enum { QUESTIONS = sizeof questions / sizeof *questions, MOST_ARGUMENTS = 12, MOST_WORDS = 1 << 19 };

/* a question's words: a number each, or where its memory lies in the frame */
static uint64_t frame[MOST_WORDS], answer[4];
static struct { uint64_t number, *memory; } words[MOST_ARGUMENTS];

static int take(void *to, size_t length)
{
    size_t at = 0;
    while (at < length) {
        long n = read(0, (char *)to + at, length - at);
        if (n <= 0) return 0;
        at += (size_t)n;
    }
    return 1;
}

static int give(const void *from, size_t length)
{
    size_t at = 0;
    while (at < length) {
        long n = write(1, (const char *)from + at, length - at);
        if (n <= 0) return 0;
        at += (size_t)n;
    }
    return 1;
}

/* the words of a frame of `length`, by the letters of its question; not all of them, or too many, is no question */
static int parse(const char *letters, uint64_t length)
{
    uint64_t at = 1;
    int i;
    for (i = 0; letters[i]; i++) {
        if (at >= length) return 0;
        words[i].number = frame[at++];
        words[i].memory = frame + at;
        if (letters[i] == 'n') continue;
        if (words[i].number > 8 * (length - at)) return 0;
        at += (words[i].number + 7) / 8;
    }
    return at == length;
}

#define N(i) (words[i].number)
#define U(i) (words[i].memory)
#define E(i) ((uint32_t *)(void *)words[i].memory)
#define B(i) ((uint8_t *)(void *)words[i].memory)
#define F(i) ((float *)(void *)words[i].memory)
#define D(i) ((double *)(void *)words[i].memory)

/* who holds what, and values, which are only ever touched as their bits */
static void ask_numbers(uint64_t question)
{
    switch (question) {
    case 0: urszovely_swizzle(N(0), N(1), N(2), N(3), answer); break;
    case 1: urszovely_mode(N(0), N(1), answer); break;
    case 2: urszovely_bank(N(0), N(1), answer); break;
    case 3: urszovely_fragment(N(0), N(1), N(2), answer); break;
    case 4: urszovely_holder(N(0), N(1), N(2), N(3), answer); break;
    case 5: urszovely_deal(N(0), N(1), B(2), F(3), D(4), B(5), F(6), D(7), answer); break;
    case 6: urszovely_collect(N(0), N(1), B(2), F(3), D(4), B(5), F(6), D(7), answer); break;
    case 7: urszovely_deal_f64(N(0), N(1), B(2), F(3), D(4), D(5), answer); break;
    case 8: urszovely_collect_f64(N(0), N(1), D(2), B(3), F(4), D(5), answer); break;
    case 9: urszovely_fields(N(0), B(1), answer); break;
    case 10: urszovely_descriptor(N(0), B(1), N(2), answer); break;
    default: urszovely_mask(N(0), N(1), N(2), B(3), N(4), answer); break;
    }
}

/* cards, texts, blocks and plans */
static void ask_cards(uint64_t question)
{
    switch (question) {
    case 12: urszovely_admit(U(0), N(1), answer); break;
    case 13: urszovely_place(U(0), N(1), U(2), U(3), E(4), N(5), answer); break;
    case 14: urszovely_verdict(U(0), N(1), E(2), N(3), answer); break;
    case 15: urszovely_owner(U(0), N(1), U(2), E(3), N(4), answer); break;
    case 16: urszovely_stretch(E(0), N(1), U(2), N(3), U(4), answer); break;
    case 17: urszovely_read(B(0), N(1), U(2), U(3), answer); break;
    case 18: urszovely_write(U(0), N(1), B(2), N(3), answer); break;
    case 19: urszovely_canonical(N(0), N(1), N(2), N(3), N(4), N(5), N(6), N(7), E(8), N(9), U(10), answer); break;
    case 20: urszovely_canonical_card(N(0), N(1), N(2), N(3), N(4), N(5), N(6), N(7), U(8), answer); break;
    case 21: urszovely_block(U(0), N(1), B(2), N(3), B(4), N(5), answer); break;
    case 22: urszovely_page(B(0), N(1), U(2), U(3), U(4), answer); break;
    case 23: urszovely_carry(U(0), N(1), U(2), N(3), U(4), N(5), E(6), N(7), E(8), N(9), answer); break;
    default: urszovely_plan(U(0), N(1), U(2), N(3), U(4), N(5), E(6), N(7), E(8), N(9), answer); break;
    }
}

/* further kinds of fragments; where the header does not have them yet, the number is one that no question answers */
static void ask_kinds(uint64_t question)
{
#ifdef URSZOVELY_MMA
    switch (question) {
    case 25: urszovely_mma(N(0), N(1), N(2), N(3), answer); break;
    case 26: urszovely_mma_holder(N(0), N(1), N(2), N(3), answer); break;
    default: urszovely_mma_layout(N(0), U(1), answer); break;
    }
#else
    answer[0] = question ? UINT64_MAX : 0;
#endif
}

/* the answer, and the memory that may have been written: small letters but n */
static int reply(const char *letters)
{
    int i;
    if (!give(answer, sizeof answer)) return 0;
    for (i = 0; letters[i]; i++)
        if (letters[i] >= 'a' && letters[i] != 'n' && !give(words[i].memory, (words[i].number + 7) / 8 * 8)) return 0;
    return 1;
}

int main(void)
{
    uint64_t length;
    while (take(&length, sizeof length)) {
        if (!length || length > MOST_WORDS || !take(frame, length * 8)) return 1;
        if (frame[0] >= QUESTIONS || !parse(questions[frame[0]], length)) return 1;
        if (frame[0] < 12) ask_numbers(frame[0]);
        else if (frame[0] < 25) ask_cards(frame[0]);
        else ask_kinds(frame[0]);
        if (!reply(questions[frame[0]])) return 1;
    }
    return 0;
}
