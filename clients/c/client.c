/* The lines of docs/PROTOCOL.md answered through urszovely.h: the same questions, limits and answers as the program desk, and those with
 * values, which desk leaves. Of the C library it takes read and write alone. */
#include "urszovely.h"

long read(int file, void *bytes, size_t length);
long write(int file, const void *bytes, size_t length);

/* the program's own limits; another program over this file may lend longer tables */
enum { CARD = URSZOVELY_CARD, MOST_LINE = 4096, MOST_LENT = 64, LAYOUT = 46, MOST_TEXT = 1024, MOST_COUNT = 256 };
#ifndef MOST_TABLE
#define MOST_TABLE 16384
#endif
#define MOST_PLAN (2 * MOST_TABLE)

/* the longest line of numbers: the marks of two cards, the cards, a plan after its count, two lengths */
enum { PAIR = 2 * CARD, MOST_NUMBERS = 2 + PAIR + 1 + MOST_COUNT + 2 };

/* input and output: what is finished is written out before the next read */
static char in[65536], out[131072];
static size_t in_at, in_end, out_end;

static int flush(void)
{
    size_t at = 0;
    while (at < out_end) {
        long n = write(1, out + at, out_end - at);
        if (n <= 0) return 0;
        at += (size_t)n;
    }
    out_end = 0;
    return 1;
}

/* the next byte, or -1 at the end of the input */
static int next(void)
{
    if (in_at == in_end) {
        if (!flush()) return -1;
        long n = read(0, in, sizeof in);
        if (n <= 0) return -1;
        in_at = 0;
        in_end = (size_t)n;
    }
    return (unsigned char)in[in_at++];
}

static void put(char c) { out[out_end++] = c; }

static void put_text(const char *text)
{
    while (*text) put(*text++);
}

static void put_number(uint64_t n)
{
    char digits[20];
    int count = 0;
    do digits[count++] = (char)('0' + n % 10);
    while (n /= 10);
    while (count) put(digits[--count]);
}

/* a line's word and numbers; signs[i] says whether a minus stood before number i */
static char line[MOST_LINE];
static size_t line_length;
static const char *word;
static size_t word_length;
static uint64_t numbers[MOST_NUMBERS];
static uint64_t marks[2];
static int signs[MOST_NUMBERS];
static int count;

static int parse_number(size_t *at)
{
    size_t from = *at, digits;
    uint64_t n = 0;
    int minus = from < line_length && line[from] == '-';
    if (minus) from++;
    for (digits = 0; from + digits < line_length && line[from + digits] >= '0' && line[from + digits] <= '9'; digits++) {
        uint64_t digit = (uint64_t)(line[from + digits] - '0');
        if (digits == 20 || n > (UINT64_MAX - digit) / 10) return 0;
        n = n * 10 + digit;
    }
    if (!digits || (digits > 1 && line[from] == '0')) return 0;
    if (minus && (!n || n > (uint64_t)1 << 63)) return 0;
    if (count == MOST_NUMBERS) return 0;
    numbers[count] = n;
    signs[count++] = minus;
    *at = from + digits;
    return 1;
}

static int parse(void)
{
    size_t at = 0;
    while (at < line_length && line[at] != ' ') at++;
    word = line;
    word_length = at;
    count = 0;
    while (at < line_length) {
        at++;
        if (!parse_number(&at) || (at < line_length && line[at] != ' ')) return 0;
    }
    return 1;
}

static int is(const char *name)
{
    size_t i;
    for (i = 0; i < word_length; i++)
        if (!name[i] || name[i] != word[i]) return 0;
    return !name[i];
}

/* the marks of a word with a star, one number for each of its cards: the first numbers, and then the line is as without them */
static int take_marks(void)
{
    int cards = 1, i;
    marks[0] = marks[1] = 0;
    if (!word_length || word[word_length - 1] != '*') return 1;
    word_length--;
    if (is("carry") || is("plan")) cards = 2;
    else if (!(is("verdict") || is("owner") || is("place") || is("write") || is("block"))) return 0;
    if (count < cards) return 0;
    for (i = 0; i < cards; i++) {
        if (signs[i] || numbers[i] > 255) return 0;
        marks[i] = numbers[i];
    }
    count -= cards;
    for (i = 0; i < count; i++) {
        numbers[i] = numbers[i + cards];
        signs[i] = signs[i + cards];
    }
    return 1;
}

/* whether number i of a card is a stride or an offset */
static int is_signed(int i)
{
    int stride = (i >= 1 && i < 25 && i % 3 == 2) || (i >= 26 && i < 38 && i % 3 == 0);
    return stride || (i >= 38 && i < 46);
}

/* so many numbers, a minus only before a stride or an offset of the cards that begin the line */
static int fits(int wanted, int cards)
{
    int i;
    if (count != wanted) return 0;
    for (i = 0; i < count; i++)
        if (signs[i] && !(i < cards * CARD && is_signed(i % CARD))) return 0;
    return 1;
}

/* the cards: strides and offsets in two's complement, from 2^63 on without a minus the largest */
static uint64_t card[CARD], second_card[CARD];

static void take_card(uint64_t *to, int from, int length)
{
    int i;
    for (i = 0; i < length; i++) {
        uint64_t n = numbers[from + i];
        to[i] = signs[from + i] ? 0 - n : n;
        if (is_signed(i) && !signs[from + i] && n >> 63) to[i] = UINT64_MAX >> 1;
    }
}

static uint32_t table[MOST_TABLE], second_table[MOST_TABLE];
static uint64_t planned[MOST_PLAN];
static uint8_t bytes[MOST_LENT], text[MOST_TEXT], note[MOST_TEXT];
static uint64_t answer[4];

static void lend(uint64_t length)
{
    uint64_t i;
    for (i = 0; i < length; i++) table[i] = (uint32_t)(1000000 + i);
}

/* entry i of what is digested, any number */
static uint64_t add(uint64_t sum, uint64_t i, uint64_t entry) { return (sum + (i + 1) * (entry % 4294967291u)) % 4294967291u; }

static uint64_t digest(const uint32_t *entries, uint64_t length)
{
    uint64_t i, sum = 0;
    for (i = 0; i < length; i++) sum = (sum + (i + 1) * entries[i]) % 4294967291u;
    return sum;
}

static uint64_t digest_numbers(const uint64_t *from, uint64_t length)
{
    uint64_t i, sum = 0;
    for (i = 0; i < length; i++) sum = add(sum, i, from[i]);
    return sum;
}

static uint64_t digest_bytes(const uint8_t *from, uint64_t length)
{
    uint64_t i, sum = 0;
    for (i = 0; i < length; i++) sum = (sum + (i + 1) * from[i]) % 4294967291u;
    return sum;
}

static void put_answer(void)
{
    int i;
    for (i = 0; i < 4; i++) {
        if (i) put(' ');
        put_number(answer[i]);
    }
}

static void put_value(uint64_t n)
{
    put(' ');
    put_number(n);
}

/* the first numbers of the card, each with its sign, and the marks bit by bit */
static void put_card(int length, uint64_t of_card)
{
    int k;
    for (k = 0; k < length; k++) {
        int below = is_signed(k) && card[k] >> 63;
        put_text(below ? " -" : " ");
        put_number(below ? 0 - card[k] : card[k]);
    }
    for (k = 0; k < 8; k++) put_value(of_card >> k & 1);
}

/* the words */
static int layout(void)
{
    uint64_t length = count ? numbers[count - 1] : 0, i;
    if (is("verdict") || is("owner")) {
        if (!fits(is("verdict") ? CARD + 1 : CARD + 9, 1) || length > MOST_TABLE) return 0;
        take_card(card, 0, CARD);
        lend(length);
        if (is("verdict")) urszovely_verdict(card, marks[0], table, (size_t)length, answer);
        else urszovely_owner(card, marks[0], numbers + CARD, table, (size_t)length, answer);
        put_answer();
        put_text(" |");
        put_value(digest(table, length));
        return 1;
    }
    if (is("place")) {
        if (!fits(CARD + 19, 1) || length > MOST_LENT) return 0;
        take_card(card, 0, CARD);
        lend(length);
        urszovely_place(card, marks[0], numbers + CARD, numbers + CARD + 9, table, (size_t)length, answer);
        put_answer();
        put_text(" |");
        for (i = 0; i < length; i++) put_value(table[i]);
        return 1;
    }
    if (!fits(18, 0) || length > MOST_TABLE) return 0;
    lend(length);
    urszovely_stretch(table, (size_t)length, numbers, numbers[8], numbers + 9, answer);
    put_answer();
    put_text(" |");
    put_value(answer[0] ? 0 : digest(table + answer[1], answer[2]));
    return 1;
}

/* a text after the one space: the card's other numbers are not the text's, so they have to stay */
static int read_text(void)
{
    uint64_t read_marks[1] = { 0 };
    size_t length = line_length - 5, i;
    int k;
    if (length > MOST_TEXT) return 0;
    for (i = 0; i < length; i++) text[i] = (uint8_t)line[5 + i];
    for (k = 0; k < CARD; k++) card[k] = 1000000 + (uint64_t)k;
    urszovely_read(text, length, card, read_marks, answer);
    put_answer();
    put_text(" |");
    put_card(LAYOUT, read_marks[0]);
    for (k = LAYOUT; k < CARD; k++)
        if (card[k] != 1000000 + (uint64_t)k) put_text(" a number that had to stay");
    return 1;
}

static int write_text(void)
{
    uint64_t length = count ? numbers[count - 1] : 0, i;
    if (!fits(LAYOUT + 1, 1) || length > MOST_TEXT) return 0;
    take_card(card, 0, LAYOUT);
    for (i = 0; i < length; i++) text[i] = 165;
    urszovely_write(card, marks[0], text, (size_t)length, answer);
    put_answer();
    put_text(" |");
    put_value(digest_bytes(text, length));
    if (answer[1] > URSZOVELY_TEXT) put_text(" a text longer than the longest");
    if (answer[0]) return 1;
    put(' ');
    for (i = 0; i < answer[1]; i++) put((char)text[i]);
    return 1;
}

/* the layout of a further kind of fragment, and its text; refused, the card is zeros */
static int mma_layout(void)
{
    uint64_t written[4], i;
    if (!fits(1, 0)) return 0;
    for (i = 0; i < CARD; i++) card[i] = 165;
    urszovely_mma_layout(numbers[0], card, answer);
    put_answer();
    put_text(" |");
    if (answer[0]) {
        for (i = 0; i < CARD; i++)
            if (card[i]) put_text(" a card that is not zeros");
        return 1;
    }
    urszovely_write(card, 0, text, MOST_TEXT, written);
    put(' ');
    for (i = 0; i < written[1]; i++) put((char)text[i]);
    return 1;
}

/* a card with the note of a seed, as a block of the layout book */
static int block(void)
{
    uint64_t length = count ? numbers[count - 1] : 0, noted = numbers[CARD], seed = numbers[CARD + 1], i;
    if (!fits(CARD + 3, 1) || noted > MOST_TEXT || seed > 255 || length > MOST_TEXT) return 0;
    take_card(card, 0, CARD);
    for (i = 0; i < noted; i++) note[i] = (uint8_t)(seed + 7 * i);
    for (i = 0; i < length; i++) text[i] = 165;
    urszovely_block(card, marks[0], note, (size_t)noted, text, (size_t)length, answer);
    put_answer();
    put_text(" |");
    put_value(digest_bytes(text, length));
    return 1;
}

/* the value of a hex digit, or -1 */
static int hex(char c)
{
    if (c >= '0' && c <= '9') return c - '0';
    return c >= 'a' && c <= 'f' ? c - 'a' + 10 : -1;
}

/* pairs of hex digits after the one space: a block, whose note is looked at where it lies in it */
static int page(void)
{
    uint64_t page_marks[1], place[2];
    size_t digits = line_length - 5, i;
    if (digits % 2 || digits > 2 * MOST_TEXT) return 0;
    for (i = 0; i < digits; i++) {
        int value = hex(line[5 + i]);
        if (value < 0) return 0;
        text[i / 2] = (uint8_t)(i % 2 ? text[i / 2] + value : 16 * value);
    }
    urszovely_page(text, digits / 2, card, page_marks, place, answer);
    put_answer();
    put_text(" |");
    put_card(CARD, page_marks[0]);
    put_value(place[1]);
    put_value(digest_bytes(text + place[0], place[1]));
    if (place[0] != (answer[0] ? 0 : 216)) put_text(" a note at another byte");
    return 1;
}

/* the two cards that begin a line, and the two tables whose lengths end it */
static void take_pair(uint64_t length, uint64_t other)
{
    uint64_t i;
    take_card(card, 0, CARD);
    take_card(second_card, CARD, CARD);
    lend(length);
    for (i = 0; i < other; i++) second_table[i] = (uint32_t)(3000000 + i);
}

static void put_tables(uint64_t length, uint64_t other)
{
    put_value(digest(table, length));
    put_value(digest(second_table, other));
}

static int carry(void)
{
    uint64_t plan_length = count > PAIR ? numbers[PAIR] : 0, length, other;
    if (plan_length > MOST_COUNT || !fits(PAIR + 1 + (int)plan_length + 2, 2)) return 0;
    length = numbers[count - 2];
    other = numbers[count - 1];
    if (length > MOST_TABLE || other > MOST_TABLE) return 0;
    take_pair(length, other);
    urszovely_carry(card, marks[0], second_card, marks[1], numbers + PAIR + 1, (size_t)plan_length, table, (size_t)length, second_table, (size_t)other,
                    answer);
    put_answer();
    put_text(" |");
    put_tables(length, other);
    return 1;
}

/* whether the numbers that were written, checked between the same cards, are accepted */
static int is_accepted(uint64_t length, uint64_t other)
{
    uint64_t checked[4];
    urszovely_carry(card, marks[0], second_card, marks[1], planned, (size_t)answer[1], table, (size_t)length, second_table, (size_t)other, checked);
    return !checked[0];
}

static int plan(void)
{
    uint64_t plan_length, length, other, i;
    if (!fits(PAIR + 3, 2)) return 0;
    plan_length = numbers[PAIR];
    length = numbers[PAIR + 1];
    other = numbers[PAIR + 2];
    if (plan_length > MOST_PLAN || length > MOST_TABLE || other > MOST_TABLE) return 0;
    take_pair(length, other);
    for (i = 0; i < plan_length; i++) planned[i] = 2000000 + i;
    urszovely_plan(card, marks[0], second_card, marks[1], planned, (size_t)plan_length, table, (size_t)length, second_table, (size_t)other, answer);
    put_answer();
    put_text(" |");
    put_value(digest_numbers(planned, plan_length));
    put_tables(length, other);
    if (!answer[0] && !is_accepted(length, other)) put_text(" a plan that is not accepted");
    return 1;
}

/* whether the card of a canonical layout, judged as a card, comes to the same; where there is none, it is zeros */
static int same_as_card(const uint64_t *n, const uint64_t *said, uint64_t sum, uint64_t length)
{
    uint64_t any = 0;
    int i;
    urszovely_canonical_card(n[0], n[1], n[2], n[3], n[4], n[5], n[6], n[7], card, answer);
    if (answer[0]) {
        for (i = 0; i < CARD; i++) any |= card[i];
        if (any) return 0;
    } else {
        lend(length);
        urszovely_verdict(card, 0, table, (size_t)length, answer);
        if (digest(table, length) != sum) return 0;
    }
    for (i = 0; i < 4; i++)
        if (answer[i] != said[i]) return 0;
    return 1;
}

static int canonical(void)
{
    uint64_t length = count ? numbers[count - 1] : 0, encodings[2], said[4], sum;
    const uint64_t *n = numbers;
    int i;
    if (!fits(9, 0) || length > MOST_TABLE) return 0;
    lend(length);
    urszovely_canonical(n[0], n[1], n[2], n[3], n[4], n[5], n[6], n[7], table, (size_t)length, encodings, answer);
    sum = digest(table, length);
    put_answer();
    put_text(" |");
    put_value(encodings[0]);
    put_value(encodings[1]);
    put_value(sum);
    for (i = 0; i < 4; i++) said[i] = answer[i];
    if (!same_as_card(n, said, sum, length)) put_text(" a card with another answer");
    return 1;
}

static int mask(void)
{
    uint64_t length, i;
    if (!fits(4, 0) || numbers[3] > MOST_LENT) return 0;
    length = numbers[3];
    for (i = 0; i < length; i++) bytes[i] = 165;
    urszovely_mask(numbers[0], numbers[1], numbers[2], bytes, (size_t)length, answer);
    put_answer();
    put_text(" |");
    for (i = 0; i < length; i++) put_value(bytes[i]);
    return 1;
}

static int fields(void)
{
    int i;
    if (!fits(1, 0)) return 0;
    urszovely_fields(numbers[0], bytes, answer);
    put_answer();
    put_text(" |");
    for (i = 0; i < 12; i++) put_value(bytes[i]);
    return 1;
}

static int descriptor(void)
{
    int i;
    if (!fits(13, 0)) return 0;
    for (i = 0; i < 11; i++) {
        if (numbers[1 + i] > (i >= 4 && i < 9 ? 1u : 255u)) return 0;
        bytes[i] = (uint8_t)numbers[1 + i];
    }
    urszovely_descriptor(numbers[0], bytes, numbers[12], answer);
    put_answer();
    return 1;
}

/* values: a register's sort, and its bits where the sort has some, in arrays of a tile's size and of the lanes'; holdings as doubles */
enum { TILE = 64, LANES = 256, HOLDINGS = 128 };

struct registers {
    uint8_t sorts[LANES];
    union { uint32_t bits[LANES]; float values[LANES]; } singles;
    union { uint64_t bits[LANES]; double values[LANES]; } doubles;
};

static struct registers tile, lanes;
static union { uint64_t bits[HOLDINGS]; double values[HOLDINGS]; } holdings;

/* what is left unnamed by the sort is a pattern of its own */
static void set(struct registers *r, uint64_t i, uint64_t sort, uint64_t bits)
{
    r->sorts[i] = (uint8_t)sort;
    r->singles.bits[i] = sort == 1 ? (uint32_t)bits : 0xffc00001u;
    r->doubles.bits[i] = sort == 2 ? bits : 0x7ff0000000000001u;
}

/* all of the kind's own sort, but for one that is stated and one that is empty */
static void state(struct registers *r, uint64_t size, uint64_t kind, uint64_t one, const uint64_t *sort_bits_other)
{
    uint64_t i, other = sort_bits_other[2];
    for (i = 0; i < size; i++) set(r, i, kind == 5 ? 1 : 2, (kind == 5 ? 1065353216u : 4607182418800017408u) + i);
    if (one < size) set(r, one, sort_bits_other[0], sort_bits_other[1]);
    if (other < size && other != one) set(r, other, 0, 0);
}

/* what is to be filled */
static void fill(struct registers *r, uint64_t size)
{
    uint64_t i;
    for (i = 0; i < size; i++) set(r, i, i % 3, 1000000 + i);
}

static void hold(void)
{
    uint64_t i;
    for (i = 0; i < HOLDINGS; i++) holdings.bits[i] = 4611686018427387904u + i;
}

static void put_registers(const struct registers *r, uint64_t size)
{
    uint64_t i, bits, sum = 0;
    for (i = 0; i < size; i++) {
        bits = r->sorts[i] == 1 ? r->singles.bits[i] : r->sorts[i] == 2 ? r->doubles.bits[i] : 0;
        sum = add(sum, i, bits % 4294967291u * 3 + r->sorts[i]);
    }
    put_answer();
    put_text(" |");
    put_value(sum);
}

static void put_holdings(void)
{
    uint64_t i, sum = 0;
    for (i = 0; i < HOLDINGS; i++) sum = add(sum, i, holdings.bits[i]);
    put_answer();
    put_text(" |");
    put_value(sum);
}

/* a sort, and bits that such a register can have */
static int is_register(uint64_t sort, uint64_t bits) { return sort == 2 || (sort == 1 && bits >> 32 == 0) || (sort == 0 && bits == 0); }

static int values(void)
{
    uint64_t one;
    if (is("deal") || is("deal-f64")) {
        if (!fits(6, 0) || !is_register(numbers[3], numbers[4])) return 0;
        state(&tile, TILE, numbers[0], numbers[2], numbers + 3);
        if (is("deal")) {
            fill(&lanes, LANES);
            urszovely_deal(numbers[0], numbers[1], tile.sorts, tile.singles.values, tile.doubles.values, lanes.sorts, lanes.singles.values, lanes.doubles.values, answer);
            put_registers(&lanes, LANES);
        } else {
            hold();
            urszovely_deal_f64(numbers[0], numbers[1], tile.sorts, tile.singles.values, tile.doubles.values, holdings.values, answer);
            put_holdings();
        }
        return 1;
    }
    fill(&tile, TILE);
    if (is("collect")) {
        if (!fits(7, 0) || !is_register(numbers[4], numbers[5])) return 0;
        one = numbers[2] < 32 && numbers[3] < 8 ? 8 * numbers[2] + numbers[3] : LANES;
        state(&lanes, LANES, numbers[0], one, numbers + 4);
        urszovely_collect(numbers[0], numbers[1], lanes.sorts, lanes.singles.values, lanes.doubles.values, tile.sorts, tile.singles.values, tile.doubles.values, answer);
    } else {
        if (!fits(5, 0)) return 0;
        hold();
        if (numbers[2] < 32 && numbers[3] < 4) holdings.bits[4 * numbers[2] + numbers[3]] = numbers[4];
        urszovely_collect_f64(numbers[0], numbers[1], holdings.values, tile.sorts, tile.singles.values, tile.doubles.values, answer);
    }
    put_registers(&tile, TILE);
    return 1;
}

static int plain(void)
{
    if (is("swizzle") && fits(4, 0)) urszovely_swizzle(numbers[0], numbers[1], numbers[2], numbers[3], answer);
    else if (is("mode") && fits(2, 0)) urszovely_mode(numbers[0], numbers[1], answer);
    else if (is("bank") && fits(2, 0)) urszovely_bank(numbers[0], numbers[1], answer);
    else if (is("fragment") && fits(3, 0)) urszovely_fragment(numbers[0], numbers[1], numbers[2], answer);
    else if (is("holder") && fits(4, 0)) urszovely_holder(numbers[0], numbers[1], numbers[2], numbers[3], answer);
    else if (is("mma") && fits(4, 0)) urszovely_mma(numbers[0], numbers[1], numbers[2], numbers[3], answer);
    else if (is("mma-holder") && fits(4, 0)) urszovely_mma_holder(numbers[0], numbers[1], numbers[2], numbers[3], answer);
    else return 0;
    put_answer();
    return 1;
}

/* a word of four letters and one space, and then any bytes */
static int has_text(const char *name)
{
    int i;
    if (line_length < 5) return 0;
    for (i = 0; i < 5; i++)
        if (line[i] != name[i]) return 0;
    return 1;
}

static int ask(void)
{
    if (has_text("read ")) return read_text();
    if (has_text("page ")) return page();
    if (!parse() || !take_marks()) return 0;
    if (is("verdict") || is("owner") || is("place") || is("stretch")) return layout();
    if (is("deal") || is("collect") || is("deal-f64") || is("collect-f64")) return values();
    if (is("write")) return write_text();
    if (is("mma-layout")) return mma_layout();
    if (is("block")) return block();
    if (is("canonical")) return canonical();
    if (is("carry")) return carry();
    if (is("plan")) return plan();
    if (is("mask")) return mask();
    if (is("fields")) return fields();
    if (is("descriptor")) return descriptor();
    return plain();
}

int main(void)
{
    int c = 0;
    while (c != -1) {
        size_t length = 0;
        while ((c = next()) != -1 && c != '\n') {
            if (length < MOST_LINE) line[length] = (char)c;
            length++;
        }
        if (!length) continue;
        line_length = length;
        if (length > MOST_LINE || !ask()) put('?');
        put('\n');
        if (out_end > sizeof out - MOST_LINE && !flush()) return 1;
    }
    return !flush();
}
