/* The client with every question asked through fenced memory: each array and slice lies once right after an inaccessible page and once
 * right before one, what is only read is write-protected, and the answer begins as two patterns. The first answer says what of the lent
 * memory may be written, where it refuses nothing: from then on all else is write-protected, and where that is a part of an array the
 * question is asked again with that part on a page of its own. A touch outside ends the run, and so does a difference between the answers.
 * What has length 0 is NULL on every second side. It lends tables up to the library's own limit, and plans of twice as many numbers. */
#include "urszovely.h"

void *mmap(void *at, size_t length, int access, int kind, int file, long offset);
int mprotect(void *at, size_t length, int access);
void *memcpy(void *to, const void *from, size_t length);
void *memset(void *to, int byte, size_t length);
int memcmp(const void *one, const void *other, size_t length);
long write(int file, const void *bytes, size_t length);
void _exit(int status) __attribute__((noreturn));

enum { READ = 1, READ_WRITE = 3, PRIVATE_ANONYMOUS = 0x22 };
enum { EDGE = 65536, MOST = 1048576, ROOM = 2 * MOST, SLOT = EDGE + ROOM + EDGE, SIDES = 4 };
enum { FIRST, SECOND, THIRD, LENT, LENT_SINGLES, LENT_DOUBLES, ANSWER, SLOTS };

static void stop(const char *why)
{
    size_t length = 0;
    while (why[length]) length++;
    write(2, "driver: ", 8);
    write(2, why, length);
    write(2, "\n", 1);
    _exit(1);
}

static uint8_t *fenced[SIDES];

/* of each slot that is lent, the bytes that the first answer allows to be written */
static struct { size_t first, end; } own[SLOTS];

/* a slot of memory on one side of the fences: side 0 right after an inaccessible page, side 1 right before one; in the room's middle a
 * page begins on side 2 after the own bytes, on side 3 with them */
static uint8_t *slot(int which, int side, size_t size)
{
    uint8_t *room = fenced[side] + (size_t)which * SLOT + EDGE;
    if (size > MOST) stop("a buffer larger than its room");
    if (side < 2) return side ? room + ROOM - size : room;
    return room + ROOM / 2 - (side == 2 ? own[which].end : own[which].first);
}

static void access_to(int which, int side, size_t from, size_t to, int access)
{
    if (mprotect(fenced[side] + (size_t)which * SLOT + EDGE + from, to - from, access)) stop("no mprotect");
}

static void fence(void)
{
    int side, which;
    for (side = 0; side < SIDES; side++) {
        fenced[side] = mmap(0, (size_t)SLOTS * SLOT, 0, PRIVATE_ANONYMOUS, -1, 0);
        if (fenced[side] == (void *)-1) stop("no mmap");
        for (which = 0; which < SLOTS; which++) access_to(which, side, 0, ROOM, READ_WRITE);
    }
}

/* memory of some size on one side, and NULL on every second side where there is none */
static void *handed(int side, void *at, size_t size) { return size || side % 2 == 0 ? at : 0; }

/* what is only read */
static const void *given(int which, int side, const void *bytes, size_t size)
{
    uint8_t *at = slot(which, side, size);
    access_to(which, side, 0, ROOM, READ_WRITE);
    memcpy(at, bytes, size);
    access_to(which, side, 0, ROOM, READ);
    return handed(side, at, size);
}

/* what may be written, as the caller has it: after the first answer its own bytes only, as far as a page parts them from the others */
static void *lent(int which, int side, const void *bytes, size_t size)
{
    uint8_t *at = slot(which, side, size);
    access_to(which, side, 0, ROOM, READ_WRITE);
    memcpy(at, bytes, size);
    if (side && own[which].first == own[which].end) access_to(which, side, 0, ROOM, READ);
    else if (side >= 2) access_to(which, side, side == 2 ? ROOM / 2 : 0, side == 2 ? ROOM : ROOM / 2, READ);
    return handed(side, at, size);
}

/* what the first answer allows to be written, and on how many sides it is asked: on those of which a page parts anything */
static int may_write(int which, size_t size, size_t first, size_t end)
{
    own[which].first = first;
    own[which].end = end;
    return first ? 4 : end && end < size ? 3 : 2;
}

/* bytes that are unlike on two sides, so that one left unwritten shows */
static void *unlike(int side, void *bytes, size_t size) { return memset(bytes, side % 2 ? 0x5a : 0xa5, size); }

/* the four numbers */
static uint64_t *blank(int side) { return unlike(side, slot(ANSWER, side, 32), 32); }

static const uint64_t *told(void) { return (const uint64_t *)(void *)slot(ANSWER, 0, 32); }

/* all sides left the same, which the caller gets */
static void settle(int which, int sides, void *bytes, size_t size)
{
    int side;
    for (side = 1; side < sides; side++)
        if (memcmp(slot(which, 0, size), slot(which, side, size), size)) stop("two answers to one question");
    memcpy(bytes, slot(which, 0, size), size);
}

static void guarded_swizzle(uint64_t m, uint64_t b, uint64_t s, uint64_t address, uint64_t *answer)
{
    int side;
    for (side = 0; side < 2; side++) urszovely_swizzle(m, b, s, address, blank(side));
    settle(ANSWER, 2, answer, 32);
}

static void guarded_mode(uint64_t bits, uint64_t mode, uint64_t *answer)
{
    int side;
    for (side = 0; side < 2; side++) urszovely_mode(bits, mode, blank(side));
    settle(ANSWER, 2, answer, 32);
}

static void guarded_bank(uint64_t bits, uint64_t address, uint64_t *answer)
{
    int side;
    for (side = 0; side < 2; side++) urszovely_bank(bits, address, blank(side));
    settle(ANSWER, 2, answer, 32);
}

static void guarded_fragment(uint64_t kind, uint64_t lane, uint64_t reg, uint64_t *answer)
{
    int side;
    for (side = 0; side < 2; side++) urszovely_fragment(kind, lane, reg, blank(side));
    settle(ANSWER, 2, answer, 32);
}

static void guarded_holder(uint64_t kind, uint64_t computation, uint64_t row, uint64_t column, uint64_t *answer)
{
    int side;
    for (side = 0; side < 2; side++) urszovely_holder(kind, computation, row, column, blank(side));
    settle(ANSWER, 2, answer, 32);
}

static void guarded_mma(uint64_t kind, uint64_t warp, uint64_t lane, uint64_t reg, uint64_t *answer)
{
    int side;
    for (side = 0; side < 2; side++) urszovely_mma(kind, warp, lane, reg, blank(side));
    settle(ANSWER, 2, answer, 32);
}

static void guarded_mma_holder(uint64_t kind, uint64_t matrix, uint64_t row, uint64_t column, uint64_t *answer)
{
    int side;
    for (side = 0; side < 2; side++) urszovely_mma_holder(kind, matrix, row, column, blank(side));
    settle(ANSWER, 2, answer, 32);
}

static void guarded_fields(uint64_t descriptor, uint8_t *fields, uint64_t *answer)
{
    int side;
    for (side = 0; side < 2; side++) {
        urszovely_fields(descriptor, lent(LENT, side, unlike(side, fields, 12), 12), blank(side));
        may_write(LENT, 12, 0, 12);
    }
    settle(LENT, 2, fields, 12);
    settle(ANSWER, 2, answer, 32);
}

/* on the second side a yes is 2 or 255 */
static void guarded_descriptor(uint64_t m, const uint8_t *fields, uint64_t shift, uint64_t *answer)
{
    uint8_t other[11];
    int i;
    memcpy(other, fields, 11);
    for (i = 4; i < 9; i++)
        if (other[i]) other[i] = i % 2 ? 2 : 255;
    urszovely_descriptor(m, given(FIRST, 0, fields, 11), shift, blank(0));
    urszovely_descriptor(m, given(FIRST, 1, other, 11), shift, blank(1));
    settle(ANSWER, 2, answer, 32);
}

static void guarded_mask(uint64_t m, uint64_t n, uint64_t descriptor, uint8_t *mask, size_t length, uint64_t *answer)
{
    int side, sides = 2;
    for (side = 0; side < sides; side++) {
        urszovely_mask(m, n, descriptor, lent(LENT, side, mask, length), length, blank(side));
        if (!side) sides = may_write(LENT, length, 0, told()[0] ? 0 : n / 8);
    }
    settle(LENT, sides, mask, length);
    settle(ANSWER, sides, answer, 32);
}

/* the card's own checks come first in each of the three questions below, so they agree with admit */
static void admitted(const uint64_t *card, uint64_t marks, const uint64_t *answer)
{
    uint64_t checked[4];
    int side, check = (answer[0] >= 1 && answer[0] <= 6) || answer[0] == 17;
    for (side = 0; side < 2; side++) urszovely_admit(given(FIRST, side, card, 57 * 8), marks, blank(side));
    settle(ANSWER, 2, checked, 32);
    if (check ? memcmp(checked, answer, 32) != 0 : checked[0] || checked[1] || checked[2] || checked[3]) stop("admit has another answer");
}

static void guarded_place(const uint64_t *card, uint64_t marks, const uint64_t *shape, const uint64_t *coordinates, uint32_t *memory, size_t length, uint64_t *answer)
{
    int side, sides = 2;
    for (side = 0; side < sides; side++) {
        urszovely_place(given(FIRST, side, card, 57 * 8), marks, given(SECOND, side, shape, 72), given(THIRD, side, coordinates, 72),
                        lent(LENT, side, memory, 4 * length), length, blank(side));
        if (!side) sides = may_write(LENT, 4 * length, 0, told()[0] ? 0 : 4 * told()[1]);
    }
    settle(LENT, sides, memory, 4 * length);
    settle(ANSWER, sides, answer, 32);
    admitted(card, marks, answer);
}

/* the cells of a table: written where it is filled, and cleared where 7 or 8 refuse */
static int may_write_cells(const uint64_t *card, size_t length)
{
    size_t cells = 1;
    int i;
    for (i = 46; i < 54; i++) cells *= card[i];
    return may_write(LENT, 4 * length, 0, told()[0] && told()[0] != 7 && told()[0] != 8 ? 0 : 4 * cells);
}

static void guarded_verdict(const uint64_t *card, uint64_t marks, uint32_t *table, size_t length, uint64_t *answer)
{
    int side, sides = 2;
    for (side = 0; side < sides; side++) {
        urszovely_verdict(given(FIRST, side, card, 57 * 8), marks, lent(LENT, side, table, 4 * length), length, blank(side));
        if (!side) sides = may_write_cells(card, length);
    }
    settle(LENT, sides, table, 4 * length);
    settle(ANSWER, sides, answer, 32);
    admitted(card, marks, answer);
}

static void guarded_owner(const uint64_t *card, uint64_t marks, const uint64_t *coordinates, uint32_t *table, size_t length, uint64_t *answer)
{
    int side, sides = 2;
    for (side = 0; side < sides; side++) {
        urszovely_owner(given(FIRST, side, card, 57 * 8), marks, given(SECOND, side, coordinates, 64), lent(LENT, side, table, 4 * length), length, blank(side));
        if (!side) sides = may_write_cells(card, length);
    }
    settle(LENT, sides, table, 4 * length);
    settle(ANSWER, sides, answer, 32);
    admitted(card, marks, answer);
}

static void guarded_stretch(const uint32_t *table, size_t length, const uint64_t *lengths, uint64_t axis, const uint64_t *coordinates, uint64_t *answer)
{
    int side;
    for (side = 0; side < 2; side++)
        urszovely_stretch(given(FIRST, side, table, 4 * length), length, given(SECOND, side, lengths, 64), axis,
                          given(THIRD, side, coordinates, 64), blank(side));
    settle(ANSWER, 2, answer, 32);
}

/* what stands where the layout goes, and for the marks, is unlike from one side to the next; both are written where refused too, and the
 * card's lengths and M, B, S never */
static void guarded_read(const uint8_t *text, size_t length, uint64_t *card, uint64_t *marks, uint64_t *answer)
{
    int side, sides = 2;
    for (side = 0; side < sides; side++) {
        unlike(side, card, 46 * 8);
        urszovely_read(given(FIRST, side, text, length), length, lent(LENT, side, card, 57 * 8), lent(LENT_DOUBLES, side, unlike(side, marks, 8), 8), blank(side));
        sides = may_write(LENT, 57 * 8, 0, 46 * 8);
        may_write(LENT_DOUBLES, 8, 0, 8);
    }
    settle(LENT, sides, card, 57 * 8);
    settle(LENT_DOUBLES, sides, marks, 8);
    settle(ANSWER, sides, answer, 32);
}

/* a card's lengths and M, B, S are not written, so they are unlike on the two sides */
static void guarded_write(const uint64_t *card, uint64_t marks, uint8_t *text, size_t length, uint64_t *answer)
{
    int side, sides = 2;
    uint64_t layout[57];
    memcpy(layout, card, 46 * 8);
    for (side = 0; side < sides; side++) {
        unlike(side, layout + 46, 11 * 8);
        urszovely_write(given(FIRST, side, layout, 57 * 8), marks, lent(LENT, side, text, length), length, blank(side));
        if (!side) sides = may_write(LENT, length, 0, told()[0] ? 0 : told()[1]);
    }
    settle(LENT, sides, text, length);
    settle(ANSWER, sides, answer, 32);
}

static void guarded_block(const uint64_t *card, uint64_t marks, const uint8_t *note, size_t note_length, uint8_t *bytes, size_t length, uint64_t *answer)
{
    int side, sides = 2;
    for (side = 0; side < sides; side++) {
        urszovely_block(given(FIRST, side, card, 57 * 8), marks, given(SECOND, side, note, note_length), note_length, lent(LENT, side, bytes, length), length,
                        blank(side));
        if (!side) sides = may_write(LENT, length, 0, told()[0] ? 0 : 512);
    }
    settle(LENT, sides, bytes, length);
    settle(ANSWER, sides, answer, 32);
}

/* what stands where the card, the marks and the note's place go is unlike on the two sides; all are written where refused too */
static void guarded_page(const uint8_t *block, size_t length, uint64_t *card, uint64_t *marks, uint64_t *note, uint64_t *answer)
{
    int side;
    for (side = 0; side < 2; side++) {
        urszovely_page(given(FIRST, side, block, length), length, lent(LENT, side, unlike(side, card, 57 * 8), 57 * 8),
                       lent(LENT_SINGLES, side, unlike(side, marks, 8), 8), lent(LENT_DOUBLES, side, unlike(side, note, 16), 16), blank(side));
        may_write(LENT, 57 * 8, 0, 57 * 8);
        may_write(LENT_SINGLES, 8, 0, 8);
        may_write(LENT_DOUBLES, 16, 0, 16);
    }
    settle(LENT, 2, card, 57 * 8);
    settle(LENT_SINGLES, 2, marks, 8);
    settle(LENT_DOUBLES, 2, note, 16);
    settle(ANSWER, 2, answer, 32);
}

static void guarded_canonical(uint64_t major, uint64_t mode, uint64_t bits, uint64_t m, uint64_t k, uint64_t lbo, uint64_t sbo, uint64_t length_of_m,
                              uint32_t *table, size_t length, uint64_t *encodings, uint64_t *answer)
{
    int side, sides = 2;
    for (side = 0; side < sides; side++) {
        urszovely_canonical(major, mode, bits, m, k, lbo, sbo, length_of_m, lent(LENT, side, table, 4 * length), length,
                            lent(LENT_DOUBLES, side, unlike(side, encodings, 16), 16), blank(side));
        if (!side) sides = may_write(LENT, 4 * length, 0, told()[0] && told()[0] != 7 && told()[0] != 8 ? 0 : 4 * length_of_m);
        may_write(LENT_DOUBLES, 16, 0, 16);
    }
    settle(LENT, sides, table, 4 * length);
    settle(LENT_DOUBLES, sides, encodings, 16);
    settle(ANSWER, sides, answer, 32);
}

static void guarded_canonical_card(uint64_t major, uint64_t mode, uint64_t bits, uint64_t m, uint64_t k, uint64_t lbo, uint64_t sbo, uint64_t length_of_m,
                                   uint64_t *card, uint64_t *answer)
{
    int side;
    for (side = 0; side < 2; side++) {
        urszovely_canonical_card(major, mode, bits, m, k, lbo, sbo, length_of_m, lent(LENT, side, unlike(side, card, 57 * 8), 57 * 8), blank(side));
        may_write(LENT, 57 * 8, 0, 57 * 8);
    }
    settle(LENT, 2, card, 57 * 8);
    settle(ANSWER, 2, answer, 32);
}

static void guarded_mma_layout(uint64_t kind, uint64_t *card, uint64_t *answer)
{
    int side;
    for (side = 0; side < 2; side++) {
        urszovely_mma_layout(kind, lent(LENT, side, unlike(side, card, 57 * 8), 57 * 8), blank(side));
        may_write(LENT, 57 * 8, 0, 57 * 8);
    }
    settle(LENT, 2, card, 57 * 8);
    settle(ANSWER, 2, answer, 32);
}

/* a question that lends several is asked on the sides of each */
static int more(int sides, int others) { return sides > others ? sides : others; }

/* the cells of the two tables of a plan: 4, and 11 where a table is shorter than the cells, touch nothing, every other answer writes them */
static int may_write_pair(const uint64_t *card, size_t length, size_t other)
{
    size_t cells = told()[0] == 4 ? 0 : 1;
    int i;
    for (i = 46; i < 54; i++) cells *= card[i];
    if (length < cells || other < cells) cells = 0;
    return more(may_write(LENT, 4 * length, 0, 4 * cells), may_write(LENT_SINGLES, 4 * other, 0, 4 * cells));
}

static void guarded_carry(const uint64_t *first_card, uint64_t first_marks, const uint64_t *second_card, uint64_t second_marks, const uint64_t *plan,
                          size_t plan_length, uint32_t *first, size_t first_length, uint32_t *second, size_t second_length, uint64_t *answer)
{
    int side, sides = 2;
    for (side = 0; side < sides; side++) {
        urszovely_carry(given(FIRST, side, first_card, 57 * 8), first_marks, given(SECOND, side, second_card, 57 * 8), second_marks,
                        given(THIRD, side, plan, 8 * plan_length), plan_length, lent(LENT, side, first, 4 * first_length), first_length,
                        lent(LENT_SINGLES, side, second, 4 * second_length), second_length, blank(side));
        if (!side) sides = may_write_pair(first_card, first_length, second_length);
    }
    settle(LENT, sides, first, 4 * first_length);
    settle(LENT_SINGLES, sides, second, 4 * second_length);
    settle(ANSWER, sides, answer, 32);
}

/* and of the plan's memory the numbers that are written */
static void guarded_plan(const uint64_t *first_card, uint64_t first_marks, const uint64_t *second_card, uint64_t second_marks, uint64_t *plan,
                         size_t plan_length, uint32_t *first, size_t first_length, uint32_t *second, size_t second_length, uint64_t *answer)
{
    int side, sides = 2;
    for (side = 0; side < sides; side++) {
        urszovely_plan(given(FIRST, side, first_card, 57 * 8), first_marks, given(SECOND, side, second_card, 57 * 8), second_marks,
                       lent(LENT_DOUBLES, side, plan, 8 * plan_length), plan_length, lent(LENT, side, first, 4 * first_length), first_length,
                       lent(LENT_SINGLES, side, second, 4 * second_length), second_length, blank(side));
        if (!side)
            sides = more(may_write_pair(first_card, first_length, second_length),
                         may_write(LENT_DOUBLES, 8 * plan_length, 0, told()[0] ? 0 : 8 * told()[1]));
    }
    settle(LENT_DOUBLES, sides, plan, 8 * plan_length);
    settle(LENT, sides, first, 4 * first_length);
    settle(LENT_SINGLES, sides, second, 4 * second_length);
    settle(ANSWER, sides, answer, 32);
}

/* Registers: sorts, singles, doubles in three slots from one on, so many; on every second side an empty register's sort is 3 or 255, which
 * is wrong as 0 is and stays where it is not written. */
enum { MOST_REGISTERS = 256 };

static const uint8_t *sorts_on(int side, const uint8_t *sorts, size_t count)
{
    static uint8_t other[MOST_REGISTERS];
    size_t i;
    if (side % 2 == 0) return sorts;
    for (i = 0; i < count; i++) other[i] = sorts[i] ? sorts[i] : i % 2 ? 3 : 255;
    return other;
}

static void give_registers(int side, const uint8_t *sorts, const float *singles, const double *doubles, size_t count)
{
    given(FIRST, side, sorts_on(side, sorts, count), count);
    given(SECOND, side, singles, 4 * count);
    given(THIRD, side, doubles, 8 * count);
}

static void lend_registers(int side, const uint8_t *sorts, const float *singles, const double *doubles, size_t count)
{
    lent(LENT, side, sorts_on(side, sorts, count), count);
    lent(LENT_SINGLES, side, singles, 4 * count);
    lent(LENT_DOUBLES, side, doubles, 8 * count);
}

/* what a register is dealt, or a place of a tile collected from: its number in what is given; none where it is not the computation's */
static size_t source(uint64_t kind, uint64_t computation, size_t i, size_t count)
{
    uint64_t held[4];
    if (told()[0]) return MOST_REGISTERS;
    if (count == 64) {
        urszovely_holder(kind, computation, i / 8, i % 8, held);
        return held[0] ? MOST_REGISTERS : 8 * held[1] + held[2];
    }
    urszovely_fragment(kind, i / 8, i % 8, held);
    return held[0] || held[1] != computation ? MOST_REGISTERS : 8 * held[2] + held[3];
}

/* from the first to the last of the computation's own registers, or of the places of its matrix in a tile: their sorts, and what those name */
static int may_write_registers(uint64_t kind, uint64_t computation, size_t count)
{
    size_t i, first = 0, end = 0, single = kind == 5 ? 4 : 0, twice = kind == 5 ? 0 : 8;
    for (i = 0; i < count; i++) {
        if (source(kind, computation, i, count) == MOST_REGISTERS) continue;
        if (!end) first = i;
        end = i + 1;
    }
    may_write(LENT_SINGLES, 4 * count, single * first, single * end);
    may_write(LENT_DOUBLES, 8 * count, twice * first, twice * end);
    return may_write(LENT, count, first, end);
}

/* the registers that are given, by their bits */
static struct { uint8_t sorts[MOST_REGISTERS]; uint8_t singles[4 * MOST_REGISTERS], doubles[8 * MOST_REGISTERS]; } from;

static void moved_from(const uint8_t *sorts, const float *singles, const double *doubles, size_t count)
{
    memcpy(from.sorts, sorts, count);
    memcpy(from.singles, singles, 4 * count);
    memcpy(from.doubles, doubles, 8 * count);
}

/* all three arrays are as they were, bit for bit and also where no sort names them, but for the computation's own sorts and what those name,
 * which are the bits that were given */
static void as_moved(uint64_t kind, uint64_t computation, const uint8_t *sorts, const float *singles, const double *doubles, size_t count)
{
    static uint8_t all_sorts[MOST_REGISTERS], all_singles[4 * MOST_REGISTERS], all_doubles[8 * MOST_REGISTERS];
    size_t i, j;
    memcpy(all_sorts, sorts, count);
    memcpy(all_singles, singles, 4 * count);
    memcpy(all_doubles, doubles, 8 * count);
    for (i = 0; i < count; i++) {
        j = source(kind, computation, i, count);
        if (j == MOST_REGISTERS) continue;
        all_sorts[i] = from.sorts[j];
        if (kind == 5) memcpy(all_singles + 4 * i, from.singles + 4 * j, 4);
        else memcpy(all_doubles + 8 * i, from.doubles + 8 * j, 8);
    }
    if (memcmp(all_sorts, slot(LENT, 0, count), count)) stop("another sort");
    if (memcmp(all_singles, slot(LENT_SINGLES, 0, 4 * count), 4 * count)) stop("other bits in the singles");
    if (memcmp(all_doubles, slot(LENT_DOUBLES, 0, 8 * count), 8 * count)) stop("other bits in the doubles");
}

static void settle_registers(uint64_t kind, uint64_t computation, int sides, uint8_t *sorts, float *singles, double *doubles, size_t count)
{
    uint8_t *other;
    size_t i;
    int side;
    as_moved(kind, computation, sorts, singles, doubles, count);
    for (side = 1; side < sides; side += 2) {
        other = slot(LENT, side, count);
        access_to(LENT, side, 0, ROOM, READ_WRITE);
        for (i = 0; i < count; i++)
            if (other[i] == (i % 2 ? 3 : 255)) other[i] = 0;
    }
    settle(LENT, sides, sorts, count);
    settle(LENT_SINGLES, sides, singles, 4 * count);
    settle(LENT_DOUBLES, sides, doubles, 8 * count);
}

#define GIVEN(side, count) (const uint8_t *)slot(FIRST, side, count), (const float *)(void *)slot(SECOND, side, 4 * (count)), (const double *)(void *)slot(THIRD, side, 8 * (count))
#define LENT_TO(side, count) slot(LENT, side, count), (float *)(void *)slot(LENT_SINGLES, side, 4 * (count)), (double *)(void *)slot(LENT_DOUBLES, side, 8 * (count))

static void guarded_deal(uint64_t kind, uint64_t computation, const uint8_t *tile_sorts, const float *tile_singles, const double *tile_doubles,
                         uint8_t *sorts, float *singles, double *doubles, uint64_t *answer)
{
    int side, sides = 2;
    for (side = 0; side < sides; side++) {
        give_registers(side, tile_sorts, tile_singles, tile_doubles, 64);
        lend_registers(side, sorts, singles, doubles, 256);
        urszovely_deal(kind, computation, GIVEN(side, 64), LENT_TO(side, 256), blank(side));
        if (!side) sides = may_write_registers(kind, computation, 256);
    }
    moved_from(tile_sorts, tile_singles, tile_doubles, 64);
    settle_registers(kind, computation, sides, sorts, singles, doubles, 256);
    settle(ANSWER, sides, answer, 32);
}

static void guarded_collect(uint64_t kind, uint64_t computation, const uint8_t *lane_sorts, const float *lane_singles, const double *lane_doubles,
                            uint8_t *sorts, float *singles, double *doubles, uint64_t *answer)
{
    int side, sides = 2;
    for (side = 0; side < sides; side++) {
        give_registers(side, lane_sorts, lane_singles, lane_doubles, 256);
        lend_registers(side, sorts, singles, doubles, 64);
        urszovely_collect(kind, computation, GIVEN(side, 256), LENT_TO(side, 64), blank(side));
        if (!side) sides = may_write_registers(kind, computation, 64);
    }
    moved_from(lane_sorts, lane_singles, lane_doubles, 256);
    settle_registers(kind, computation, sides, sorts, singles, doubles, 64);
    settle(ANSWER, sides, answer, 32);
}

/* a register of a lane in its holding */
static size_t field(uint64_t kind, size_t i) { return 4 * (i / 8) + (kind == 8 ? 2 + i % 8 : kind - 6); }

/* from the first lane's field of the kind to the last lane's: A, B, the two accumulators */
static int may_write_fields(uint64_t kind)
{
    size_t first = kind - 6, end = 4 * 31 + (kind == 8 ? 4 : kind - 5);
    return told()[0] ? may_write(LENT, 8 * 128, 0, 0) : may_write(LENT, 8 * 128, 8 * first, 8 * end);
}

static void guarded_deal_f64(uint64_t kind, uint64_t computation, const uint8_t *tile_sorts, const float *tile_singles, const double *tile_doubles,
                             double *holdings, uint64_t *answer)
{
    static uint8_t all[8 * 128];
    size_t i, j;
    int side, sides = 2;
    for (side = 0; side < sides; side++) {
        give_registers(side, tile_sorts, tile_singles, tile_doubles, 64);
        urszovely_deal_f64(kind, computation, GIVEN(side, 64), lent(LENT, side, holdings, 8 * 128), blank(side));
        if (!side) sides = may_write_fields(kind);
    }
    memcpy(all, holdings, sizeof all);
    for (i = 0; i < 256; i++) {
        j = source(kind, computation, i, 256);
        if (j != MOST_REGISTERS) memcpy(all + 8 * field(kind, i), (const uint8_t *)tile_doubles + 8 * j, 8);
    }
    if (memcmp(all, slot(LENT, 0, sizeof all), sizeof all)) stop("other bits in the holdings");
    settle(LENT, sides, holdings, 8 * 128);
    settle(ANSWER, sides, answer, 32);
}

static void guarded_collect_f64(uint64_t kind, uint64_t computation, const double *holdings, uint8_t *sorts, float *singles, double *doubles, uint64_t *answer)
{
    size_t i;
    int side, sides = 2;
    for (side = 0; side < sides; side++) {
        lend_registers(side, sorts, singles, doubles, 64);
        urszovely_collect_f64(kind, computation, given(FIRST, side, holdings, 8 * 128), LENT_TO(side, 64), blank(side));
        if (!side) sides = may_write_registers(kind, computation, 64);
    }
    for (i = 0; i < 256 && !told()[0]; i++) {
        from.sorts[i] = 2;
        if (i % 8 < 2) memcpy(from.doubles + 8 * i, (const uint8_t *)holdings + 8 * field(kind, i), 8);
    }
    settle_registers(kind, computation, sides, sorts, singles, doubles, 64);
    settle(ANSWER, sides, answer, 32);
}

#define MOST_TABLE 65536
#define urszovely_swizzle guarded_swizzle
#define urszovely_mode guarded_mode
#define urszovely_bank guarded_bank
#define urszovely_fragment guarded_fragment
#define urszovely_holder guarded_holder
#define urszovely_mma guarded_mma
#define urszovely_mma_holder guarded_mma_holder
#define urszovely_mma_layout guarded_mma_layout
#define urszovely_fields guarded_fields
#define urszovely_descriptor guarded_descriptor
#define urszovely_mask guarded_mask
#define urszovely_place guarded_place
#define urszovely_verdict guarded_verdict
#define urszovely_owner guarded_owner
#define urszovely_stretch guarded_stretch
#define urszovely_read guarded_read
#define urszovely_write guarded_write
#define urszovely_block guarded_block
#define urszovely_page guarded_page
#define urszovely_carry guarded_carry
#define urszovely_plan guarded_plan
#define urszovely_canonical guarded_canonical
#define urszovely_canonical_card guarded_canonical_card
#define urszovely_deal guarded_deal
#define urszovely_collect guarded_collect
#define urszovely_deal_f64 guarded_deal_f64
#define urszovely_collect_f64 guarded_collect_f64
#define main answer_all
#include "client.c"
#undef main

int main(void)
{
    fence();
    return answer_all();
}
