/* urszovely.h: tile layouts, swizzles, banks, warp fragments, zero-column masks, the layout book and move plans, answered by a proved
 * library. C99 and C++; urszovely.hpp beside it has the same questions with types. clients/c/example.c reads a text, judges it and looks
 * at the table.
 *
 * Every question takes any numbers and answers four: answer[0] is 0 or the number of a refusal, answer[1] to answer[3] are its details, 0
 * unless said. Pointers are valid and do not overlap, and none is NULL but with length 0; nothing else is asked of a caller. A refusal touches
 * nothing that was lent, but that 7 and 8 of verdict, owner and canonical leave the first `cells` entries of the table 0, that most refusals
 * of carry and plan write the cells of both tables, as said there, and that a record is filled with zeros: the fields of urszovely_fields, the
 * card's first 46 numbers and the marks of urszovely_read, the encodings of urszovely_canonical, the card of urszovely_canonical_card, and the
 * card, the marks and the note's place of urszovely_page.
 *
 * Lent memory is a pointer and a length. A length counts entries, not bytes: a uint32_t table[704] has length 704. Where it is too short the
 * answer is 11 with the length needed, so NULL with length 0 asks how much that is: of a card that passes its checks
 * urszovely_verdict(card, marks, NULL, 0, answer) answers 11 with the cells. Memory for the most that is allowed, below, is never too short.
 *
 * A cell is numbered row-major over the eight axes, pid first and m last, each as long as the card says, and an axis that is not used has
 * length 1. So the entry of the cell at coordinates at[8] in a space of lengths[8] is table[cell] after
 *
 *     for (cell = 0, axis = 0; axis < URSZOVELY_AXES; axis++) cell = cell * lengths[axis] + at[axis];
 *
 * and where warpid, laneid and m alone are used, laneid 32 and m 2 long, it is table[(warpid * 32 + laneid) * 2 + m].
 *
 * Threads: the library keeps nothing between questions, has no memory of its own that is written, takes none and starts nothing. Any number of
 * threads may ask at once, each with an answer and lent memory of its own; what is only read they may share.
 *
 * Limits: extents, lengths, elements and cells 1 to 65,536, copies at most 64, strides and offsets -65,536 to 65,535.
 *
 * A card is 57 numbers: the shard count; eight times extent, stride, axis; the replica count; four times extent, stride, axis;
 * eight offsets and eight lengths, pid to m; M, B, S. Strides and offsets are in two's complement: (uint64_t)(int64_t)-1. Bit k of `marks`
 * is the reuse mark of shard iter k, whose stride must then be 0, else 2; bits past the count are ignored. */
#ifndef URSZOVELY_H
#define URSZOVELY_H

#include <stddef.h>
#include <stdint.h>

#ifdef __cplusplus
extern "C" {
#endif

/* The numbers of a card, and the bytes of the longest text that a card is written as. */
enum { URSZOVELY_CARD = 57, URSZOVELY_TEXT = 344 };

enum urszovely_refusal {
    URSZOVELY_APPROVED = 0,
    URSZOVELY_COUNTS = 1,      /* shard or replica iter count outside limits */
    URSZOVELY_LIMITS = 2,      /* an extent, stride or offset outside limits, or a reuse mark where a plan is asked of */
    URSZOVELY_AXIS = 3,        /* an axis above 7 */
    URSZOVELY_SPACE = 4,       /* a length outside limits, too many cells, or two cards of two spaces */
    URSZOVELY_TOO_MANY = 5,    /* too many elements or copies */
    URSZOVELY_SWIZZLE = 6,     /* swizzle numbers, bits or mode not allowed */
    URSZOVELY_OUTSIDE = 7,     /* a copy lies outside the space: flat, axis */
    URSZOVELY_SHARED = 8,      /* two elements that are not one share a cell: x, y, cell */
    URSZOVELY_SHAPE = 9,       /* shape not admitted, or two cards of unequally many elements */
    URSZOVELY_COORDINATE = 10, /* a coordinate outside its dimension, or an address of 2^32 or more */
    URSZOVELY_TOO_SHORT = 11,  /* lent memory too short: the length needed */
    URSZOVELY_CELL = 12,       /* asked cell coordinate outside the space: axis */
    URSZOVELY_MASK_SIZE = 13,  /* mask M or N not allowed */
    URSZOVELY_FRAGMENT = 14,   /* unknown fragment kind, or a number outside it; or a value of the wrong sort: lane, register */
    URSZOVELY_RESERVED = 15,   /* reserved descriptor bits set */
    URSZOVELY_SHIFT = 16,      /* mask shift above its limit: the limit */
    URSZOVELY_IDLE = 17,       /* two replica combinations give the same sum on every axis: a, b */
    URSZOVELY_NOTATION = 18,   /* a text that is not correct: the bytes of its longest beginning that some correct text also has */
    URSZOVELY_WRONG_CHECK = 19, /* a block of the layout book whose check is wrong */
    URSZOVELY_UNUSED = 20,     /* a note of more than 292 bytes, or an unused byte of a block that is not zero */
    URSZOVELY_PLAN = 21,       /* a plan with a copy outside: its index plus 1; or one that ends wrongly: 0, the first wrong cell */
    URSZOVELY_CANONICAL = 22,  /* major-ness, m, k or a byte stride of a canonical layout not allowed */
    URSZOVELY_OVERLAP = 23     /* two cards occupy one cell: the smallest such cell */
};

/* Major-ness and mode. A mode is not the layout type of a shared-memory descriptor, which counts the other way: there 1 is 128B, 2 is 64B
 * and 3 is 32B. */
enum { URSZOVELY_K_MAJOR = 0, URSZOVELY_MN_MAJOR = 1 };
enum { URSZOVELY_NO_SWIZZLE = 0, URSZOVELY_32B = 1, URSZOVELY_64B = 2, URSZOVELY_128B = 3 };

/* The axes, in the order of a card's offsets and lengths and of a cell's coordinates, and how many there are. */
enum {
    URSZOVELY_AXIS_PID = 0,
    URSZOVELY_AXIS_WARPID = 1,
    URSZOVELY_AXIS_LANEID = 2,
    URSZOVELY_AXIS_P = 3,
    URSZOVELY_AXIS_F = 4,
    URSZOVELY_AXIS_TLANE = 5,
    URSZOVELY_AXIS_TCOL = 6,
    URSZOVELY_AXIS_M = 7,
    URSZOVELY_AXES = 8
};

/* Kinds of warp fragments of m8n8k4: the matrix, its elements, and for A and B of .f16 whether row- or column-major. Values are dealt in the
 * last four. */
enum {
    URSZOVELY_M8N8K4_A_F16_ROW = 0,
    URSZOVELY_M8N8K4_A_F16_COLUMN = 1,
    URSZOVELY_M8N8K4_B_F16_ROW = 2,
    URSZOVELY_M8N8K4_B_F16_COLUMN = 3,
    URSZOVELY_M8N8K4_C_F16 = 4,
    URSZOVELY_M8N8K4_C_F32 = 5,
    URSZOVELY_M8N8K4_A_F64 = 6,
    URSZOVELY_M8N8K4_B_F64 = 7,
    URSZOVELY_M8N8K4_C_F64 = 8
};

/* Sorts of a register. */
enum { URSZOVELY_EMPTY = 0, URSZOVELY_SINGLE = 1, URSZOVELY_DOUBLE = 2 };

/* The most that is allowed: cells, which are a table's entries, and elements; copies of an element, which are a placement's entries; iters of
 * a shard and of a replica; numbers of a written plan; bytes of a correct text, of a mask and of a note. A block of the layout book has 512. */
enum {
    URSZOVELY_MOST_CELLS = 65536,
    URSZOVELY_MOST_ELEMENTS = 65536,
    URSZOVELY_MOST_COPIES = 64,
    URSZOVELY_MOST_SHARD = 8,
    URSZOVELY_MOST_REPLICA = 4,
    URSZOVELY_MOST_PLAN = 131072,
    URSZOVELY_MOST_TEXT = 352,
    URSZOVELY_MOST_MASK = 32,
    URSZOVELY_MOST_NOTE = 292,
    URSZOVELY_BLOCK = 512
};

/* A card by name. Its memory is the 57 numbers, strides and offsets with their signs; iters past a count are not looked at. */
struct urszovely_iter {
    uint64_t extent;
    int64_t stride;
    uint64_t axis;
};

struct urszovely_card {
    uint64_t shard_count;
    struct urszovely_iter shard[URSZOVELY_MOST_SHARD];
    uint64_t replica_count;
    struct urszovely_iter replica[URSZOVELY_MOST_REPLICA];
    int64_t offsets[URSZOVELY_AXES];
    uint64_t lengths[URSZOVELY_AXES];
    uint64_t m, b, s;
};

/* Both in one memory: fill or read `card`, and hand over `numbers`. In C a pointer to a member of the struct, as &card.shard_count, points to
 * that one number; `numbers` points to all 57, and each is then looked at as the type that it has or as its unsigned one, which C allows. */
union urszovely_memory {
    struct urszovely_card card;
    uint64_t numbers[URSZOVELY_CARD];
};

typedef char urszovely_card_is_its_numbers[sizeof(struct urszovely_card) == URSZOVELY_CARD * sizeof(uint64_t) ? 1 : -1];

/* The swizzle M, B, S of an address: 0 with the new address, or 6. */
void urszovely_swizzle(uint64_t m, uint64_t b, uint64_t s, uint64_t address, uint64_t answer[4]);

/* M, B, S from element bits and mode: 0 with M, B, S, or 6. */
void urszovely_mode(uint64_t bits, uint64_t mode, uint64_t answer[4]);

/* Line and bank of an element address, taken as it is; banks are 4 bytes wide, 32 to a line: 0 with line and bank, or 6 for the bits, 10
 * for an address of 2^32 or more. */
void urszovely_bank(uint64_t bits, uint64_t address, uint64_t answer[4]);

/* What a register of a warp's lane holds: 0 with computation, row, column, or 14. */
void urszovely_fragment(uint64_t kind, uint64_t lane, uint64_t reg, uint64_t answer[4]);

/* Which register holds a place: 0 with lane and register, or 14. */
void urszovely_holder(uint64_t kind, uint64_t computation, uint64_t row, uint64_t column, uint64_t answer[4]);

/* The further kinds of fragments, as PTX names them: F16 is .bf16 too, S8 .u8, S4 .u4; M16N8_C is C and D of every k and type, M8N8_S32_C those of
 * .s32; WGMMA_K16_A is A in registers of wgmma m64k16 .f16, WGMMA_K8_A of m64k8 .tf32, WGMMA_K32_A of m64k32 .s8; LDMATRIX is stmatrix too. The
 * accumulators D of wgmma m64nN are URSZOVELY_WGMMA_D(N), N = 8, 16, .. 256. */
enum {
    URSZOVELY_M16N8K8_F16_A = 9, URSZOVELY_M16N8K8_F16_B = 10, URSZOVELY_M16N8_C = 11, URSZOVELY_M16N8K16_F16_A = 12,
    URSZOVELY_M16N8K16_F16_B = 13, URSZOVELY_M16N8K4_TF32_A = 14, URSZOVELY_M16N8K4_TF32_B = 15, URSZOVELY_M16N8K8_TF32_A = 16,
    URSZOVELY_M16N8K8_TF32_B = 17, URSZOVELY_M8N8K16_S8_A = 18, URSZOVELY_M8N8K16_S8_B = 19, URSZOVELY_M8N8_S32_C = 20,
    URSZOVELY_M16N8K16_S8_A = 21, URSZOVELY_M16N8K16_S8_B = 22, URSZOVELY_M16N8K32_S8_A = 23, URSZOVELY_M16N8K32_S8_B = 24,
    URSZOVELY_M8N8K32_S4_A = 25, URSZOVELY_M8N8K32_S4_B = 26, URSZOVELY_M16N8K32_S4_A = 27, URSZOVELY_M16N8K32_S4_B = 28,
    URSZOVELY_M16N8K64_S4_A = 29, URSZOVELY_M16N8K64_S4_B = 30, URSZOVELY_M16N8K4_F64_A = 31, URSZOVELY_M16N8K4_F64_B = 32,
    URSZOVELY_M16N8K8_F64_A = 33, URSZOVELY_M16N8K8_F64_B = 34, URSZOVELY_M16N8K16_F64_A = 35, URSZOVELY_M16N8K16_F64_B = 36,
    URSZOVELY_WGMMA_K16_A = 37, URSZOVELY_WGMMA_K8_A = 38, URSZOVELY_WGMMA_K32_A = 39, URSZOVELY_LDMATRIX_X1 = 40,
    URSZOVELY_LDMATRIX_X1_TRANS = 41, URSZOVELY_LDMATRIX_X2 = 42, URSZOVELY_LDMATRIX_X2_TRANS = 43, URSZOVELY_LDMATRIX_X4 = 44,
    URSZOVELY_LDMATRIX_X4_TRANS = 45
};
#define URSZOVELY_WGMMA_D(n) (1000 + (n))

/* What a register of a lane of a warp holds, of the further kinds; registers are counted as PTX counts them, one an element: 0 with matrix, row,
 * column, or 14. */
void urszovely_mma(uint64_t kind, uint64_t warp, uint64_t lane, uint64_t reg, uint64_t answer[4]);

/* Which register of the further kinds holds a place: 0 with warp, lane, register, or 14. */
void urszovely_mma_holder(uint64_t kind, uint64_t matrix, uint64_t row, uint64_t column, uint64_t answer[4]);

/* The layout of a further kind, as a card, its elements matrix by row by column: 0 with no details, or 14 and 57 zeros. urszovely_write makes its text. */
void urszovely_mma_layout(uint64_t kind, uint64_t card[URSZOVELY_CARD], uint64_t answer[4]);

/* Values. A register is three numbers at one place of three arrays: its sort, 0 empty, 1 a single, 2 a double, any other is a wrong sort;
 * a float, read and written where the sort is 1; a double, where it is 2. A tile has 64, place 8 row + column, the lanes 256, entry
 * 8 lane + register. Values are moved as their bits, 32 or 64, not-a-number patterns too: the library
 * reads and writes the arrays of floats and doubles as arrays of numbers of 32 and 64 bits, which are the same memory.
 *
 * Deal a computation's matrix of kind 5, 6, 7 or 8 to its lanes, or collect it from them: 0, or 14 where there is no such kind or
 * computation, and with the smallest lane and register where a value is not of the kind's sort, 1 for kind 5, else 2. What is not the
 * computation's stays as given and is not written, and where refused all of it. */
void urszovely_deal(uint64_t kind, uint64_t computation, const uint8_t tile_sorts[64], const float tile_singles[64], const double tile_doubles[64], uint8_t sorts[256], float singles[256], double doubles[256], uint64_t answer[4]);
void urszovely_collect(uint64_t kind, uint64_t computation, const uint8_t lane_sorts[256], const float lane_singles[256], const double lane_doubles[256], uint8_t sorts[64], float singles[64], double doubles[64], uint64_t answer[4]);

/* The same for kinds 6 to 8 over the lanes' holdings, four doubles each, entry 4 lane + field: A, B, the two accumulators. */
void urszovely_deal_f64(uint64_t kind, uint64_t computation, const uint8_t tile_sorts[64], const float tile_singles[64], const double tile_doubles[64], double holdings[128], uint64_t answer[4]);
void urszovely_collect_f64(uint64_t kind, uint64_t computation, const double holdings[128], uint8_t sorts[64], float singles[64], double doubles[64], uint64_t answer[4]);

/* The fields of a descriptor, read: 0, or 15 with all fields 0. Four start counts, four first spans, the non-zero mask, the skip span,
 * the use span, the shift. */
void urszovely_fields(uint64_t descriptor, uint8_t fields[12], uint64_t answer[4]);

/* And written for M: 0 with the descriptor, or 13, 16 with the limit, which is 16 for M = 32 and 32 otherwise. The fields in the same
 * order without the shift; of the five one-bit fields anything but 0 is a yes. */
void urszovely_descriptor(uint64_t m, const uint8_t fields[11], uint64_t shift, uint64_t answer[4]);

/* The zero-column mask for M, N and a descriptor in N / 8 lent bytes: 0 with zeroed columns and first used column, bytes past the mask
 * stay; or 13, 15, 16 with the limit, 11 with N / 8. */
void urszovely_mask(uint64_t m, uint64_t n, uint64_t descriptor, uint8_t *mask, size_t length, uint64_t answer[4]);

/* A card's own checks: 0, or 1 to 6, then 17 with the two combinations. */
void urszovely_admit(const uint64_t card[57], uint64_t marks, uint64_t answer[4]);

/* The cells of the copies of one element: 0 with the copies, entries past them stay; or 1 to 6, 17, 9, 10, 11 with the copies, 7. A shape,
 * like coordinates, is a count and eight numbers. */
void urszovely_place(const uint64_t card[57], uint64_t marks, const uint64_t shape[9], const uint64_t coordinates[9], uint32_t *memory, size_t length, uint64_t answer[4]);

/* The verdict: 0 with elements, occupied cells, cells, and in the table each cell's owner plus 1, of elements that are one by
 * their marks the smallest, or 0 for nobody, entries past the cells stay; or 1 to 6, 17, 11 with the cells, 7, 8. */
void urszovely_verdict(const uint64_t card[57], uint64_t marks, uint32_t *table, size_t length, uint64_t answer[4]);

/* The owner of the cell that eight coordinates name: 0 with the entry, the table filled alike; or 1 to 6, 17, 12, 11, 7, 8. */
void urszovely_owner(const uint64_t card[57], uint64_t marks, const uint64_t coordinates[8], uint32_t *table, size_t length, uint64_t answer[4]);

/* The cells of a table under the coordinates of all axes up to one: 0 with the first cell and how many; or 3, 4, 12, 11. */
void urszovely_stretch(const uint32_t *table, size_t length, const uint64_t lengths[8], uint64_t axis, const uint64_t coordinates[8], uint64_t answer[4]);

/* A text of the layout notation, any bytes, read: 0, or 18 with the bytes of its longest beginning that some correct text also has. Shard,
 * replica and offsets go to the first 46 numbers of the card, refused 46 zeros, and the marks to one number; the card's lengths and
 * M, B, S stay as they are. */
void urszovely_read(const uint8_t *text, size_t length, uint64_t card[57], uint64_t marks[1], uint64_t answer[4]);

/* And written, the card's lengths and M, B, S aside, into lent bytes: 0 with the length of the text, bytes past it stay; or 1 to 3, 11 with
 * the length needed. No text is longer than URSZOVELY_TEXT bytes: whoever lends so many is never answered 11. */
void urszovely_write(const uint64_t card[57], uint64_t marks, uint8_t *text, size_t length, uint64_t answer[4]);

/* The verdict on a canonical shared-memory layout, on axis m alone, of that length: major-ness, mode, element bits, m and k, 1 to 8 each, LBO
 * and SBO in bytes, multiples of 16 below 262,144. Where K-major is swizzled, LBO is not used and not looked at. 0 with elements, occupied
 * cells, cells, the table filled as by the verdict, and in encodings LBO and SBO divided by 16, 1 for an LBO that is not used; or 6 for bits or
 * mode, 22, 2, 4, 5, 11 with the cells, 7 and 8, which leave the first length_of_m entries of the table 0, and in encodings 0 twice. */
void urszovely_canonical(uint64_t major, uint64_t mode, uint64_t bits, uint64_t m, uint64_t k, uint64_t lbo, uint64_t sbo, uint64_t length_of_m, uint32_t *table, size_t length, uint64_t encodings[2], uint64_t answer[4]);

/* The card that it judges, to be asked about with marks 0: 0, or 6, 22 with a card of zeros. */
void urszovely_canonical_card(uint64_t major, uint64_t mode, uint64_t bits, uint64_t m, uint64_t k, uint64_t lbo, uint64_t sbo, uint64_t length_of_m, uint64_t card[57], uint64_t answer[4]);

/* A card with a note of note_length bytes, written as a block of the layout book into lent bytes: 0, the first 512 are the block and those
 * past it stay; or 1 to 6, 20 for a note of more than 292 bytes, 11 with 512. */
void urszovely_block(const uint64_t card[57], uint64_t marks, const uint8_t *note, size_t note_length, uint8_t *bytes, size_t length, uint64_t answer[4]);

/* A block of the layout book read, of a longer one the first 512 bytes: 0, or 11 with 512, 19, 1, 20. The card and its marks go to card and
 * marks. The note is not copied: note has its first byte in the block, 216, and its length. Refused, card, marks and note are zeros. */
void urszovely_page(const uint8_t *block, size_t length, uint64_t card[57], uint64_t marks[1], uint64_t note[2], uint64_t answer[4]);

/* A move plan is a list of copies in the one space of two cards, two numbers a copy, from cell and to cell. Checked: each occupied cell of
 * the first card begins with its owner and every other cell with nothing, the copies are run in order, and at 0 every occupied cell of the
 * second card then holds its owner. Copying from a cell that holds nothing is allowed. Or 4, also where the lengths of the two cards differ;
 * 11 with the cells where a table is shorter; the refusals of the first card's verdict, then those of the second's, with their details; 2 for
 * a reuse mark on either card; 9 for unequally many elements; 21 with the index plus 1 of the first copy that names a cell outside, an odd
 * number left over being such a copy too; 21 with 0 and the first wrong cell.
 *
 * At 0, and at 21 with 0, the cells of the first table are what the copies left, those of the second its card's owners, each plus 1, or 0 for
 * nobody. 4 and 11 touch nothing. Any other refusal leaves the cells of both tables 0: 1, 2, 3, 5, 6 and 17 too, at which the verdict
 * touches nothing. Entries past the cells stay in both tables, always. */
void urszovely_carry(const uint64_t first_card[57], uint64_t first_marks, const uint64_t second_card[57], uint64_t second_marks, const uint64_t *plan, size_t plan_length, uint32_t *first, size_t first_length, uint32_t *second, size_t second_length, uint64_t answer[4]);

/* And written: for each occupied cell of the second card, rising, a copy from the smallest cell of the first with that owner. 0 with the
 * numbers written, later ones stay, and both tables filled as by the verdict on their cards; or the refusals above as far as 9, then 23 with the
 * smallest cell that both cards occupy, 11 with twice the occupied cells of the second where plan_length is less. What is written is accepted.
 *
 * 4, and 11 for a table, touch nothing. Any other refusal, 23 and 11 for the plan too, leaves the cells of both tables 0. The plan's memory is
 * untouched by every refusal, and entries past the cells stay in both tables, always. */
void urszovely_plan(const uint64_t first_card[57], uint64_t first_marks, const uint64_t second_card[57], uint64_t second_marks, uint64_t *plan, size_t plan_length, uint32_t *first, size_t first_length, uint32_t *second, size_t second_length, uint64_t answer[4]);

/* A refusal's number in words. */
static inline const char *urszovely_refusal_text(uint64_t number)
{
    switch (number) {
    case 0: return "approved";
    case 1: return "shard or replica iter count outside limits";
    case 2: return "an extent, stride or offset outside limits, or a reuse mark where a plan is asked of";
    case 3: return "an axis above 7";
    case 4: return "a length outside limits, too many cells, or two cards of two spaces";
    case 5: return "too many elements or copies";
    case 6: return "swizzle numbers, bits or mode not allowed";
    case 7: return "a copy lies outside the space";
    case 8: return "two elements share a cell";
    case 9: return "shape not admitted, or two cards of unequally many elements";
    case 10: return "a coordinate outside its dimension, or an address of 2^32 or more";
    case 11: return "lent memory too short";
    case 12: return "asked cell coordinate outside the space";
    case 13: return "mask M or N not allowed";
    case 14: return "unknown fragment kind, a number outside it, or a value of the wrong sort";
    case 15: return "reserved descriptor bits set";
    case 16: return "mask shift above its limit";
    case 17: return "two replica combinations give the same sum on every axis";
    case 18: return "a text that is not correct in the layout notation";
    case 19: return "a block of the layout book whose check is wrong";
    case 20: return "a note of more than 292 bytes, or an unused byte of a block that is not zero";
    case 21: return "a plan with a copy outside, or one that ends wrongly";
    case 22: return "major-ness, m, k or a byte stride of a canonical layout not allowed";
    case 23: return "two cards occupy one cell";
    default: return "an unknown number, which is no refusal of this library";
    }
}

#ifdef __cplusplus
}
#endif

#endif
