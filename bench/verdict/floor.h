// The floor under a verdict: the table is cleared and each copy is one store, without a look at what stood there. A nest has the loops of a
// case, laid as C likes them best: the copies outside, inside them rows of cells that follow each other. A swizzle keeps 2^M cells together.
void *memset(void *, int, u64);
struct loop { i64 count, step; };
struct nest { u64 cells; i64 first; struct loop copy[4], row[2]; i64 length; u64 m, b, s; };

#define ONE {1, 0}
enum { A = 1, B, C, D, P = 14, Q }; // places among the cards
static const struct nest nests[CARDS] = {
    [A] = {16384, 0, {ONE, ONE, ONE, ONE}, {ONE, {128, 128}}, 128},
    [B] = {16384, 0, {ONE, ONE, ONE, ONE}, {ONE, {2048, 8}}, 8, 3, 3, 3},
    [C] = {16384, 0, {{4, 16 * 128}, {2, 64 * 128}, {4, 16}, {2, 64}}, {ONE, {16, 128}}, 16},
    [D] = {16384, 0, {ONE, ONE, ONE, ONE}, {ONE, ONE}, 16384},
    [P] = {65536, 0, {ONE, ONE, ONE, ONE}, {ONE, {256, 256}}, 256},
    [Q] = {65536, 49152, {ONE, {4, 4096}, {4, 1024}, {4, 256}}, {{4, -16384}, {32, 8}}, 8, 3, 3, 3},
};

// One copy of all elements, from a cell on.
static void put_copy(u32 *table, const struct nest *nest, i64 from) {
    u64 mask = (1ul << nest->b) - 1, up = nest->m, down = nest->m + nest->s;
    u32 owner = 1;
    for (i64 i = 0; i < nest->row[0].count; i++)
        for (i64 j = 0; j < nest->row[1].count; j++) {
            u64 cell = from + i * nest->row[0].step + j * nest->row[1].step;
            if (mask) cell ^= (cell >> down & mask) << up;
            u32 *row = table + cell;
            for (i64 k = 0; k < nest->length; k++) row[k] = owner + k;
            owner += nest->length;
        }
}

static void put_all(u32 *table, const struct nest *nest) {
    const struct loop *copy = nest->copy;
    memset(table, 0, nest->cells * sizeof *table);
    for (i64 a = 0; a < copy[0].count; a++)
        for (i64 b = 0; b < copy[1].count; b++)
            for (i64 c = 0; c < copy[2].count; c++)
                for (i64 d = 0; d < copy[3].count; d++)
                    put_copy(table, nest, nest->first + a * copy[0].step + b * copy[1].step + c * copy[2].step + d * copy[3].step);
}
