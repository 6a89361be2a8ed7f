// Cards, for the drivers that ask about them: the cases by their letters, and random ones. A card is the 57 numbers of urszovely.h, and its marks.
struct iter { u64 extent; i64 stride; u64 axis; };
struct card { u64 shards; struct iter shard[8]; u64 replicas; struct iter replica[4]; i64 offset[8]; u64 length[8], m, b, s, marks; };
enum { MOST = 65536, PAST = 16, NUMBERS = sizeof(struct card) / sizeof(u64) };

static const struct { const char *name; struct card card; } cards[] = {
    {"X, 128 x 2 in 704", {4, {{8, 4, 2}, {2, 1, 1}, {4, 1, 2}, {2, 1, 7}}, 1, {{2, 4, 1}}, {0, 5}, {1, 11, 32, 1, 1, 1, 1, 2}, 0, 0, 3}},
    {"A, 128 x 128 on TLane, TCol", {2, {{128, 1, 5}, {128, 1, 6}}, 0, {}, {}, {1, 1, 1, 1, 1, 128, 128, 1}, 0, 0, 3}},
    {"B, 16,384 on m, swizzled", {1, {{16384, 1, 7}}, 0, {}, {}, {1, 1, 1, 1, 1, 1, 1, 16384}, 3, 3, 3}},
    {"C, 256 x 64 copies", {2, {{16, 1, 5}, {16, 1, 6}}, 4, {{4, 16, 5}, {2, 64, 5}, {4, 16, 6}, {2, 64, 6}}, {}, {1, 1, 1, 1, 1, 128, 128, 1}, 0, 0, 3}},
    {"D, eight iters", {8, {{2, 1, 0}, {4, 1, 1}, {4, 4, 2}, {4, 1, 2}, {4, 1, 3}, {4, 1, 5}, {4, 1, 6}, {2, 1, 7}}, 0, {}, {}, {2, 4, 16, 4, 1, 4, 4, 2}, 0, 0, 3}},
    {"E, 16,384 x 64, idle at (0, 1)", {2, {{128, 1, 5}, {128, 1, 6}}, 3, {{4, 0, 7}, {4, 0, 7}, {4, 0, 7}}, {}, {1, 1, 1, 1, 1, 128, 128, 1}, 0, 0, 3}},
    {"F, refused 8 half way", {3, {{2, 8191, 7}, {64, 128, 7}, {128, 1, 7}}, 0, {}, {}, {1, 1, 1, 1, 1, 1, 1, 16384}, 0, 0, 3}},
    {"G, refused 7 at the last row", {2, {{128, 1, 5}, {128, 1, 6}}, 0, {}, {}, {1, 1, 1, 1, 1, 127, 128, 1}, 0, 0, 3}},
    {"I, 16,321 swizzled", {1, {{16321, 1, 7}}, 0, {}, {}, {1, 1, 1, 1, 1, 1, 1, 16380}, 3, 3, 3}},
    {"J, 256 x 64 on m, swizzled", {2, {{16, 16, 7}, {16, 1, 7}}, 3, {{4, 4096, 7}, {4, 1024, 7}, {4, 256, 7}}, {}, {1, 1, 1, 1, 1, 1, 1, 16384}, 3, 3, 3}},
    {"K, refused 7 among copies", {2, {{16, 1, 5}, {16, 1, 6}}, 4, {{4, 16, 5}, {2, 64, 5}, {4, 16, 6}, {2, 64, 6}}, {}, {1, 1, 1, 1, 1, 127, 128, 1}, 0, 0, 3}},
    {"H, 65 in 73, swizzled", {1, {{65, 1, 7}}, 0, {}, {}, {1, 1, 1, 1, 1, 1, 1, 73}, 3, 3, 3}},
    {"N, A with its rows backwards", {2, {{128, -1, 5}, {128, 1, 6}}, 0, {}, {0, 0, 0, 0, 0, 127}, {1, 1, 1, 1, 1, 128, 128, 1}, 0, 0, 3}},
    {"O, 1,024 x 16 down m, swizzled", {2, {{32, -32, 7}, {32, -1, 7}}, 2, {{4, -4096, 7}, {4, -1024, 7}}, {0, 0, 0, 0, 0, 0, 0, 16383}, {1, 1, 1, 1, 1, 1, 1, 16384}, 3, 3, 3}},
    {"P, 65,536 on TLane, TCol", {2, {{256, 1, 5}, {256, 1, 6}}, 0, {}, {}, {1, 1, 1, 1, 1, 256, 256, 1}, 0, 0, 3}},
    {"Q, 1,024 x 64 in 65,536, one backwards", {3, {{4, -16384, 7}, {16, 16, 7}, {16, 1, 7}}, 3, {{4, 4096, 7}, {4, 1024, 7}, {4, 256, 7}}, {0, 0, 0, 0, 0, 0, 0, 49152}, {1, 1, 1, 1, 1, 1, 1, 65536}, 3, 3, 3}},
    {"R, marked, 4,096 of 16,384 lead", {3, {{64, 1, 5}, {4, 0, 6}, {64, 1, 6}}, 1, {{2, 64, 6}}, {}, {1, 1, 1, 1, 1, 64, 128, 1}, 0, 0, 3, 2}},
    {"S, the last iter marked, swizzled", {3, {{64, 64, 7}, {64, 1, 7}, {4, 0, 7}}, 0, {}, {}, {1, 1, 1, 1, 1, 1, 1, 4096}, 3, 3, 3, 4}},
    {"T, A with a last extent of 1", {3, {{128, 1, 5}, {128, 1, 6}, {1, 1, 7}}, 0, {}, {}, {1, 1, 1, 1, 1, 128, 128, 1}, 0, 0, 3}},
    {"M, eight iters, the last of 1, swizzled", {8, {{4, 4096, 7}, {4, 1024, 7}, {4, 256, 7}, {4, 64, 7}, {4, 16, 7}, {4, 4, 7}, {4, 1, 7}, {1, 1, 7}}, 0, {}, {}, {1, 1, 1, 1, 1, 1, 1, 16384}, 3, 3, 3}},
    {"U, refused 7 below zero", {2, {{128, -1, 5}, {128, 1, 6}}, 0, {}, {0, 0, 0, 0, 0, 126}, {1, 1, 1, 1, 1, 128, 128, 1}, 0, 0, 3}},
    {"V, 1 x 64 copies", {1, {{1, 0, 7}}, 4, {{4, 16, 7}, {2, 8, 7}, {4, 2, 7}, {2, 1, 7}}, {}, {1, 1, 1, 1, 1, 1, 1, 64}, 0, 0, 3}},
    {"W, one element", {1, {{1, 0, 7}}, 0, {}, {}, {1, 1, 1, 1, 1, 1, 1, 1}, 0, 0, 3}},
    {"Y, refused 7 at element 0", {1, {{16, 1, 7}}, 0, {}, {0, 0, 0, 0, 0, 0, 0, 16}, {1, 1, 1, 1, 1, 1, 1, 16}, 0, 0, 3}},
    {"Z, idle at (8, 48)", {2, {{16, 1, 5}, {16, 1, 6}}, 4, {{4, 16, 5}, {2, 48, 5}, {4, 16, 6}, {2, 64, 6}}, {}, {1, 1, 1, 1, 1, 128, 128, 1}, 0, 0, 3}},
    {"L, 8,192 x 2 copies", {2, {{64, 1, 5}, {128, 1, 6}}, 1, {{2, 64, 5}}, {}, {1, 1, 1, 1, 1, 128, 128, 1}, 0, 0, 3}},
    {"L8, 16,384 x 64, refused 8 at 256", {2, {{64, 0, 7}, {256, 1, 7}}, 3, {{4, 4096, 7}, {4, 1024, 7}, {4, 256, 7}}, {}, {1, 1, 1, 1, 1, 1, 1, 16384}, 0, 0, 3}},
};
enum { CARDS = sizeof cards / sizeof *cards };

static void print_card(const struct card *card) {
    printf("card");
    for (u64 i = 0; i < NUMBERS; i++) printf(" %ld", ((const i64 *)card)[i]);
    printf("\n");
}

// A card whose iters mostly lie beside each other, in a space that mostly just holds them: most cards are approved, and the others
// fail by little. One in a hundred has up to 65,536 elements. Now and then one number is anything. Returns the elements and the
// cells as they were before that.
struct sizes { u64 elements, cells; };
static struct sizes random_card(struct card *card) {
    u64 cells, elements, copies;
    do {
        int few = below(2), large = !below(100);
        *card = (struct card){.shards = 1 + below(large ? 4 : 8), .replicas = below(5), .s = 3};
        if (below(2)) { card->m = below(4); card->b = below(4); card->s = card->b + below(3); }
        i64 low[8] = {}, high[8] = {}, packed[8] = {1, 1, 1, 1, 1, 1, 1, 1};
        elements = copies = cells = 1;
        for (u64 k = 0; k < card->shards + card->replicas; k++) {
            int replica = k >= card->shards;
            struct iter *iter = replica ? card->replica + (k - card->shards) : card->shard + (card->shards - 1 - k);
            u64 *all = replica ? &copies : &elements, most = replica ? large ? 2 : 64 : large ? MOST : 2048;
            u64 extent = !below(6) ? 1 : 1 + below(replica ? 4 : large ? 300 : 6);
            if (*all * extent > most) extent = 1;
            u64 axis = few ? (below(3) ? 7 : 5) : below(8);
            i64 stride = below(8) ? packed[axis] : (i64)below(9);
            if (!replica && !below(8)) { stride = 0; card->marks |= 1ul << (iter - card->shard); }
            if (stride) packed[axis] *= extent;
            if (!below(3)) stride = -stride;
            *(stride < 0 ? low + axis : high + axis) += (i64)(extent - 1) * stride;
            *all *= extent;
            *iter = (struct iter){extent, stride, axis};
        }
        for (int a = 0; a < 8; a++) {
            i64 offset = (below(6) ? 0 : below(4)) - low[a] - (below(40) ? 0 : 1 + below(2));
            i64 length = high[a] + offset + 1 - !below(40) + (below(9) ? 0 : below(3));
            if (length < 1) length = 1;
            if (a == 7 && card->b && below(3)) length = ((length >> (card->m + card->b)) + 1) << (card->m + card->b);
            card->offset[a] = offset;
            card->length[a] = length;
            if (cells <= MOST) cells *= length;
        }
    } while (cells > MOST);
    if (!below(12)) {
        static const i64 edges[] = {0, 1, 5, 8, 9, 64, 65, 65535, 65536, 65537, -65536, -65537};
        i64 *const small[] = {(i64 *)&card->shards, (i64 *)&card->replicas, (i64 *)&card->m, (i64 *)&card->b, (i64 *)&card->s};
        i64 *number = below(3) ? (i64 *)card + below(NUMBERS) : small[below(5)];
        *number = below(3) ? edges[below(sizeof edges / sizeof *edges)] : (i64)any();
    }
    return (struct sizes){elements, cells};
}

// What the random cards had.
static u64 marked, backward, swizzled, with_ones, large;
static void note_card(const struct card *card, u64 cells) {
    int mark = 0, back = 0, one = 0;
    for (u64 k = 0; k < card->shards && k < 8; k++) { mark |= card->marks >> k & 1; back |= card->shard[k].stride < 0; one |= card->shard[k].extent == 1; }
    for (u64 k = 0; k < card->replicas && k < 4; k++) { back |= card->replica[k].stride < 0; one |= card->replica[k].extent == 1; }
    marked += mark, backward += back, swizzled += card->b != 0, with_ones += one, large += cells > 16384;
}
static void print_noted(void) {
    printf("of them %lu with marks, %lu with strides that run backwards, %lu swizzled, %lu with an extent of 1, %lu of more than 16384 cells\n", marked, backward, swizzled, with_ones, large);
}
