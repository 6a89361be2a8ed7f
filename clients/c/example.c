/* Reads texts of the layout notation, judges them and looks at the table: what to copy from. example.out has the lines that it prints. */
#include <stdio.h>

#include "urszovely.h"

static uint32_t table[URSZOVELY_MOST_CELLS];

/* the space of all the texts: warpid 11, laneid 32, m 2; an axis that is not used has length 1 */
static const uint64_t lengths[URSZOVELY_AXES] = { 1, 11, 32, 1, 1, 1, 1, 2 };

static unsigned long long number(uint64_t n) { return n; }

static void say(const uint64_t *answer)
{
    const char *text = urszovely_refusal_text(answer[0]);
    printf("answer %llu, %s: %llu %llu %llu\n", number(answer[0]), text, number(answer[1]), number(answer[2]), number(answer[3]));
}

/* the entry of a cell, by its coordinates on the axes that are used */
static void look(uint64_t warpid, uint64_t laneid, uint64_t m)
{
    uint32_t entry = table[(warpid * lengths[URSZOVELY_AXIS_LANEID] + laneid) * lengths[URSZOVELY_AXIS_M] + m];
    if (entry) printf("warpid %llu, laneid %llu, m %llu holds element %lu\n", number(warpid), number(laneid), number(m), (unsigned long)entry - 1);
    else printf("warpid %llu, laneid %llu, m %llu holds nothing\n", number(warpid), number(laneid), number(m));
}

static void judge(const char *text)
{
    union urszovely_memory tile = { { 0 } };
    uint64_t marks[1], answer[4];
    size_t length = 0;
    int axis;
    while (text[length]) length++;
    printf("\n%s\n", text);
    urszovely_read((const uint8_t *)text, length, tile.numbers, marks, answer);
    if (answer[0]) {
        printf("%*s^ no correct text goes on like this\n", (int)answer[1], "");
        say(answer);
        return;
    }
    for (axis = 0; axis < URSZOVELY_AXES; axis++) tile.card.lengths[axis] = lengths[axis];
    urszovely_verdict(tile.numbers, marks[0], NULL, 0, answer);
    say(answer);
    urszovely_verdict(tile.numbers, marks[0], table, URSZOVELY_MOST_CELLS, answer);
    say(answer);
    if (answer[0]) return;
    look(6, 31, 1);
    look(0, 0, 0);
}

/* a card by name, written as a text */
static void spell(void)
{
    union urszovely_memory row = { { 0 } };
    uint8_t text[URSZOVELY_TEXT];
    uint64_t answer[4];
    row.card.shard_count = 2;
    row.card.shard[0].extent = 8;
    row.card.shard[0].stride = -4;
    row.card.shard[0].axis = URSZOVELY_AXIS_LANEID;
    row.card.shard[1].extent = 2;
    row.card.shard[1].stride = 1;
    row.card.shard[1].axis = URSZOVELY_AXIS_M;
    row.card.offsets[URSZOVELY_AXIS_LANEID] = 28;
    urszovely_write(row.numbers, 0, text, sizeof text, answer);
    printf("\n%.*s\n", (int)answer[1], (const char *)text);
}

int main(void)
{
    judge("S[(8,2,4,2):(4@laneid,1@warpid,1@laneid,1)]+R[2:4@warpid]+5@warpid");
    judge("S[(8,2,4,2):(4@laneid,1@warpid,1@laneid,1)]+R[2:1@warpid]+5@warpid");
    judge("S[(8,2):(4@lanes,1)]");
    spell();
    printf("\n%s\n", urszovely_refusal_text(1000));
    return 0;
}
