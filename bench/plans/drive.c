// Two verdicts, a plan written and the same plan checked, each between two getppid() calls; prints case, question, cells and copies of each.
#include <stdint.h>
#include <stddef.h>
#include "urszovely.h"

int getppid(void);
int printf(const char *form, ...);

enum { CELLS = 65536, EXTENT = 1, STRIDE = 2, AXIS = 3, REPLICA = 25, OFFSET_M = 38 + 7, LENGTHS = 46, M = 7 };

static uint32_t first[CELLS], second[CELLS];
static uint64_t plan[2 * CELLS];

// so many elements in a row on m, with so many copies after each other, from an offset on
static void card(uint64_t *numbers, uint64_t cells, uint64_t elements, uint64_t copies, uint64_t offset) {
    for (int i = 0; i < 57; i++) numbers[i] = 0;
    numbers[0] = 1, numbers[EXTENT] = elements, numbers[STRIDE] = 1, numbers[AXIS] = M;
    if (copies > 1) numbers[REPLICA] = 1, numbers[REPLICA + EXTENT] = copies, numbers[REPLICA + STRIDE] = elements, numbers[REPLICA + AXIS] = M;
    numbers[OFFSET_M] = offset;
    for (int axis = 0; axis < 8; axis++) numbers[LENGTHS + axis] = 1;
    numbers[LENGTHS + M] = cells;
    numbers[56] = 3;
}

static void told(const char *name, const char *question, uint64_t cells, uint64_t copies) { printf("%s\t%s\t%d\t%d\n", name, question, (int)cells, (int)copies); }

// from the first half of so many cells to the second
static int halves(const char *name, uint64_t cells, uint64_t copies) {
    uint64_t one[57], two[57], answer[4], written;
    card(one, cells, cells / 2 / copies, copies, 0);
    card(two, cells, cells / 2 / copies, copies, cells / 2);
    getppid();
    urszovely_verdict(one, 0, first, cells, answer);
    getppid();
    if (answer[0] != 0) return 1;
    told(name, "first", cells, cells / 2);
    getppid();
    urszovely_verdict(two, 0, second, cells, answer);
    getppid();
    if (answer[0] != 0) return 1;
    told(name, "second", cells, cells / 2);
    getppid();
    urszovely_plan(one, 0, two, 0, plan, cells, first, cells, second, cells, answer);
    getppid();
    if (answer[0] != 0 || answer[1] != cells) return 1;
    written = answer[1];
    told(name, "write", cells, written / 2);
    getppid();
    urszovely_carry(one, 0, two, 0, plan, written, first, cells, second, cells, answer);
    getppid();
    if (answer[0] != 0) return 1;
    told(name, "check", cells, written / 2);
    return 0;
}

int main(void) { return halves("one copy of each element", CELLS, 1) | halves("64 copies of each of 512", CELLS, 64) | halves("one copy of each element", 16384, 1) | halves("one copy of each element", 64, 1); }
