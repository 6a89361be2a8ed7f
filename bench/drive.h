// What the drivers share. A driver is a program with the archive's function, the straightforward Rust one and, for some cases, a floor:
//   drive compare COUNT   asks both the same, on every case and COUNT random questions; fails where answers or lent memory differ
//   drive count           asks each once about each case, between two getppid() calls, and prints who was asked what
//   drive time            prints the same lines with the median nanoseconds of processor time of a call
// What it needs of the C library is declared here, since the kit has no headers for x86-64.
#include "urszovely.h"
typedef unsigned long u64;
typedef long i64;
typedef unsigned u32;
typedef unsigned char u8;
struct timespec { i64 seconds, nanoseconds; };
int printf(const char *, ...);
int atoi(const char *);
int strcmp(const char *, const char *);
int memcmp(const void *, const void *, u64);
int getppid(void);
int clock_gettime(int, struct timespec *);
void rust_eh_personality(void) {} // Rust's core library, made for unwinding too, asks for it

// Of each driver: how many cases it has, what case i is called, case i asked of each, whether it has a floor, and the comparison.
static int number_of_cases(void);
static const char *name(int i);
static void ask_rust(int i);
static void ask_archive(int i);
static void ask_floor(int i);
static int has_floor(int i);
static int compare(int count);
#ifdef WITHOUT_FLOOR
static void ask_floor(int i) {}
static int has_floor(int i) { return 0; }
#endif

static u64 state = 88172645463325252;
static u64 any(void) {
    state ^= state << 13;
    state ^= state >> 7;
    state ^= state << 17;
    return state;
}
static u64 below(u64 n) { return (any() >> 11) % n; }

// How often each number was answered.
static u64 answered[32];
static void print_answered(void) {
    printf("answers to the random ones, number and times:");
    for (int i = 0; i < 32; i++) if (answered[i]) printf(" %d %lu,", i, answered[i]);
    printf("\n");
}

static void count(void) {
    ask_rust(0); // once before the first, so that what is bound late is bound
    ask_archive(0);
    for (int i = 0; i < number_of_cases(); i++) {
        getppid(); ask_rust(i); getppid();
        printf("Rust\t%s\n", name(i));
        getppid(); ask_archive(i); getppid();
        printf("archive\t%s\n", name(i));
        if (!has_floor(i)) continue;
        getppid(); ask_floor(i); getppid();
        printf("floor\t%s\n", name(i));
    }
}

enum { ROUNDS = 51 };
static double now(void) {
    struct timespec time;
    clock_gettime(2, &time); // CLOCK_PROCESS_CPUTIME_ID: other programs' turns do not count
    return time.seconds * 1e9 + time.nanoseconds;
}

// The time of one call, over so many.
static double one_round(void (*ask)(int), int i, int calls) {
    double start = now();
    for (int k = 0; k < calls; k++) ask(i);
    return (now() - start) / calls;
}

// So many calls that a round takes about a millisecond.
static int calls_for(void (*ask)(int), int i) {
    int calls = 1;
    while (one_round(ask, i, calls) * calls < 5e5) calls *= 2;
    return calls;
}

static double median(double *numbers) {
    for (int i = 1; i < ROUNDS; i++)
        for (int j = i; j > 0 && numbers[j] < numbers[j - 1]; j--) { double n = numbers[j]; numbers[j] = numbers[j - 1]; numbers[j - 1] = n; }
    return numbers[ROUNDS / 2];
}

static void times(void) {
    static void (*const ask[])(int) = {ask_rust, ask_archive, ask_floor};
    static const char *const who[] = {"Rust", "archive", "floor"};
    for (int i = 0; i < number_of_cases(); i++) {
        double taken[3][ROUNDS];
        int calls[3], sides = has_floor(i) ? 3 : 2;
        for (int side = 0; side < sides; side++) calls[side] = calls_for(ask[side], i);
        for (int round = 0; round < ROUNDS; round++) // by turns, so that other work on the machine meets all
            for (int side = 0; side < sides; side++) taken[side][round] = one_round(ask[side], i, calls[side]);
        for (int side = 0; side < sides; side++) printf("%s\t%s\t%.1f\n", who[side], name(i), median(taken[side]));
    }
}

int main(int argc, char **argv) {
    if (argc == 3 && !strcmp(argv[1], "compare")) return compare(atoi(argv[2]));
    if (argc != 2) return 2;
    if (!strcmp(argv[1], "count")) count();
    else if (!strcmp(argv[1], "time")) times();
    else return 2;
    return 0;
}
