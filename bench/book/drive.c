// A book on standard input, part by part, to the check sums in Rust; prints how many blocks hold their check.
typedef unsigned long u64;
typedef unsigned char u8;
long read(int, void *, u64);
int printf(const char *, ...);
u64 rust_checks(const u8 *, u64);
void rust_eh_personality(void) {} // Rust's core library, made for unwinding too, asks for it

static u8 part[65536];

int main(void) {
    u64 right = 0;
    for (long got; (got = read(0, part, sizeof part)) > 0;) right += rust_checks(part, got);
    printf("%lu\n", right);
    return 0;
}
