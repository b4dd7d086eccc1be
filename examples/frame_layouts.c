/* Frames that aren't a whole prologue's; crt1.o's _start calls what stands here in the C library's place. */
#define APART __attribute__((noipa))
extern long sink;
long sink;
APART void work(void) {}

/* it overwrites a register between its pushes, and pops them at its end */
APART long sums(long a, long b) {
    long c = a * 3;
    work();
    work();
    return c + b;
}
APART __attribute__((cold)) void seldom(void) {}

/* the compiler puts its unlikely part apart from it */
APART long checked(long a, long b) {
    long r = b + 1;
    work();
    if (a > 100) { seldom(); r += sums(a, r); }
    return r;
}
APART long many(long a, long b, long c, long d, long e, long f, long g, long h) { return checked(g, h) + a; }
/* it pushes arguments in its body */
APART long pushes(long a, long b) { long r = many(a, b, 3, 4, 5, 6, a + 100, b); return r + b; }
/* its frame is aligned, so that RBP finds it */
APART long aligned(long n) {
    __attribute__((aligned(64))) volatile long x[8];
    x[0] = n;
    long r = pushes(x[0], n);
    return r + x[n & 7];
}
int main(void) { return 0; }
void __libc_start_main(int (*f)(void), int argc) { sink = aligned(argc + 6); for (;;) work(); }
