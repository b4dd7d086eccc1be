// Landing pads that are entered past pushed arguments, and a cleanup that goes on in a part of its function which the compiler puts
// apart from it. What stands here takes the place of the C++ library, and nothing is thrown when it runs.
#define APART __attribute__((noipa))

extern "C" {
APART void work() {}
APART void throw_here(long) { work(); }
// the compiler knows nothing of it, so that it may throw
void raise(long) __asm__("throw_here");
APART long release(long n) noexcept { return n; }
void _Unwind_Resume(void *) { for (;;) work(); }
APART void *__cxa_begin_catch(void *exception) noexcept { return exception; }
APART void __cxa_end_catch() {}
APART int __gxx_personality_v0(...) noexcept { return 0; }
}

struct Held {
    long value;
    ~Held() { release(value); }
};

APART long raises(long a, long b, long c, long d, long e, long f, long g, long h) {
    raise(g);
    return a + h;
}
// its cleanup is entered past two arguments
APART long cleans(long a, long b, long c, long d, long e, long f, long g, long h) {
    Held held{a};
    long r = raises(1, 2, 3, 4, 5, 6, g, h);
    return r + held.value;
}
// and so is its handler
APART long catches(long n) {
    try {
        return cleans(n, 2, 3, 4, 5, 6, n + 7, n);
    } catch (...) {
        return n;
    }
}
extern "C" long sink;
long sink;
extern "C" void _start() { sink = catches(9); for (;;) work(); }
