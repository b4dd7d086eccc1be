// A handler behind a cleanup: the call in `catches` leads to one chain of action records, of which the first is the cleanup of what
// is held inside the try block, the next is a handler whose type isn't the exception's, and the last is the one that takes it. On the
// way to it lies a frame with a cleanup alone. What stands here takes the place of the C++ library, and nothing is thrown when it runs.
#define APART __attribute__((noipa))

extern "C" {
APART void work() noexcept {}
APART void throw_here(long) noexcept { work(); }
// the compiler knows nothing of it, so that it may throw
void raise(long) __asm__("throw_here");
APART long release(long n) noexcept { return n; }
APART void _Unwind_Resume(void *) noexcept { for (;;) work(); }
APART void *__cxa_begin_catch(void *exception) noexcept { return exception; }
APART void __cxa_end_catch() {}
APART int __gxx_personality_v0(...) noexcept { return 0; }
// what the descriptions of types begin with
long class_type[3] __asm__("_ZTVN10__cxxabiv117__class_type_infoE");
}

struct Held {
    long value;
    ~Held() { release(value); }
};
struct Other {};
struct Thrown {};

APART long raises(long n) {
    raise(n);
    return n + 1;
}
APART long cleans(long n) {
    Held held{n};
    return raises(n) + 1;
}
APART long catches(long n) {
    try {
        Held held{n};
        return cleans(n) + 1;
    } catch (Other &) {
        return 1;
    } catch (Thrown &) {
        return 2;
    }
}
extern "C" long sink;
long sink;
extern "C" void _start() { sink = catches(9); for (;;) work(); }
