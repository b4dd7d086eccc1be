// Goes over readings by a function of a library in C, which calls back. The library's header says of that function that it
// throws nothing, so its caller's table has no call site there; what is called back throws all the same. Built in two parts,
// the library with VISITS. The program's argument says what is thrown.
#include <cstdio>
#include <cstdlib>
#include <cstring>
#include <unwind.h>

#ifdef VISITS

extern "C" void visit(const int *first, const int *end, void (*each)(int, void *), void *given) {
    for (const int *reading = first; reading != end; reading++) {
        each(*reading, given);
    }
}

#else

#define APART [[gnu::noinline]]

extern "C" __attribute__((nothrow)) void visit(const int *first, const int *end, void (*each)(int, void *), void *given);

struct TooLarge {
    int reading;
};

int left = 0;

struct Leaves {
    int size;
    APART ~Leaves() { left += size; }
};

// An exception of another language: only its class and its own memory belong to it.
APART void fail_elsewhere() {
    auto *thrown = static_cast<_Unwind_Exception *>(std::calloc(1, sizeof(_Unwind_Exception)));
    std::memcpy(&thrown->exception_class, "EGNALREH", 8);
    std::printf("raise: %d\n", static_cast<int>(_Unwind_RaiseException(thrown)));
    std::exit(3);
}

APART void check(int reading, const char *why) {
    Leaves leaves{1};
    if (reading < 3) return;
    if (std::strcmp(why, "foreign") == 0) fail_elsewhere();
    throw TooLarge{reading};
}

void add(int reading, void *given) {
    Leaves leaves{10};
    check(reading, static_cast<const char *>(given));
    left += reading;
}

// What may throw here is the line that is printed, and not the visit.
APART int sum(char *why) {
    const int readings[] = {1, 2, 3};
    Leaves leaves{100};
    visit(readings, readings + 3, add, why);
    std::printf("%d\n", left);
    check(left, "sum");
    return left;
}

int main(int, char **arguments) {
    try {
        return sum(arguments[1]);
    } catch (const TooLarge &large) {
        std::printf("too large: %d\n", large.reading);
    } catch (...) {
        std::printf("something: %d\n", left);
    }
}

#endif
