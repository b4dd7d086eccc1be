// The functions of mixed.rs that are C++'s.
#include <stdexcept>
#include <string>

struct Held {
    int number;
    [[gnu::noinline]] ~Held() { asm volatile("" ::"r"(number) : "memory"); }
};

using Call = void (*)(int);

extern "C" int cxx_passes(Call call, int number) {
    Held held{1};
    try {
        std::string inside(20, 'x');
        call(number);
    } catch (const std::logic_error &) {
        return 1;
    } catch (int) {
        return 2;
    }
    return 0;
}

extern "C" int cxx_catches(Call call, int number) {
    try {
        Held held{2};
        call(number);
    } catch (const std::exception &) {
        return 1;
    } catch (...) {
        return 3;
    }
    return 0;
}

extern "C" void cxx_throws(int number) {
    Held held{3};
    if (number > 0) {
        throw std::runtime_error("thrown");
    }
}
