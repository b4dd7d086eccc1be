// A plugin throws a class whose type description it has for itself, and so has the program: libstdc++ compares the names, libc++
// where they stand. With -DPLUGIN it is the plugin, beside the program by the name PROGRAM.plugin.
#include <cstdio>
#include <string>

struct Shared {
    int number = 3;
    virtual ~Shared() {}
};

#ifdef PLUGIN
struct Own : Shared {};

struct Held {
    [[gnu::noinline]] ~Held() { asm volatile("" ::: "memory"); }
};

extern "C" __attribute__((visibility("default"))) void plug(int number) {
    Held held;
    if (number > 0) {
        throw Own();
    }
}
#else
#include <dlfcn.h>

struct Other {
    int number;
};

[[gnu::noinline]] int use(void (*plug)(int)) {
    try {
        plug(1);
    } catch (const Other &other) {
        return other.number;
    } catch (const Shared &shared) {
        return shared.number;
    }
    return 0;
}

int main(int, char **arguments) {
    std::string name = std::string(arguments[0]) + ".plugin";
    void *library = dlopen(name.c_str(), RTLD_NOW | RTLD_LOCAL);
    if (library == nullptr) {
        return 1;
    }
    try {
        std::printf("%d\n", use(reinterpret_cast<void (*)(int)>(dlsym(library, "plug"))));
    } catch (...) {
        std::printf("another class\n");
    }
}
#endif
