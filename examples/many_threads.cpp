/* As many threads as its word asks, each in virtual calls, lambdas and a std::function of another depth, and then a signal
   within std::sort that ends all of them. With the second word `overflow` a recursion without an end does that. */
#include <pthread.h>
#include <unistd.h>

#include <algorithm>
#include <cstdlib>
#include <cstring>
#include <functional>
#include <memory>
#include <vector>

extern "C" {
#include "stopped.h"
}

static pthread_barrier_t all_there;

struct Shape {
    virtual ~Shape() = default;
    virtual long area(long depth) const = 0;
};

template <typename T> struct Kept : Shape {
    T side;
    explicit Kept(T value) : side(value) {}
    KEPT long area(long depth) const override {
        std::function<long(long)> below = [this](long left) { return left == 0 ? stop() : area(left - 1) + 1; };
        return below(depth) * static_cast<long>(side);
    }
    KEPT static long stop() {
        pthread_barrier_wait(&all_there);
        wait_here();
        return 1;
    }
};

static void *run(void *depth) {
    std::unique_ptr<Shape> shape = std::make_unique<Kept<double>>(2.0);
    return reinterpret_cast<void *>(shape->area(reinterpret_cast<long>(depth)));
}

namespace ends {

KEPT long descend(long n) {
    volatile char room[512];
    room[n % 512] = static_cast<char>(n);
    return descend(n + 1) + room[(n + 1) % 512];
}

KEPT void sorted() {
    std::vector<int> numbers{5, 3, 8, 1};
    std::sort(numbers.begin(), numbers.end(), [](int one, int other) {
        if (one == 1 || other == 1) {
            std::abort();
        }
        return one < other;
    });
}

}  // namespace ends

int main(int count, char **words) {
    long number = count > 1 ? std::atol(words[1]) : 10;
    bool overflows = count > 2 && std::strcmp(words[2], "overflow") == 0;
    pthread_attr_t attributes;
    pthread_t thread;
    pthread_attr_init(&attributes);
    pthread_attr_setstacksize(&attributes, 65536);
    pthread_barrier_init(&all_there, nullptr, static_cast<unsigned>(number));
    for (long i = 1; i < number; i++) {
        if (pthread_create(&thread, &attributes, run, reinterpret_cast<void *>(i % 10)) != 0) {
            return 1;
        }
    }
    pthread_barrier_wait(&all_there);
    usleep(200000);
    if (overflows) {
        return static_cast<int>(ends::descend(0));
    }
    ends::sorted();
    return 0;
}
