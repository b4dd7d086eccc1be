// A signal's handler throws, through the signal's frame, out of the instruction that was interrupted. Built by
// -fnon-call-exceptions. The program's argument is the address that is read.
#include <csignal>
#include <cstdio>
#include <cstdlib>

#define APART [[gnu::noinline]]

struct Fault {
    unsigned long at;
};

struct Held {
    int number;
    APART ~Held() { std::printf("let go %d\n", number); }
};

void handle(int, siginfo_t *info, void *) {
    Held held{1};
    throw Fault{reinterpret_cast<unsigned long>(info->si_addr)};
}

APART int load(const int *place) {
    Held held{2};
    return *place;
}

APART int sum(const int *place) {
    Held held{3};
    return load(place) + 1;
}

int main(int, char **arguments) {
    struct sigaction action = {};
    action.sa_sigaction = handle;
    action.sa_flags = SA_SIGINFO | SA_NODEFER;
    sigaction(SIGSEGV, &action, nullptr);
    try {
        std::printf("%d\n", sum(reinterpret_cast<const int *>(std::strtoul(arguments[1], nullptr, 0))));
    } catch (int) {
        return 1;
    } catch (const Fault &fault) {
        std::printf("at %#lx\n", fault.at);
    }
}
