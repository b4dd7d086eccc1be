// Moves amounts between accounts, and undoes what fails. Functions have exception specifications; an error of another language
// passes. Built by -std=c++14. The program's argument says what goes wrong.
#include <cstdio>
#include <cstdlib>
#include <cstring>
#include <exception>
#include <map>
#include <stdexcept>
#include <string>
#include <unwind.h>

#define APART [[gnu::noinline]]

struct Refused {
    int amount;
};
struct Overdrawn : Refused {
    explicit Overdrawn(int a) : Refused{a} {}
};
struct Closed {
    std::string account;
};

int undone = 0;

struct Undo {
    int amount;
    APART ~Undo() { undone += amount; }
};

// An exception of another language: only its class and its own memory belong to it.
APART void fail_elsewhere() {
    auto *thrown = static_cast<_Unwind_Exception *>(std::calloc(1, sizeof(_Unwind_Exception)));
    std::memcpy(&thrown->exception_class, "EGNALREH", 8);
    std::printf("raise: %d\n", static_cast<int>(_Unwind_RaiseException(thrown)));
    std::exit(3);
}

APART void check(const std::string &why) {
    std::string copy = why;
    if (why.find("overdrawn") != std::string::npos) throw Overdrawn(7);
    if (why.find("closed") != std::string::npos) throw Closed{copy};
    if (why.find("number") != std::string::npos) throw 7;
    if (why.find("foreign") != std::string::npos) fail_elsewhere();
}

APART void withdraw(const std::string &why) {
    Undo undo{1};
    check(why);
}

// Lets two classes pass, one of them as a base of what is thrown.
APART void listed(const std::string &why) throw(Refused, std::bad_exception) {
    Undo undo{10};
    withdraw(why);
}

APART void nothing(const std::string &why) throw() {
    Undo undo{100};
    withdraw(why);
}

APART void quiet(const std::string &why) noexcept {
    Undo undo{1000};
    std::string inside = why + "!";
    withdraw(inside);
}

APART int move(const std::string &why) {
    try {
        std::string copy = why;
        if (why[0] == 'l') listed(copy);
        if (why[0] == 'n') nothing(copy);
        if (why[0] == 'q') quiet(copy);
        withdraw(copy);
    } catch (const Closed &closed) {
        std::printf("closed: %s\n", closed.account.c_str());
        return 1;
    } catch (const Overdrawn &overdrawn) {
        std::printf("overdrawn by %d\n", overdrawn.amount);
        return 2;
    }
    return 0;
}

void unexpected_error() { throw Refused{1}; }

// By a second argument specifications turn what they don't list into an error that they do.
int main(int count, char **arguments) {
    if (count > 2) {
        std::set_unexpected(unexpected_error);
    }
    Undo outside{10000};
    try {
        std::printf("%d\n", move(arguments[1]));
    } catch (const Refused &refused) {
        std::printf("refused: %d\n", refused.amount);
    } catch (...) {
        std::printf("something: %d\n", undone);
    }
}
