// Exceptions that end in four ways, by the number of words after the program's name: caught after a rethrow (none), at a
// function that is noexcept (one), nowhere (two), and caught after a destructor that throws and catches itself (three).
#include "stopped.h"

int notes = 0;

struct Noted {
    int number;
    KEPT explicit Noted(int n) : number(n) {}
    KEPT ~Noted() { notes = 10 * notes + number; }
};

struct Throwing {
    int number;
    KEPT explicit Throwing(int n) : number(n) {}
    KEPT ~Throwing();
};

KEPT void thrown(int n) {
    if (n > 0) {
        throw n;
    }
}

KEPT void thrower(int n) {
    Noted local(1);
    wait_here();
    thrown(n);
}

Throwing::~Throwing() {
    try {
        thrown(number);
    } catch (int caught) {
        notes += caught;
    }
}

KEPT void rethrower(int n) {
    Noted outside(2);
    try {
        thrower(n);
    } catch (int) {
        Noted inside(3);
        throw;
    }
}

KEPT void quiet(int n) noexcept { thrower(n); }

KEPT void cleaner(int n) {
    Throwing local(7);
    thrower(n);
}

KEPT int catcher(int way, int n) {
    Noted outside(4);
    try {
        if (way == 0) rethrower(n);
        if (way == 1) quiet(n);
        if (way == 3) cleaner(n);
    } catch (int caught) {
        return caught + notes;
    }
    return notes;
}

int main(int count, char **) {
    if (count == 3) {
        rethrower(count);
    }
    return catcher(count - 1, count);
}
