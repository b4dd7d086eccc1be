// An exception that passes two frames with destructors and is caught in a third.
#include "stopped.h"

struct Noted {
    int number;
    KEPT explicit Noted(int n) : number(n) {}
    KEPT ~Noted();
};

int notes = 0;

Noted::~Noted() { notes = 10 * notes + number; }

KEPT int thrower(int n) {
    wait_here();
    if (n > 0) {
        throw n;
    }
    return n;
}

KEPT int inner(int n) {
    Noted first(1);
    Noted second(2);
    return thrower(n) + first.number;
}

KEPT int outer(int n) {
    Noted third(3);
    return inner(n) + third.number;
}

KEPT int catcher(int n) {
    try {
        return outer(n);
    } catch (int caught) {
        return caught + notes;
    }
}

int main(int count, char **) {
    return catcher(count);
}
