// The frames of one format that an exception passes: a function that destroys an object, and one that handles the
// exception. Whoever includes this says the calling convention, the format, and which one is called next.
#include "stopped.h"
#include "thrown_formats.h"

struct Noted {
    Chain *chain;
    Word format;
    KEPT Noted(Chain *chain, Word format) noexcept;
    KEPT ~Noted();
};

Noted::Noted(Chain *given, Word here) noexcept : chain(given), format(here) {}

Noted::~Noted() {
    chain->notes = 10 * chain->notes + format;
}

KEPT Word mixed(Word a, Word b) noexcept {
    return a * 3 + (b ^ 5);
}

// Keeps values in registers across the call, which has a cleanup alone.
KEPT Word CONVENTION destroying(Word turns, Chain *chain) {
    Word a = mixed(turns, HERE), b = mixed(a, turns), c = mixed(b, a), d = mixed(c, b);
    Noted noted(chain, HERE);
    Word deeper = chain->NEXT(turns - (HERE == MACHO_FORMAT), chain);
    return deeper + mixed(a, b) + mixed(c, d);
}

// The same with a handler. It has no object, so that the first action of the call is the handler's.
KEPT Word CONVENTION handling(Word turns, Chain *chain) {
    Word a = mixed(turns, HERE), b = mixed(a, turns), c = mixed(b, a), d = mixed(c, b), deeper;
    try {
        deeper = chain->NEXT(turns - (HERE == MACHO_FORMAT), chain);
    } catch (int thrown) {
        deeper = thrown;
    }
    return deeper + mixed(a, b) + mixed(c, d);
}

static Word onwards(Word turns, Chain *chain) {
    return turns == OUTER && chain->handler == HERE ? handling(turns, chain) : destroying(turns, chain);
}
