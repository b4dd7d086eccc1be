// Calls through operators, conversions, a lambda, templates and a thunk, whose names have brackets and spaces.
#include "stopped.h"

namespace {
struct Depth {
    long value;
    KEPT explicit operator bool() const;
    KEPT operator long *() const;
    KEPT Depth operator<<(int count) const;
    KEPT bool operator<(const Depth &other) const;
    KEPT Depth operator->*(int count) const;
    KEPT Depth operator()(int count) const;
    KEPT long operator[](int index) const;
    KEPT Depth operator,(int count) const;
};
}  // namespace

struct Named {
    virtual ~Named() {}
    virtual long named(long count) = 0;
};

struct Counted {
    long count = 1;
    virtual ~Counted() {}
    virtual long counted(long by) = 0;
};

struct Both : Named, Counted {
    KEPT long named(long by) override { return by; }
    KEPT long counted(long by) override;
};

long kept;

Depth::operator bool() const {
    wait_here();
    return value + kept > 0;
}

Depth::operator long *() const { return *this ? &kept : nullptr; }

Depth Depth::operator<<(int count) const { return {value + count + *static_cast<long *>(*this)}; }

bool Depth::operator<(const Depth &other) const { return (*this << 1).value < other.value; }

Depth Depth::operator->*(int count) const { return {value + (*this < Depth{count})}; }

Depth Depth::operator()(int count) const { return {(*this->*count).value + 1}; }

long Depth::operator[](int index) const { return (*this)(index).value + 1; }

Depth Depth::operator,(int count) const { return {(*this)[count] + 1}; }

template <typename Call, int Count> KEPT Depth called(Call call, const Depth *depth) {
    Depth found = call(*depth);
    found.value += Count;
    return found;
}

template <typename Number> KEPT bool operator>(const Depth &depth, Number number) {
    return called<Depth (*)(const Depth &), (3 > 2)>([](const Depth &given) { return given, 3; }, &depth).value > number;
}

long Both::counted(long by) {
    auto found = [this, by](const Depth &given) __attribute__((noinline)) { return (given > by) + count; };
    return found(Depth{by}) + 1;
}

KEPT long by_base(Counted *counted, long by) { return counted->counted(by) + 1; }

int main(int count, char **) {
    Both both;
    return static_cast<int>(by_base(&both, count));
}
