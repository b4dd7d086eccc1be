// Throws through functions with handlers, cleanups and exception specifications, and prints what the
// personality of the runtime is asked in each frame and what it answers. `crates/frame_vectors` has the
// language tables of two builds and these answers:
//
//     g++ -std=c++14 -O2 -fno-pie -no-pie -Wl,--wrap=__gxx_personality_v0 -o thrown thrown.cpp
//     g++ -std=c++14 -O1 -fpie -no-pie -Wl,--wrap=__gxx_personality_v0 -o thrown thrown.cpp
//     ./thrown 0 0    # a case from 0 to 7, and what is thrown from 0 to 3
#include <cstdio>
#include <cstdlib>
#include <exception>
#include <typeinfo>
#include <unwind.h>
struct Base { virtual ~Base() {} };
struct Derived : Base {};
struct Other { int x; };
struct Guard { const char *name; ~Guard() { asm volatile("" ::"r"(name) : "memory"); } };
extern "C" _Unwind_Reason_Code __real___gxx_personality_v0(int, _Unwind_Action, _Unwind_Exception_Class, _Unwind_Exception *, _Unwind_Context *);
static bool quiet;
extern "C" _Unwind_Reason_Code __wrap___gxx_personality_v0(int version, _Unwind_Action actions, _Unwind_Exception_Class c, _Unwind_Exception *e, _Unwind_Context *ctx) {
    int before = 0;
    unsigned long ip = _Unwind_GetIPInfo(ctx, &before);
    unsigned long lsda = (unsigned long)_Unwind_GetLanguageSpecificData(ctx), start = _Unwind_GetRegionStart(ctx);
    _Unwind_Reason_Code r = __real___gxx_personality_v0(version, actions, c, e, ctx);
    if (!quiet) {
        printf("asked start=0x%lx lsda=0x%lx ip=0x%lx actions=%d answer=%d", start, lsda, ip, actions, r);
        if (r == _URC_INSTALL_CONTEXT) printf(" pad=0x%lx filter=%ld", _Unwind_GetIP(ctx), (long)_Unwind_GetGR(ctx, __builtin_eh_return_data_regno(1)));
        printf("\n");
    }
    return r;
}
__attribute__((noinline)) void thrower(int kind) {
    switch (kind) {
    case 0: throw Derived();
    case 1: throw Base();
    case 2: throw Other();
    case 3: throw 7;
    }
}
#define NOINLINE __attribute__((noinline))
NOINLINE void cleans(int k) { Guard g{"cleans"}; thrower(k); }
NOINLINE int typed(int k) { try { cleans(k); } catch (Other &) { return 1; } return 0; }
NOINLINE int bases(int k) { Guard g{"bases"}; try { typed(k); } catch (Base &) { return 2; } return 0; }
NOINLINE int several(int k) { try { cleans(k); } catch (Derived &) { return 3; } catch (Base &) { return 4; } catch (Other &) { return 5; } return 0; }
NOINLINE int all(int k) { try { bases(k); } catch (...) { return 6; } return 0; }
NOINLINE int nested(int k) {
    try { Guard g{"nested"}; try { cleans(k); } catch (Other &) { return 7; } } catch (Base &) { return 8; }
    return 0;
}
NOINLINE void listed(int k) throw(Base, Other) { cleans(k); }
NOINLINE void nothing(int k) throw() { cleans(k); }
NOINLINE void promises(int k) noexcept { Guard g{"promises"}; cleans(k); }
static void unexpected_one() { throw Other(); }
static void ended() { printf("terminate\n"); fflush(stdout); _Exit(0); }
int main(int argc, char **argv) {
    setvbuf(stdout, nullptr, _IONBF, 0);
    std::set_terminate(ended);
    std::set_unexpected(unexpected_one);
    printf("types Base=%p Derived=%p Other=%p int=%p\n", (void *)&typeid(Base), (void *)&typeid(Derived), (void *)&typeid(Other), (void *)&typeid(int));
    int which = atoi(argv[1]), k = atoi(argv[2]);
    printf("case %d kind %d\n", which, k);
    try {
        switch (which) {
        case 0: printf("typed %d\n", typed(k)); break;
        case 1: printf("bases %d\n", bases(k)); break;
        case 2: printf("several %d\n", several(k)); break;
        case 3: printf("all %d\n", all(k)); break;
        case 4: printf("nested %d\n", nested(k)); break;
        case 5: listed(k); break;
        case 6: nothing(k); break;
        case 7: promises(k); break;
        }
    } catch (...) { printf("main caught\n"); }
}
