"""Tests of thrown_types.py, type_info.py and language_sites.py: what a program's handlers took, and the types that it says."""
import contextlib
import io
import pathlib
import shutil
import subprocess
import tempfile
import unittest

from elf_image import ElfImage, Range
from frame_table import Table, described_at, personality_routines
from thrown_types import LIBCXXABI, LIBSTDCXX, OF_LIBCXX, OF_LIBSTDCXX, PERSONALITY, LoadedTables
from thrown_types import Names, is_foreign, runtime_of, taken_types, thrown_of, thrown_type, types_asked
from type_info import Types

# Throws an exception of each type before a handler of each, and says which it took. Then it waits, and its memory is read.
PROGRAM = """
    #include <cstdio>
    #include <exception>
    #include <sstream>
    #include <system_error>
    #include <type_traits>
    #include <typeinfo>
    struct A { int a = 0; virtual ~A() {} };
    struct B : A {};
    struct Private : private A {};
    struct Left : virtual A {};
    struct Right : virtual A {};
    struct Diamond : Left, Right {};
    struct One : A {};
    struct Two : A {};
    struct Twice : One, Two {};
    struct Mixed : Left, private Right {};
    struct Hidden : private Left, private Right {};
    struct Deep : Diamond, Twice {};
    struct Plain { int x = 0; };
    struct Empty {};
    struct Third : Plain, Empty, B {};
    enum Number { Zero };
    enum class Other { None };
    using Function = void (*)();
    #if __cplusplus < 201703L
    using Quiet = Function;
    #else
    using Quiet = void (*)() noexcept;
    #endif
    // A pointer that is thrown leads to an object.
    template <class T> struct Value { static T get() { return T(); } };
    template <class U> struct Value<U *> {
        static U *get() { static typename std::remove_cv<U>::type object{}; return &object; }
    };
    template <> struct Value<void *> { static void *get() { return stdout; } };
    template <> struct Value<const void *> { static const void *get() { return stdout; } };
    template <> struct Value<Function> { static Function get() { return std::terminate; } };
    #if __cplusplus >= 201703L
    template <> struct Value<Quiet> { static Quiet get() { return std::terminate; } };
    #endif
    template <class T> void throws() { throw Value<T>::get(); }
    template <class H> bool takes(void (*throwing)()) {
        try { throwing(); } catch (const H &) { return true; } catch (...) { return false; }
        return false;
    }
    template <class... Ts> struct List {};
    template <class... Hs> void row(const std::type_info &type, void (*throwing)(), List<Hs...>) {
        std::printf("%p", static_cast<const void *>(&type));
        bool all[] = {takes<Hs>(throwing)...};
        for (bool each : all) std::printf(" %d", each);
        std::printf("\\n");
    }
    template <class... Ts> void rows(List<Ts...> all) {
        int each[] = {(row(typeid(Ts), throws<Ts>, all), 0)...};
        (void)each;
    }
    using All = List<A, B, Private, Left, Right, Diamond, One, Two, Twice, Mixed, Hidden, Deep, Plain, Empty, Third, Number,
        Other, int, long, char, A *, const A *, volatile A *, B *, const B *, Private *, Diamond *, Twice *, Mixed *,
        Hidden *, Third *,
        Plain *, void *, const void *, int *, const int *, int **, const int **, const int *const *, int *const *, A **,
        const A *const *, B **, Function, Quiet, Function *, decltype(nullptr),
        int A::*, const int A::*, int B::*, int Plain::*, void (A::*)(), void (B::*)()>;
    void throw_one(int way) { if (way == 0) throw B(); if (way == 1) throw 7; }
    void (*volatile thrower)(int) = throw_one;
    __attribute__((noinline)) void handles(int way) {
        try { thrower(way); } catch (const Plain &) {} catch (A &) {} catch (const char *) {} catch (...) { throw; }
    }
    #if __cplusplus < 201703L
    #define LISTED throw(Left, Number, std::bad_exception)
    #else
    #define LISTED
    #endif
    __attribute__((noinline)) void lists(int way) LISTED { thrower(way); std::printf(""); }
    __attribute__((noinline)) void cleans(int way) { struct Held { ~Held() { std::printf(""); } } held; thrower(way); }
    std::exception_ptr failure;
    void fails() {
        try {
            std::ostringstream stream;
            stream.exceptions(std::ios::badbit);
            stream.setstate(std::ios::badbit);
        } catch (...) { failure = std::current_exception(); throw; }
    }
    template <class... Hs> void failures(List<Hs...>) {
        bool all[] = {takes<Hs>(fails)...};
        const std::type_info *types[] = {&typeid(Hs)...};
        std::printf("failure %p", *reinterpret_cast<void **>(&failure));
        for (int i = 0; i < static_cast<int>(sizeof...(Hs)); i++) std::printf(" %p %d", static_cast<const void *>(types[i]), all[i]);
        std::printf("\\n");
    }
    int main() {
        rows(All());
        failures(List<std::exception, std::ios_base::failure, std::logic_error, std::system_error, A, std::runtime_error>());
        std::exception_ptr kept;
        try { cleans(0); } catch (...) { kept = std::current_exception(); }
        handles(2); lists(2);
        std::printf("thrown %p %p\\n", *reinterpret_cast<void **>(&kept), static_cast<const void *>(&typeid(B)));
        std::printf("handles %p %p %p %p\\n", reinterpret_cast<void *>(handles), static_cast<const void *>(&typeid(Plain)),
            static_cast<const void *>(&typeid(A)), static_cast<const void *>(&typeid(const char *)));
        std::printf("lists %p %p %p %p\\n", reinterpret_cast<void *>(lists), static_cast<const void *>(&typeid(Left)),
            static_cast<const void *>(&typeid(Number)), static_cast<const void *>(&typeid(std::bad_exception)));
        std::printf("cleans %p\\n", reinterpret_cast<void *>(cleans));
        std::printf("end\\n");
        std::fflush(stdout);
        std::getchar();
    }
"""
BUILDS = {
    "g++ -O0": ["g++", "-std=c++14", "-O0"],
    "g++ -O2, at a fixed address": ["g++", "-std=c++17", "-O2", "-fno-pie", "-no-pie"],
    "g++ as before C++11": ["g++", "-std=c++14", "-O0", "-D_GLIBCXX_USE_CXX11_ABI=0"],
    "clang++": ["clang++", "-std=c++14", "-O1"],
    "clang++ with libc++": ["clang++", "-std=c++17", "-O1", "-stdlib=libc++"],
}
# A class that no one of C++ has.
ANOTHER = 0x4845524C414E4745
# How far after the word that unwinders know a thrown object lies.
OBJECT_AFTER_WORD = 32


class Running:
    """The program of a build as it waits: its lines, its memory and its tables."""

    def __init__(self, folder: str, command: list[str]) -> None:
        """Builds and runs it."""
        source, self.file = pathlib.Path(folder, "program.cpp"), str(pathlib.Path(folder, "program"))
        source.write_text(PROGRAM, encoding="ascii")
        subprocess.run([*command, "-w", "-o", self.file, source], check=True)
        self.process = subprocess.Popen([self.file], stdin=subprocess.PIPE, stdout=subprocess.PIPE, text=True)
        assert self.process.stdout is not None
        self.lines = [line.split() for line in iter(self.process.stdout.readline, "end\n")]
        self.memory = open(f"/proc/{self.process.pid}/mem", "rb", buffering=0)
        self.is_libcxx = "-stdlib=libc++" in command

    def read(self, address: int, size: int) -> bytes:
        """Bytes of its memory."""
        self.memory.seek(address)
        return self.memory.read(size)

    def words(self, name: str) -> list[int]:
        """The words of a line."""
        return next([int(word, 16) for word in line[1:]] for line in self.lines if line[0] == name)

    def tables(self) -> LoadedTables:
        """The tables of its file, as they are loaded."""
        with open(f"/proc/{self.process.pid}/maps", encoding="utf-8") as maps:
            first = next(int(line.partition("-")[0], 16) for line in maps if line.rstrip().endswith(self.file))
        with open(self.file, "rb") as stream:
            elf = ElfImage(stream)
            bias = first if any(segment.address == 0 for segment in elf.segments if segment.kind == 1) else 0
            places = [elf.section_range(".eh_frame", bias), *elf.language_tables(bias)]
        frames, *languages = [Table(place.start, self.read(place.start, place.end - place.start)) for place in places if place]
        return LoadedTables(frames, languages)

    def end(self) -> None:
        """Lets it end."""
        self.memory.close()
        self.process.communicate("\n")


def is_whole() -> bool:
    """Whether there are both compilers and both libraries."""
    return bool(shutil.which("g++") and shutil.which("clang++")) and pathlib.Path("/usr/include/c++/v1").exists()


@unittest.skipUnless(is_whole(), "wants g++, clang++ and libc++")
class Throws(unittest.TestCase):
    folder: tempfile.TemporaryDirectory[str]
    running: dict[str, Running]

    @classmethod
    def setUpClass(cls) -> None:
        cls.folder = tempfile.TemporaryDirectory()
        cls.running = {}
        for number, (name, command) in enumerate(BUILDS.items()):
            inside = pathlib.Path(cls.folder.name, str(number))
            inside.mkdir()
            cls.running[name] = Running(str(inside), command)

    @classmethod
    def tearDownClass(cls) -> None:
        for running in cls.running.values():
            running.end()
        cls.folder.cleanup()

    def test_handlers_take_what_they_took(self) -> None:
        for name, running in self.running.items():
            types = Types(running.read, by_text=not running.is_libcxx)
            rows = [line for line in running.lines if line[0].startswith("0x")]
            addresses = [int(row[0], 16) for row in rows]
            self.assertGreater(len(rows), 50)
            for thrown, row in zip(addresses, rows):
                with self.subTest(name, thrown=types.name(thrown)):
                    took = {types.name(handler) for handler, taken in zip(addresses, row[1:]) if taken == "1"}
                    self.assertEqual({types.name(handler) for handler in addresses if types.takes(handler, thrown)}, took)

    def test_the_types_of_handlers_and_of_specifications(self) -> None:
        for name, running in self.running.items():
            tables = running.tables()
            for function in ("handles", "lists") if "c++14" in str(BUILDS[name]) else ("handles",):
                start, *named = running.words(function)
                with self.subTest(name, function=function):
                    asked = types_asked([tables], {start}, running.read)
                    self.assertEqual(asked.types, set(named))
                    words = {int.from_bytes(running.read(cell.start, 8), "little") for cell in asked.cells}
                    self.assertLessEqual(words, set(named))
                    self.assertEqual({cell.end - cell.start for cell in asked.cells} or {8}, {8})

    def test_no_types_of_cleanups_alone(self) -> None:
        for name, running in self.running.items():
            with self.subTest(name):
                asked = types_asked([running.tables()], set(running.words("cleans")), running.read)
                self.assertEqual(asked, (set(), set()))

    def test_what_a_snapshot_says_of_an_exception(self) -> None:
        for name, running in self.running.items():
            with self.subTest(name):
                thrown, own = running.words("thrown")
                handles, _plain, base, _text = running.words("handles")
                word = thrown - OBJECT_AFTER_WORD
                kind = int.from_bytes(running.read(word, 8), "little")
                self.assertEqual(kind, OF_LIBCXX if running.is_libcxx else OF_LIBSTDCXX)
                self.assertEqual(thrown_type(word, kind, running.read), own)
                tables = running.tables()
                routines = personality_routines(tables.frames, running.read)
                names = Names(lambda address: f"{PERSONALITY} in section x", lambda name: False)
                said = thrown_of(word, kind, [tables], {handles}, running.read, names)
                self.assertEqual((said.types, said.personalities, said.is_foreign), ([own, base], sorted(routines), False))
                self.assertEqual(said.runtime, LIBCXXABI if running.is_libcxx else LIBSTDCXX)
                self.assertEqual(len(routines), 1)
                names = Names(lambda address: "rust_eh_personality", lambda name: False)
                others = thrown_of(word, kind, [tables], {handles}, running.read, names)
                self.assertEqual(others.personalities, [])

    def test_what_a_stream_throws(self) -> None:
        for name, running in self.running.items():
            with self.subTest(name):
                thrown, *words = running.words("failure")
                word = thrown - OBJECT_AFTER_WORD
                type = thrown_type(word, int.from_bytes(running.read(word, 8), "little"), running.read)
                types = Types(running.read, by_text=not running.is_libcxx)
                self.assertEqual([int(types.takes(handler, type)) for handler in words[::2]], words[1::2])
                self.assertIn(1, words[1::2])

    def test_an_exception_of_another_language(self) -> None:
        running = next(iter(self.running.values()))
        for runtime, own, other in ((LIBSTDCXX, OF_LIBSTDCXX, OF_LIBCXX), (LIBCXXABI, OF_LIBCXX, OF_LIBSTDCXX)):
            self.assertTrue(is_foreign(ANOTHER, runtime))
            self.assertTrue(is_foreign(other, runtime))
            self.assertFalse(is_foreign(own | 1, runtime))
        handles, *named = running.words("handles")
        self.assertEqual(taken_types(0, ANOTHER, LIBSTDCXX, set(named), running.read), [])


class Runtimes(unittest.TestCase):
    # What gdb 13.1 writes of the routine in Debian's libraries, in a program with its runtime within, and of a program's stub.
    GNU = "__gxx_personality_v0 in section .text of /lib/x86_64-linux-gnu/libstdc++.so.6\n"
    LLVM = "__gxx_personality_v0 in section .text of /lib/x86_64-linux-gnu/libc++abi.so.1\n"
    WITHIN = "__gxx_personality_v0 in section .text\n"
    STUB = "__gxx_personality_v0@got.plt in section .got.plt of /home/me/libstdc++/program\n"

    def test_the_library_tells_the_runtime(self) -> None:
        for kind in (OF_LIBSTDCXX, OF_LIBCXX, ANOTHER):
            for has in (True, False):
                with self.subTest(kind=kind, has=has):
                    self.assertEqual(runtime_of(kind, [self.GNU], lambda name: has), LIBSTDCXX)
                    self.assertEqual(runtime_of(kind, [self.WITHIN, self.LLVM], lambda name: has), LIBCXXABI)

    def test_else_the_exception_or_a_symbol_tells_it(self) -> None:
        for routines in ([self.WITHIN], [self.STUB], []):
            with self.subTest(routines):
                self.assertEqual(runtime_of(OF_LIBSTDCXX | 1, routines, lambda name: True), LIBSTDCXX)
                self.assertEqual(runtime_of(OF_LIBCXX, routines, lambda name: False), LIBCXXABI)
                self.assertEqual(runtime_of(ANOTHER, routines, lambda name: False), LIBSTDCXX)
                self.assertEqual(runtime_of(ANOTHER, routines, lambda name: name == "__cxa_terminate_handler"), LIBCXXABI)

    def test_two_runtimes_are_told_of(self) -> None:
        with contextlib.redirect_stdout(io.StringIO()) as written:
            self.assertEqual(runtime_of(OF_LIBCXX, [self.GNU, self.LLVM], lambda name: False), LIBCXXABI)
        self.assertIn("several runtimes: libc++abi, libstdc++", written.getvalue())


class Places(unittest.TestCase):
    def test_a_description_without_a_language_table(self) -> None:
        # The CIE without a personality of examples/cleanups.cpp, and a description of 16 bytes from 0x1000 on.
        common = bytes.fromhex("1400000000000000017a5200017810011b0c070890010000")
        entry = bytes.fromhex("10000000" "1c000000" "e00f0000" "10000000" "00000000")
        found = described_at(Table(0, common + entry), {0x1004})
        self.assertEqual([(each.covers, each.language_table) for each in found], [(Range(0x1000, 0x1010), None)])
        self.assertEqual(described_at(Table(0, common + entry), {0x1010}), [])


if __name__ == "__main__":
    unittest.main()
