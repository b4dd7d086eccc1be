// Parses nested lists by recursion. Each level that fails throws what its inside threw, nested in an error of its own; errors have
// virtual and repeated bases. The program's argument is parsed.
#include <cstdio>
#include <exception>
#include <memory>
#include <stdexcept>
#include <string>
#include <vector>

#define APART [[gnu::noinline]]

struct Error {
    std::string text;
    explicit Error(const std::string &t) : text(t) {}
    virtual ~Error() {}
};
// Two ways lead to Error, which is there once.
struct Syntax : virtual Error {
    Syntax() : Error("syntax") {}
};
struct Position : virtual Error {
    unsigned at;
    explicit Position(unsigned a) : Error("position"), at(a) {}
};
struct Unexpected : Syntax, Position {
    explicit Unexpected(unsigned a) : Error("unexpected"), Position(a) {}
};
// Two ways lead to Note, which is there twice: no handler of Note takes it.
struct Note {
    int number = 1;
};
struct First : Note {};
struct Second : Note {};
struct Twice : First, Second {};

struct Value {
    std::vector<std::unique_ptr<Value>> inner;
};

struct Parser {
    std::string text;
    unsigned at = 0;

    APART char next() {
        if (at >= text.size()) {
            throw std::runtime_error("the text ends");
        }
        return text[at++];
    }
    APART std::unique_ptr<Value> word(char first) {
        if (first == '?') throw Unexpected(at);
        if (first == '!') throw Twice();
        if (first == '*') throw static_cast<Unexpected *>(nullptr);
        if (first == '0') throw nullptr;
        return std::unique_ptr<Value>(new Value);
    }
    APART std::unique_ptr<Value> value() {
        std::string seen(1, next());
        return seen[0] == '[' ? list() : word(seen[0]);
    }
    APART std::unique_ptr<Value> list() {
        std::unique_ptr<Value> found(new Value);
        try {
            while (text[at] != ']') {
                found->inner.push_back(value());
            }
            next();
        } catch (const std::exception &) {
            std::string where = "in the list before " + std::to_string(at);
            std::throw_with_nested(std::runtime_error(where));
        }
        return found;
    }
};

APART void tell(const std::exception &error, int level) {
    std::printf("%*s%s\n", level, "", error.what());
    try {
        std::rethrow_if_nested(error);
    } catch (const std::exception &inner) {
        tell(inner, level + 1);
    }
}

APART int parse(const char *text) {
    Parser parser;
    parser.text = text;
    try {
        std::unique_ptr<Value> found = parser.value();
        return static_cast<int>(found->inner.size());
    } catch (const Note &note) {
        return note.number;
    } catch (const Error &error) {
        std::printf("%s\n", error.text.c_str());
        return -1;
    } catch (Error *const &) {
        std::printf("a pointer to an error\n");
        return -2;
    } catch (const std::exception &error) {
        tell(error, 0);
        return -3;
    }
}

int main(int, char **arguments) {
    try {
        std::printf("%d\n", parse(arguments[1]));
    } catch (const Second &) {
        std::printf("the second part\n");
    }
}
