// Reads settings: numbers by the library, which throws, within blocks that own objects; errors of several classes; handlers whose
// first types don't fit. The program's argument says which setting is read.
#include <cstdio>
#include <cstring>
#include <map>
#include <stdexcept>
#include <string>
#include <vector>

#define APART [[gnu::noinline]]

struct Place {
    int line = 0;
    virtual ~Place() {}
};

// Caught by the second of its bases.
struct Missing : std::runtime_error, Place {
    explicit Missing(const std::string &name) : std::runtime_error("no setting " + name) { line = 7; }
};

// A base that isn't public takes no exception.
struct Internal : private std::logic_error {
    Internal() : std::logic_error("internal") {}
};

struct Settings {
    std::map<std::string, std::string> values{{"width", "80 columns"}, {"height", "tall"}, {"depth", "99999999999"}};

    APART const std::string &text(const std::string &name) const {
        auto found = values.find(name);
        if (found == values.end()) {
            throw Missing(name);
        }
        return found->second;
    }
    APART int number(const std::string &name) const {
        std::string copy = text(name);
        return std::stoi(copy);
    }
};

APART int checked(const Settings &settings, const char *name) {
    if (std::strcmp(name, "word") == 0) {
        throw "a word and no setting";
    }
    if (std::strcmp(name, "internal") == 0) {
        throw Internal();
    }
    std::vector<int> numbers(3, settings.number(name));
    return numbers.at(numbers.size() + 1);
}

// The object lives inside of the block, and nothing around it: g++ writes its cleanup before the handlers.
APART int read_setting(const Settings &settings, const char *name) {
    try {
        std::string shown = std::string("setting ") + name;
        return checked(settings, shown.c_str() + 8);
    } catch (const std::bad_alloc &) {
        return -1;
    } catch (const std::out_of_range &error) {
        std::printf("out of range: %s\n", error.what());
        return -2;
    } catch (const std::logic_error &error) {
        std::printf("wrong: %s\n", error.what());
        return -3;
    }
}

APART int read_all(const Settings &settings, const char *name) {
    std::vector<std::string> names{name, "height"};
    try {
        return read_setting(settings, names[0].c_str());
    } catch (const Place &place) {
        std::printf("missing, line %d\n", place.line);
        return -4;
    } catch (char *) {
        return -5;
    } catch (const void *) {
        std::printf("a pointer\n");
        return -6;
    }
}

int main(int, char **arguments) {
    Settings settings;
    try {
        std::printf("%d\n", read_all(settings, arguments[1]));
    } catch (const std::exception &) {
        std::printf("an exception\n");
    } catch (...) {
        std::printf("anything\n");
    }
}
