// Runs jobs that hold locks and own memory: what one throws is caught, noted and thrown again, on the spot or later, by another
// thread, and from destructors that throw and catch themselves. The program's argument says which job is run.
#include <cstdio>
#include <cstring>
#include <exception>
#include <functional>
#include <future>
#include <memory>
#include <mutex>
#include <string>
#include <system_error>
#include <thread>

#define APART [[gnu::noinline]]

struct Failed : std::runtime_error {
    using std::runtime_error::runtime_error;
};

std::mutex mutex;
std::exception_ptr kept;
int undone = 0;

struct Undo {
    const char *what;
    // Throws and catches while another exception is in flight.
    APART ~Undo() {
        try {
            if (++undone == 1) {
                throw Failed(what);
            }
        } catch (const Failed &) {
            undone += 10;
        }
    }
};

APART void fail(const std::string &name) {
    std::lock_guard<std::mutex> lock(mutex);
    std::unique_ptr<std::string> owned(new std::string(name + " failed"));
    if (name == "number") {
        throw 7L;
    }
    throw Failed(*owned);
}

APART void again(const std::string &name) {
    std::unique_ptr<int> count(new int(1));
    try {
        std::string copy = name;
        fail(copy);
    } catch (const std::system_error &) {
        return;
    } catch (const std::exception &error) {
        std::string noted = error.what();
        std::printf("noted: %s\n", noted.c_str());
        throw;
    } catch (...) {
        std::unique_ptr<int> inside(new int(2));
        throw;
    }
}

APART void later(const std::string &name) {
    try {
        fail(name);
    } catch (...) {
        kept = std::current_exception();
    }
    std::string between = "between " + name;
    if (kept) {
        std::rethrow_exception(kept);
    }
}

APART void undoing(const std::string &name) {
    Undo first{"first"}, second{"second"};
    fail(name);
}

APART void in_task(const std::string &name) {
    std::packaged_task<int(const std::string &)> task([](const std::string &of) {
        std::string copy = of;
        fail(copy);
        return 1;
    });
    task(name);
    std::future<int> result = task.get_future();
    std::printf("%d\n", result.get());
}

APART void in_thread(const std::string &name) {
    std::thread thread([&name] {
        try {
            again(name);
        } catch (const std::runtime_error &) {
            std::printf("caught in a thread\n");
        }
    });
    thread.join();
}

APART void run(const char *way) {
    std::string name = way;
    if (name == "again" || name == "number") again(name);
    if (name == "later") later(name);
    if (name == "undo") undoing(name);
    if (name == "task") in_task(name);
    if (name == "thread") in_thread(name);
    if (name == "function") std::function<void()>()();
}

int main(int, char **arguments) {
    try {
        std::string outside = arguments[1];
        run(outside.c_str());
    } catch (const std::logic_error &) {
        std::printf("logic\n");
    } catch (const std::exception &error) {
        std::printf("job: %s\n", error.what());
    } catch (...) {
        std::printf("job: something\n");
    }
}
