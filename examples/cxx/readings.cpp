// Reads measurements of sensors through templates, virtual calls and functions with lambdas; many values are kept in registers and
// on the stack across calls. The program's argument says how many are read before one fails.
#include <algorithm>
#include <cstdio>
#include <cstdlib>
#include <functional>
#include <memory>
#include <new>
#include <numeric>
#include <sstream>
#include <stdexcept>
#include <string>
#include <vector>

#define APART [[gnu::noinline]]

template <class Unit> struct OutOfRange : std::range_error {
    double value;
    explicit OutOfRange(double v) : std::range_error(Unit::name()), value(v) {}
};
struct Celsius {
    static const char *name() { return "celsius"; }
};
struct Pascal {
    static const char *name() { return "pascal"; }
};

struct Sensor {
    virtual ~Sensor() {}
    virtual double read(int step) = 0;
};

template <class Unit> struct Limited : Sensor {
    double limit;
    std::vector<double> seen;
    explicit Limited(double l) : limit(l) {}
    APART double read(int step) override {
        double value = step * 1.5 + limit / 10;
        seen.push_back(value);
        if (value > limit) {
            throw OutOfRange<Unit>(value);
        }
        return value;
    }
};

struct Large {
    std::vector<long> room;
    // The library throws where so many aren't to be had.
    explicit Large(long count) : room(static_cast<std::size_t>(count)) {}
};

struct Station {
    std::vector<std::unique_ptr<Sensor>> sensors;

    APART double total(int step, const std::function<void(double)> &told) {
        long a = step, b = a * 3 + 1, c = b ^ a, d = c + b;
        double sum = std::accumulate(sensors.begin(), sensors.end(), 0.0, [&](double so_far, std::unique_ptr<Sensor> &sensor) {
            double value = sensor->read(step);
            told(value);
            return so_far + value;
        });
        return sum + static_cast<double>(a + b + c + d);
    }
};

APART double day(Station &station, int steps, std::ostringstream &log) {
    double sum = 0;
    long widths[6] = {1, 2, 3, 4, 5, 6};
    for (int step = 0; step < steps; step++) {
        try {
            std::string line = "step " + std::to_string(step);
            sum += station.total(step, [&](double value) {
                log << line << ' ' << value << '\n';
                widths[step % 6] += static_cast<long>(value);
            });
        } catch (const OutOfRange<Pascal> &error) {
            log << "pressure " << error.value << '\n';
            sum -= static_cast<double>(widths[step % 6]);
        }
    }
    return sum;
}

APART double week(int steps) {
    Station station;
    station.sensors.emplace_back(new Limited<Pascal>(steps % 2 ? 25 : 1000));
    station.sensors.emplace_back(new Limited<Celsius>(60));
    std::ostringstream log;
    if (steps < 0) {
        std::unique_ptr<Large> large(new Large(steps));
        return static_cast<double>(large->room.size());
    }
    if (steps == 0) {
        log.exceptions(std::ios::badbit);
        log.setstate(std::ios::badbit);
    }
    try {
        return day(station, steps, log);
    } catch (const std::range_error &error) {
        std::printf("%s\n", error.what());
        std::string written = log.str();
        return static_cast<double>(written.size());
    } catch (const std::invalid_argument &) {
        return -1;
    }
}

int main(int, char **arguments) {
    try {
        std::printf("%g\n", week(std::atoi(arguments[1])));
    } catch (const std::bad_alloc &) {
        std::printf("no memory\n");
    } catch (const std::exception &error) {
        std::printf("station: %s\n", error.what());
    }
}
