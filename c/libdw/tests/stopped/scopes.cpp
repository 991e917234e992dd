// Variables of functions in namespaces, classes and other functions, of inlined ones, and of handlers of exceptions.
// Its argument says where it stops.
#include <cstdlib>
#include <stdexcept>

#include "../stop.h"

namespace outer {
int shared = 9;
namespace {
__attribute__((noinline)) int hidden(int x)
{
    int twice = 2 * x;
    STOP(1);
    return twice + shared;
}
} // namespace

struct shape {
    int sides;
    static int count;
    long number = 3;
    explicit shape(int given) : sides(given)
    {
        int local = given + 1;
        STOP(2);
        count += local;
    }
    template <typename T> __attribute__((noinline)) T scaled(const T &factor) const
    {
        T result = factor * static_cast<T>(sides);
        STOP(3);
        return result;
    }
};
int shape::count = 1;
} // namespace outer

__attribute__((noinline)) static int lambdas(int base)
{
    int outside = base + 1;
    auto add = [outside, &base](int more) __attribute__((noinline)) {
        int inside = outside + more;
        STOP(4);
        base = inside;
        return inside;
    };
    auto call = [&](int once) {
        int within = add(once) + outside;
        STOP(5);
        return within;
    };
    int result = call(5);
    STOP(6);
    USE(outside);
    return result;
}

__attribute__((noinline)) static int caught(int given)
{
    int before = given * 3;
    try {
        int tried = before + 1;
        USE(tried);
        throw std::runtime_error("thrown");
    } catch (const std::runtime_error &error) {
        int handled = before + 7;
        STOP(7);
        USE(handled);
        before = error.what()[0];
    } catch (int number) {
        before = number;
    }
    STOP(8);
    return before;
}

int main(int argc, char **argv)
{
    at = argc > 1 ? std::atoi(argv[1]) : 0;
    int total = outer::hidden(argc);
    outer::shape shape(argc + 2);
    total += static_cast<int>(shape.scaled(2.5)) + lambdas(argc) + caught(argc);
    STOP(9);
    return total & 1;
}
