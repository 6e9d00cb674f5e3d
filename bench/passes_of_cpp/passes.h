// Times a library as passes_of_ijson does this one: reading, writing and giving back the text of standard input, as many times as the first
// argument says.
//
// A Library has an Input, made of a std::string; read, which gives a value of it by a std::unique_ptr, or none where it is refused; write, which
// gives a text; and view, which gives that as a std::string_view.

#include <chrono>
#include <cstdio>
#include <cstdlib>
#include <iostream>
#include <iterator>
#include <memory>
#include <string>
#include <string_view>

using Clock = std::chrono::steady_clock;

inline long long nanoseconds_since(Clock::time_point start) {
    return std::chrono::duration_cast<std::chrono::nanoseconds>(Clock::now() - start).count();
}

// Times one pass, and gives the text that it wrote.
template <class Library>
auto pass(const typename Library::Input &input) {
    auto start = Clock::now();
    auto value = Library::read(input);
    const auto reading = nanoseconds_since(start);
    if (!value) {
        std::exit(1);
    }
    start = Clock::now();
    auto written = Library::write(*value);
    const auto writing = nanoseconds_since(start);
    start = Clock::now();
    value.reset();
    const auto giving_back = nanoseconds_since(start);
    std::fprintf(stderr, "%lld %lld %lld %zu\n", reading, writing, giving_back, Library::view(written).size());
    return written;
}

template <class Library>
int run_passes(const char *passes) {
    const std::string text{std::istreambuf_iterator<char>(std::cin), {}};
    const typename Library::Input input(text);
    for (int left = std::atoi(passes); left > 1; left--) {
        pass<Library>(input);
    }
    const auto written = pass<Library>(input);
    std::cout << Library::view(written) << std::flush;
    return std::cout ? 0 : 1;
}
