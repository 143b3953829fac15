// Rolls a die, shuffles names and estimates pi. Each run prints the same.
#include <iomanip>
#include <iostream>
#include <random>
#include <string>
#include <vector>

#include "nanorand.hpp"

int main()
{
    nanorand::WyRand rng(42);

    const int pips = rng.range(1, 6);
    std::cout << "You rolled " << pips << ".\n";

    std::vector<std::string> names{"Ada", "Barbara", "Chidi", "Dmitri", "Elif"};
    rng.shuffle(names);
    std::cout << "The order:";
    for (const std::string& name : names) {
        std::cout << ' ' << name;
    }
    std::cout << '\n';

    // A distribution of <random>, whose numbers depend on the standard library. 2 * rng.f64() - 1 is faster, and
    // returns the same numbers everywhere.
    std::uniform_real_distribution<double> coordinate(-1, 1);
    const int points = 4'000'000;
    int inside = 0;
    for (int point = 0; point < points; ++point) {
        const double x = coordinate(rng);
        const double y = coordinate(rng);
        if (x * x + y * y <= 1) {
            ++inside;
        }
    }
    std::cout << "Pi is about " << std::fixed << std::setprecision(2) << 4.0 * inside / points << ".\n";
}
