// Estimates pi in four threads, each with a part of one stream. Each run prints the same.
#include <cstddef>
#include <iomanip>
#include <iostream>
#include <numeric>
#include <thread>
#include <vector>

#include "nanorand.hpp"

int main()
{
    const nanorand::Pcg64 root(42); // stays at the start of the stream, since every part counts from it
    const int points = 1'000'000;
    std::vector<int> inside(4);

    std::vector<std::thread> threads;
    for (std::size_t task = 0; task < inside.size(); ++task) {
        threads.emplace_back([&root, &inside, task] {
            nanorand::Pcg64 rng = root.part(task, 2 * points + 1); // two draws for each point; an odd length
            int count = 0;
            for (int point = 0; point < points; ++point) {
                const double x = rng.f64();
                const double y = rng.f64();
                if (x * x + y * y <= 1) {
                    ++count;
                }
            }
            inside[task] = count;
        });
    }
    for (std::thread& thread : threads) {
        thread.join();
    }

    const double sum = std::accumulate(inside.begin(), inside.end(), 0.0);
    std::cout << "Pi is about " << std::fixed << std::setprecision(3) << sum / points << ".\n";
}
