// How the programs of this folder take the time: the best of many turns, in milliseconds. COMPARE_FOR=MILLISECONDS says for how long the turns go
// on, a second where it says nothing.
#ifndef TIMING_HPP
#define TIMING_HPP

#include <algorithm>
#include <chrono>
#include <cstdlib>
#include <utility>

inline double now() {
    using namespace std::chrono;
    return duration<double, std::milli>(steady_clock::now().time_since_epoch()).count();
}

template <class Work> double timed(Work work) {
    double began = now();
    work();
    return now() - began;
}

// How long two that are compared take turns, in milliseconds; they have five turns at least.
inline double how_long() {
    const char *asked = std::getenv("COMPARE_FOR");
    return asked ? std::atof(asked) : 1000;
}

// The best times of two that take turns, so that both meet the machine in the same state.
template <class Ours, class Theirs> std::pair<double, double> best_of(Ours ours, Theirs theirs) {
    double until = now() + how_long(), our_best = 1e300, their_best = 1e300;
    for (int turn = 0; turn < 5 || now() < until; turn++) {
        our_best = std::min(our_best, timed(ours));
        their_best = std::min(their_best, timed(theirs));
    }
    return {our_best, their_best};
}

template <class Ours> double best_of(Ours ours) { return best_of(ours, [] {}).first; }

#endif
