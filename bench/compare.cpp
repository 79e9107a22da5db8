// Times Panbuckle, through its C face, beside Boost.Polygon and std::sort, on the same arrays in the same run.
//
//   compare forward FILE...     the points of each file ("x y" lines) to rectangles: all of forward against all of Boost's
//   compare refused FILE...     the points of each file, which a step refuses: forward's answer, and the step's
//   compare step FILE...        one step: all of a step's checks, and the first rectangle
//   compare backward NUMBER...  so many rectangles at random to their points: backward against a std::sort of their corners
//   compare stack FILE...       how many bytes of stack forward and a step use on the points of each file
//   compare backstack FILE...   and backward on the rectangles of each file ("X Y W H" lines)
//   compare program FILE WORD...  a program, given as words, with the file as its standard input
//
// Each line printed has the name, the sizes, and the best time of many, in milliseconds (timing.hpp).
#include "stack.hpp"
#include "timing.hpp"

#include <panbuckle.h>

#include <fcntl.h>
#include <spawn.h>
#include <sys/wait.h>
#include <unistd.h>

#include <algorithm>
#include <boost/polygon/polygon.hpp>
#include <cinttypes>
#include <cstdio>
#include <cstdlib>
#include <cstring>
#include <random>
#include <string>
#include <utility>
#include <vector>

extern char **environ;

namespace {

using Numbers = std::vector<int32_t>;
using Box = boost::polygon::rectangle_data<int>;

[[noreturn]] void give_up(const std::string &why) {
    std::fprintf(stderr, "compare: %s\n", why.c_str());
    std::exit(1);
}

// ---- Inputs

Numbers read_numbers(const char *file) {
    FILE *in = std::fopen(file, "r");
    if (!in) give_up(std::string(file) + " cannot be read");
    Numbers numbers;
    int32_t number;
    while (std::fscanf(in, "%" SCNd32, &number) == 1) numbers.push_back(number);
    std::fclose(in);
    return numbers;
}

// So many rectangles at random. The last two are the same and cancel, so that there are fewer points than corners, and backward counts them
// before it writes.
Numbers random_rects(const char *number) {
    size_t count = std::strtoul(number, nullptr, 10);
    std::mt19937 random(1983);
    std::uniform_int_distribution<int32_t> corner(-1000000, 1000000), side(1, 1000);
    Numbers rects;
    for (size_t i = 0; i < count; i++) rects.insert(rects.end(), {corner(random), corner(random), side(random), side(random)});
    std::copy_n(rects.end() - 8, 4, rects.end() - 4);
    return rects;
}

std::string name_of(const char *file) {
    std::string name = file;
    name = name.substr(name.find_last_of('/') + 1);
    return name.substr(0, name.find('.'));
}

// ---- Boost.Polygon

// The points as edges of a set of cells, an even number of times inside out, cut into rectangles along the rows. Sorting the points, the
// even-odd rule and the cutting are all of it; nothing is checked. Both sides are given the same points, those that are listed more than once
// among them. Forward drops what cancels, and so does this, before Boost sees it: once sorted, equal points are neighbours, and two of them are
// passed over. The sign is then what it was before them.
void boost_fracture(const Numbers &points, std::vector<Box> &boxes) {
    std::vector<std::pair<int, int>> sorted;
    for (size_t i = 0; i < points.size(); i += 2) sorted.emplace_back(points[i + 1], points[i]);
    std::sort(sorted.begin(), sorted.end());
    boost::polygon::polygon_90_set_data<int> cells(boost::polygon::HORIZONTAL);
    int sign = 1;
    for (size_t i = 0; i < sorted.size(); i++) {
        if (i + 1 < sorted.size() && sorted[i] == sorted[i + 1]) {
            i++;
            continue;
        }
        auto [y, x] = sorted[i];
        cells.insert(std::make_pair(y, std::make_pair(x, sign)), false, boost::polygon::HORIZONTAL);
        sign = -sign;
    }
    cells.self_xor();
    boxes.clear();
    cells.get_rectangles(boxes);
}

uint64_t area_of(const std::vector<Box> &boxes) {
    uint64_t area = 0;
    for (const Box &box : boxes) area += uint64_t(boost::polygon::delta(box, boost::polygon::HORIZONTAL)) * uint64_t(boost::polygon::delta(box, boost::polygon::VERTICAL));
    return area;
}

// ---- What is compared

struct Forward {
    Numbers points, work, rects;
    uint64_t result[5];

    explicit Forward(const char *file) : points(read_numbers(file)), work(points.size()) {}

    void run(size_t room) { panbuckle_forward(points.data(), points.size(), work.data(), points.size(), rects.data(), room, result); }
};

void compare_forward(const char *file) {
    Forward ours(file);
    ours.run(0);
    ours.rects.resize(4 * ours.result[PANBUCKLE_PLACE]);
    std::vector<Box> boxes;
    auto [our_best, their_best] = best_of([&] { ours.run(ours.rects.size()); }, [&] { boost_fracture(ours.points, boxes); });
    if (ours.result[PANBUCKLE_ANSWER] != PANBUCKLE_DONE) give_up(std::string(file) + " is refused");
    if (ours.result[PANBUCKLE_AREA] != area_of(boxes)) give_up(std::string(file) + ": the areas differ");
    std::printf("%s %zu %" PRIu64 " %.5f %.5f\n", name_of(file).c_str(), ours.points.size() / 2, ours.result[PANBUCKLE_COUNT], our_best, their_best);
}

struct Step {
    Numbers points, work;
    int32_t rect[4];
    uint64_t result[3];

    explicit Step(const char *file) : points(read_numbers(file)) {}

    void run() {
        work = points;
        panbuckle_step(work.data(), work.size(), work.size() / 2, rect, result);
    }
};

// The answer of a call, its place and its time, after a space.
void print_answer(const uint64_t *result, double best) {
    std::printf(" %" PRIu64 " %" PRIu64 " %.5f", result[PANBUCKLE_ANSWER], result[PANBUCKLE_PLACE], best);
}

void time_refused(const char *file) {
    Forward forward(file);
    Step step(file);
    auto [forward_best, step_best] = best_of([&] { forward.run(0); }, [&] { step.run(); });
    if (step.result[PANBUCKLE_ANSWER] == PANBUCKLE_DONE) give_up(std::string(file) + " is not refused");
    std::printf("%s %zu", name_of(file).c_str(), step.points.size() / 2);
    print_answer(forward.result, forward_best);
    print_answer(step.result, step_best);
    std::printf("\n");
}

void time_step(const char *file) {
    Step step(file);
    double best = best_of([&] { step.run(); });
    if (step.result[PANBUCKLE_ANSWER] != PANBUCKLE_DONE) give_up(std::string(file) + " is refused");
    std::printf("%s %zu %.5f\n", name_of(file).c_str(), step.points.size() / 2, best);
}

struct Backward {
    Numbers rects, points;
    uint64_t result[3];

    explicit Backward(const Numbers &lent) : rects(lent) {
        run(0);
        points.resize(2 * result[PANBUCKLE_PLACE]);
    }

    void run(size_t room) { panbuckle_backward(rects.data(), rects.size(), points.data(), room, result); }
};

void sort_corners(const Numbers &rects, std::vector<std::pair<int32_t, int32_t>> &sorted) {
    sorted.clear();
    for (size_t i = 0; i < rects.size(); i += 4)
        for (int k = 0; k < 4; k++) sorted.emplace_back(rects[i + 1] + (k & 2 ? rects[i + 3] : 0), rects[i] + (k & 1 ? rects[i + 2] : 0));
    std::sort(sorted.begin(), sorted.end());
}

void compare_backward(const char *number) {
    Backward ours(random_rects(number));
    std::vector<std::pair<int32_t, int32_t>> sorted;
    auto [our_best, their_best] = best_of([&] { ours.run(ours.points.size()); }, [&] { sort_corners(ours.rects, sorted); });
    if (ours.result[PANBUCKLE_ANSWER] != PANBUCKLE_DONE) give_up("backward refuses");
    std::printf("backward %zu %" PRIu64 " %.5f %.5f\n", ours.rects.size() / 4, ours.result[PANBUCKLE_COUNT], our_best, their_best);
}

// The most of a call with no room and one with all the room that is needed.
template <class Call> size_t most_stack(Call &call, Numbers &lent, size_t numbers_each) {
    size_t none = stack_of([&] { call.run(0); });
    if (call.result[PANBUCKLE_ANSWER] == PANBUCKLE_ROOM) lent.resize(numbers_each * call.result[PANBUCKLE_PLACE]);
    return std::max(none, stack_of([&] { call.run(lent.size()); }));
}

void show_stack(const char *file) {
    Forward ours(file);
    size_t forward = most_stack(ours, ours.rects, 4);
    int32_t rect[4];
    uint64_t result[3];
    ours.work = ours.points;
    size_t step = stack_of([&] { panbuckle_step(ours.work.data(), ours.work.size(), ours.work.size() / 2, rect, result); });
    std::printf("%s %zu %zu %zu\n", name_of(file).c_str(), ours.points.size() / 2, forward, step);
}

void show_backward_stack(const char *file) {
    Backward ours(read_numbers(file));
    std::printf("%s %zu %zu\n", name_of(file).c_str(), ours.rects.size() / 4, most_stack(ours, ours.points, 2));
}

void time_program(const char *file, char **words) {
    posix_spawn_file_actions_t actions;
    posix_spawn_file_actions_init(&actions);
    posix_spawn_file_actions_addopen(&actions, STDIN_FILENO, file, O_RDONLY, 0);
    posix_spawn_file_actions_addopen(&actions, STDOUT_FILENO, "/dev/null", O_WRONLY, 0);
    posix_spawn_file_actions_addopen(&actions, STDERR_FILENO, "/dev/null", O_WRONLY, 0);
    double best = best_of([&] {
        pid_t child;
        int status;
        if (posix_spawn(&child, words[0], &actions, nullptr, words, environ) != 0) give_up("the program cannot be started");
        if (waitpid(child, &status, 0) != child || status != 0) give_up("the program did not end well");
    });
    posix_spawn_file_actions_destroy(&actions);
    std::printf("%s %.5f\n", name_of(file).c_str(), best);
}

} // namespace

int main(int count, char **words) {
    std::string what = count > 1 ? words[1] : "";
    if (what == "program" && count > 3) {
        time_program(words[2], words + 3);
        return 0;
    }
    for (int i = 2; i < count; i++) {
        if (what == "forward") compare_forward(words[i]);
        else if (what == "refused") time_refused(words[i]);
        else if (what == "step") time_step(words[i]);
        else if (what == "backward") compare_backward(words[i]);
        else if (what == "stack") show_stack(words[i]);
        else if (what == "backstack") show_backward_stack(words[i]);
        else give_up("see the head of its source for what it does");
    }
    return 0;
}
