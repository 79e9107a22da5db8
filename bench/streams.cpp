// Times the reading of GDSII streams, through Panbuckle's C face.
//
//   streams read STRUCTURE LAYER FILE...   the boundaries of that structure on that layer: the call alone; the file's bytes got and the call;
//                                          and a loop that only goes from record to record by their lengths
//   streams areas STRUCTURE LAYER FILE...  the call beside forward on the corners that it gives, with no room for the list, so that it counts
//   streams stack STRUCTURE LAYER FILE...  how many bytes of stack the call uses
//
// Each line printed has the name, the sizes, and the best time of many, in milliseconds (timing.hpp), or the bytes.
#include "stack.hpp"
#include "timing.hpp"

#include <panbuckle.h>

#include <cinttypes>
#include <cstdio>
#include <cstring>
#include <string>
#include <vector>

namespace {

constexpr size_t MOST_NUMBERS = 2 * PANBUCKLE_MOST_POINTS;

[[noreturn]] void give_up(const std::string &why) {
    std::fprintf(stderr, "streams: %s\n", why.c_str());
    std::exit(1);
}

std::string name_of(const std::string &file) {
    std::string name = file.substr(file.find_last_of('/') + 1);
    return name.substr(0, name.find('.'));
}

// What is read of a file, and where to.
struct Reading {
    std::string file, structure;
    int32_t layer;
    std::vector<uint8_t> bytes;
    std::vector<int32_t> scratch, corners;
    uint64_t result[3];

    Reading(const char *file, const char *structure, const char *layer)
        : file(file), structure(structure), layer(std::atoi(layer)), scratch(MOST_NUMBERS), corners(MOST_NUMBERS) {
        load();
        read();
        if (result[PANBUCKLE_ANSWER] != PANBUCKLE_DONE) give_up(this->file + " is refused");
    }

    // The file's bytes, into an array that is kept.
    void load() {
        FILE *in = std::fopen(file.c_str(), "rb");
        if (!in || std::fseek(in, 0, SEEK_END) != 0) give_up(file + " cannot be read");
        bytes.resize(std::ftell(in));
        std::rewind(in);
        if (std::fread(bytes.data(), 1, bytes.size(), in) != bytes.size()) give_up(file + " is not read whole");
        std::fclose(in);
    }

    void read() {
        panbuckle_read_gdsii(bytes.data(), bytes.size(), reinterpret_cast<const uint8_t *>(structure.data()), structure.size(), layer,
                             scratch.data(), corners.data(), corners.size(), result);
    }
};

// How many records the bytes are, by their lengths alone.
size_t records_of(const std::vector<uint8_t> &bytes) {
    size_t count = 0;
    for (size_t at = 0; at + 4 <= bytes.size();) {
        size_t length = 256 * size_t(bytes[at]) + bytes[at + 1];
        if (length < 4) break;
        at += length;
        count++;
    }
    return count;
}

void time_read(Reading &ours) {
    size_t records = 0;
    auto [call, hops] = best_of([&] { ours.read(); }, [&] { records = records_of(ours.bytes); });
    double whole = best_of([&] { ours.load(), ours.read(); });
    std::printf("%s %zu %zu %" PRIu64 " %.5f %.5f %.5f\n", name_of(ours.file).c_str(), ours.bytes.size(), records, ours.result[PANBUCKLE_COUNT], call, whole, hops);
}

void time_areas(Reading &ours) {
    std::vector<int32_t> work(MOST_NUMBERS);
    uint64_t counted[5], corners = ours.result[PANBUCKLE_COUNT];
    auto [call, forward] = best_of([&] { ours.read(); }, [&] { panbuckle_forward(ours.corners.data(), 2 * corners, work.data(), work.size(), nullptr, 0, counted); });
    if (counted[PANBUCKLE_ANSWER] != PANBUCKLE_ROOM) give_up(ours.file + ": forward does not ask for room");
    std::printf("%s %" PRIu64 " %" PRIu64 " %.5f %.5f\n", name_of(ours.file).c_str(), corners, counted[PANBUCKLE_PLACE], call, forward);
}

void show_stack(Reading &ours) {
    size_t stack = stack_of([&] { ours.read(); });
    std::printf("%s %" PRIu64 " %zu\n", name_of(ours.file).c_str(), ours.result[PANBUCKLE_COUNT], stack);
}

} // namespace

int main(int count, char **words) {
    std::string what = count > 4 ? words[1] : "";
    if (what != "read" && what != "areas" && what != "stack") give_up("see the head of its source for what it does");
    for (int i = 4; i < count; i++) {
        Reading ours(words[i], words[2], words[3]);
        (what == "read" ? time_read : what == "areas" ? time_areas : show_stack)(ours);
    }
    return 0;
}
