// Builds a minimal perfect hash function by bbhash over the lines of a file, and says how long that took.
//   bbhash KEYS GAMMA
// The keys stand in memory before the clock starts, one after another, each seen through a string_view; their hashing counts.
// It prints nanoseconds of processor time a key, and bits a key.
#include <BooPHF.h>

#include <cstdio>
#include <cstdlib>
#include <ctime>
#include <fstream>
#include <functional>
#include <iterator>
#include <string>
#include <string_view>
#include <vector>

// libstdc++'s hash of bytes (MurmurHash64A), with the seed that bbhash asks for.
struct Hasher {
    uint64_t operator()(std::string_view key, uint64_t seed = 0) const { return std::_Hash_bytes(key.data(), key.size(), seed); }
};

using Function = boomphf::mphf<std::string_view, Hasher>;

static double seconds() {
    timespec now;
    clock_gettime(CLOCK_PROCESS_CPUTIME_ID, &now);
    return now.tv_sec + now.tv_nsec / 1e9;
}

int main(int argc, char** argv) {
    if (argc != 3) {
        std::fputs("usage: bbhash KEYS GAMMA\n", stderr);
        return 2;
    }
    std::ifstream file(argv[1], std::ios::binary);
    const std::string text{std::istreambuf_iterator<char>(file), {}};
    std::vector<std::string_view> keys;
    for (size_t at = 0; at < text.size();) {
        size_t end = text.find('\n', at);
        if (end == std::string::npos) end = text.size();
        keys.emplace_back(text.data() + at, end - at);
        at = end + 1;
    }
    const bool to_files = false, shows_progress = false;
    const double start = seconds();
    Function function(keys.size(), keys, 1, std::atof(argv[2]), to_files, shows_progress);
    const double taken = seconds() - start;
    std::vector<bool> answered(keys.size());
    for (std::string_view key : keys) {
        const uint64_t number = function.lookup(key);
        if (number >= keys.size() || answered[number]) {
            std::fputs("two keys have one number\n", stderr);
            return 1;
        }
        answered[number] = true;
    }
    std::printf("%.1f %.2f\n", 1e9 * taken / keys.size(), double(function.totalBitSize()) / keys.size());
    return 0;
}
