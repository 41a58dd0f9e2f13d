// check NAMES STR: says whether lookups by hash list every name of a program, and names the first one that they miss.
//
// NAMES and STR are files with the sections .debug_names and .debug_str of a little-endian program, as objcopy writes them. For each
// index one line is written, with its place in .debug_names, and it is one of
//
//     index 0x0: complete
//     index 0x0: no hash table
//     index 0x0: 2 names missed, the first is name 1 hash 0x7 "de"
//
// The last has how many names are missed, and of the one with the smallest number that number, the hash that is stored for it, and its
// string; where that cannot be read, why stands in its place: refused 1 UnexpectedEof 4. The exit status is
//
//     0   where every index is complete or has no hash table
//     1   where names of an index are missed
//     2   with a message on stderr: a call is refused, which ends the program ("refused 1 UnexpectedEof 4": its number, its name, and
//         its value in decimal), or there are not two arguments, or a file cannot be read
#include "debug_names.hpp"

#include <cinttypes>
#include <cstdio>
#include <cstdlib>
#include <string>

namespace {

namespace dn = debug_names;

[[noreturn]] void stop(const char* what, const char* which = "") {
    std::fprintf(stderr, "check: %s%s\n", what, which);
    std::exit(2);
}

void print_refusal(std::FILE* out, dn::refusal why) {
    std::fprintf(out, "refused %" PRIu32 " %s %" PRIu64 "\n", why.number, why.name(), why.value);
}

// The value that a call answers; where the call is refused the program ends.
template <class T>
T answered(const dn::result<T>& result) {
    if (result) return *result;
    print_refusal(stderr, result.why());
    std::exit(2);
}

std::string read_file(const char* path) {
    std::string contents;
    char part[4096];
    std::FILE* file = std::fopen(path, "rb");
    if (file == nullptr) stop("cannot read ", path);
    for (std::size_t got; (got = std::fread(part, 1, sizeof part, file)) != 0;) contents.append(part, got);
    if (std::ferror(file) != 0) stop("cannot read ", path);
    std::fclose(file);
    return contents;
}

void print_lost(const dn::lost_name& lost) {
    std::printf("%" PRIu64 " %s missed, the first is name %" PRIu32 " hash 0x%" PRIx32 " ", lost.missed,
        lost.missed == 1 ? "name" : "names", lost.name.value, lost.hash);
    if (lost.string) std::printf("\"%.*s\"\n", static_cast<int>(lost.string->size()), lost.string->data());
    else print_refusal(stdout, lost.string.why());
}

// Writes the line of an index, and says whether no name is missed.
bool check(const dn::header& header, dn::bytes strings) {
    const dn::index index = answered(header.index().open());
    const auto lost = answered(index.lost_name(strings));
    std::printf("index 0x%zx: ", header.place());
    if (lost) print_lost(*lost);
    else std::puts(answered(index.has_hash_table()) ? "complete" : "no hash table");
    return !lost;
}

} // namespace

int main(int argc, char** argv) {
    if (argc != 3) stop("give two arguments: check NAMES STR");
    const std::string names = read_file(argv[1]);
    const std::string strings = read_file(argv[2]);
    const dn::section section(dn::byte_order::little, names);
    int status = 0;
    for (const auto& header : section.headers())
        if (!check(answered(header), strings)) status = 1;
    return status;
}
