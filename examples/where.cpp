// where NAMES STR FUNCTION: says where a function is described.
//
// NAMES and STR are files with the sections .debug_names and .debug_str of a little-endian program, as objcopy writes them. For each
// entry of the name FUNCTION one line is written:
//
//     main: index 0x0 entry 0x6 tag 0x2e compile unit 0x0 DIE 0x2a
//
// They are the place of the index in .debug_names, the entry's handle (its offset in the entry pool), the tag, the unit, and the offset
// of the DIE from the start of that unit; all numbers are hexadecimal. The unit is one of
//
//     compile unit 0x0              its offset in .debug_info
//     local type unit 0x0           its offset in .debug_info
//     foreign type unit 0x0         its signature
//     no unit
//
// and an entry that has no DIE offset ends with "no DIE". Where there is no entry the only line is "main: not found". Both end with
// exit status 0. The other ends, each with a message on stderr:
//
//     1   the section query and the lookup by hand give different entries
//     2   a call is refused ("refused 1 UnexpectedEof 4": its number, its name, and its value in decimal), or there are not three
//         arguments, or a file cannot be read
#include "debug_names.hpp"

#include <cinttypes>
#include <cstdio>
#include <cstdlib>
#include <string>
#include <string_view>
#include <tuple>
#include <vector>

namespace {

namespace dn = debug_names;

// What is searched, and for what. The strings and the name are lent by `main`.
struct search {
    dn::section names;
    dn::bytes strings;
    std::string_view name;
    std::uint32_t hash;
};

// ---- How the program ends where something is wrong

[[noreturn]] void stop(int status, std::string_view what, std::string_view which = {}) {
    std::fflush(stdout);
    std::fprintf(stderr, "where: %.*s%.*s\n", static_cast<int>(what.size()), what.data(), static_cast<int>(which.size()), which.data());
    std::exit(status);
}

// The value that a call answers; where the call is refused the program ends.
template <class T>
T answered(const dn::result<T>& result) {
    if (result) return *result;
    const dn::refusal why = result.why();
    std::fprintf(stderr, "refused %" PRIu32 " %s %" PRIu64 "\n", why.number, why.name(), why.value);
    std::exit(2);
}

// ---- What the program is given

std::string read_file(const char* path) {
    std::string contents;
    char part[4096];
    std::FILE* file = std::fopen(path, "rb");
    if (file == nullptr) stop(2, "cannot read ", path);
    for (std::size_t got; (got = std::fread(part, 1, sizeof part, file)) != 0;) contents.append(part, got);
    if (std::ferror(file) != 0) stop(2, "cannot read ", path);
    std::fclose(file);
    return contents;
}

// The hash of a name (DWARF 5, 6.1.1.4.5 and 7.33), which the library leaves to its callers. The standard folds the case of all
// characters; folding A to Z, as here, is enough for names in ASCII.
std::uint32_t hash_of(std::string_view name) {
    std::uint32_t hash = 5381;
    for (const char byte : name) {
        std::uint32_t c = static_cast<unsigned char>(byte);
        if (c >= 'A' && c <= 'Z') c += 'a' - 'A';
        hash = hash * 33 + c;
    }
    return hash;
}

// ---- (a) The indexes of the section

// Walks over the headers, and opens the index of each. A header keeps its index, which is a small value.
std::vector<dn::header> open_all(const search& s) {
    std::vector<dn::header> all;
    for (const auto& step : s.names.headers()) {
        const dn::header header = answered(step);
        answered(header.index().open());
        all.push_back(header);
    }
    return all;
}

// ---- (b) The section query

// All records of the name. The first query, with room for none, tells how many there are.
std::vector<dn::record> find_by_query(const search& s) {
    std::vector<dn::record> found(answered(dn::query(s.names, s.strings, s.hash, s.name, {})));
    answered(dn::query(s.names, s.strings, s.hash, s.name, found));
    return found;
}

void print_unit(const dn::unit& unit) {
    switch (unit.kind) {
    case dn::unit_kind::compile: std::printf(" compile unit 0x%zx", unit.offset()->value); break;
    case dn::unit_kind::local_type: std::printf(" local type unit 0x%zx", unit.offset()->value); break;
    case dn::unit_kind::foreign_type: std::printf(" foreign type unit 0x%" PRIx64, unit.signature()->value); break;
    case dn::unit_kind::none: std::printf(" no unit"); break;
    }
}

void print_record(std::string_view name, const dn::record& r) {
    std::printf("%.*s: index 0x%" PRIx32 " entry 0x%zx tag 0x%x", static_cast<int>(name.size()), name.data(), r.index_offset,
        dn::entry_of(r).value, static_cast<unsigned>(r.tag));
    print_unit(dn::unit_of(r));
    if (const auto die = dn::die_offset_of(r)) std::printf(" DIE 0x%zx\n", die->value);
    else std::printf(" no DIE\n");
}

void print_records(std::string_view name, const std::vector<dn::record>& found) {
    if (found.empty()) std::printf("%.*s: not found\n", static_cast<int>(name.size()), name.data());
    for (const dn::record& r : found) print_record(name, r);
}

// ---- (c) The same by hand, call by call

// The unit of an entry: the type unit that it names, else the compile unit that it names, else the only compile unit of its index, else
// none. What comes later in this order is not asked for, so that its refusal does not matter.
dn::unit unit_of(const dn::index& index, const dn::entry& entry) {
    const dn::unit type = answered(entry.type_unit());
    if (type.kind != dn::unit_kind::none) return type;
    const dn::unit compile = answered(entry.compile_unit());
    if (compile.kind != dn::unit_kind::none) return compile;
    return answered(index.default_compile_unit());
}

// The record that the query has to give for an entry.
dn::record record_of(const dn::header& in, dn::name_index name, const dn::entry& entry) {
    const dn::unit unit = unit_of(in.index(), entry);
    const auto die = answered(entry.die_offset());
    dn::record record{};
    record.unit_value = unit.value;
    record.die_offset = die.value_or(dn::unit_offset(0)).value;
    record.index_offset = static_cast<std::uint32_t>(in.place());
    record.entry_offset = static_cast<std::uint32_t>(entry.offset().value);
    record.name = name.value;
    record.tag = static_cast<std::uint16_t>(entry.tag());
    record.unit_kind = static_cast<std::uint8_t>(unit.kind);
    record.has_die_offset = die.has_value();
    return record;
}

// Adds a record for each entry of a name, if its string is the one that is looked for.
void add_name(const search& s, const dn::header& in, dn::name_index name, std::vector<dn::record>& found) {
    if (answered(in.index().name_string(s.strings, name)) != s.name) return;
    for (const auto& entry : in.index().entries(name)) found.push_back(record_of(in, name, answered(entry)));
}

// The names of an index that store the hash; where the index has no hash table, all names.
void add_index(const search& s, const dn::header& in, std::vector<dn::record>& found) {
    if (answered(in.index().has_hash_table())) {
        for (const auto& name : in.index().find_by_hash(s.hash)) add_name(s, in, answered(name), found);
    } else {
        for (const auto& name : in.index().names()) add_name(s, in, answered(name), found);
    }
}

std::vector<dn::record> find_by_hand(const search& s, const std::vector<dn::header>& all) {
    std::vector<dn::record> found;
    for (const dn::header& in : all) add_index(s, in, found);
    return found;
}

auto fields_of(const dn::record& r) {
    return std::make_tuple(
        r.unit_value, r.die_offset, r.index_offset, r.entry_offset, r.name, r.tag, r.unit_kind, r.has_die_offset);
}

bool same(const std::vector<dn::record>& a, const std::vector<dn::record>& b) {
    if (a.size() != b.size()) return false;
    for (std::size_t i = 0; i < a.size(); i++)
        if (fields_of(a[i]) != fields_of(b[i])) return false;
    return true;
}

} // namespace

int main(int argc, char** argv) {
    if (argc != 4) stop(2, "give three arguments: where NAMES STR FUNCTION");
    const std::string names = read_file(argv[1]);
    const std::string strings = read_file(argv[2]);
    const search s{dn::section(dn::byte_order::little, names), strings, argv[3], hash_of(argv[3])};
    const std::vector<dn::header> all = open_all(s);
    const std::vector<dn::record> found = find_by_query(s);
    print_records(s.name, found);
    if (!same(found, find_by_hand(s, all))) stop(1, "the lookup by hand finds other entries than the query: ", s.name);
    return 0;
}
