// The proved reader of .debug_names, for C++17 and later: a thin wrapper of debug_names.h, which says more of each call.
//
// Spans in, values out. Nothing is thrown and nothing is allocated. The caller's bytes are lent: a `section`, an `index`, a range and a
// string that is answered point into them, and are of use as long as they stand.
//
// A call answers or refuses, and says so by its `result`. Of the refusals, two can come from any call and are not named again below:
// 13 (a section has more than 2,147,483,647 bytes) and 14 (an index or a cursor does not fit its section). An index that `headers`
// answered, over the same bytes, is never refused with 14 once `open` has taken it.
//
// The number of a name, the handle of an entry, the offset of a string, a unit or a DIE, and the signature of a type unit have types of their
// own, which do not mix. Places in .debug_names, counts, hashes and the numbers of units and buckets are plain numbers.
#ifndef DEBUG_NAMES_HPP
#define DEBUG_NAMES_HPP

#include "debug_names.h"

#include <cstddef>
#include <cstdint>
#include <iterator>
#include <optional>
#include <string_view>
#include <type_traits>
#include <utility>

namespace debug_names {

// ---- Numbers that do not mix

// A number under a name of its own: it is made only where that name is spelled out, as in name_index(5), and is compared with its own kind
// alone. `value` is the plain number.
template <class Name, class Number>
struct named_number {
    using value_type = Number;

    Number value = 0;

    constexpr named_number() noexcept = default;
    constexpr explicit named_number(Number number) noexcept : value(number) {}

    friend constexpr bool operator==(named_number a, named_number b) noexcept { return a.value == b.value; }
    friend constexpr bool operator!=(named_number a, named_number b) noexcept { return a.value != b.value; }
    friend constexpr bool operator<(named_number a, named_number b) noexcept { return a.value < b.value; }
};

// The number of a name in its index, counted from 0.
using name_index = named_number<struct name_index_name, debug_names_name_index>;
// The handle of an entry: its offset from the start of the entry pool of its index.
using entry_offset = named_number<struct entry_offset_name, debug_names_entry_offset>;
// An offset in .debug_str, where a string begins.
using str_offset = named_number<struct str_offset_name, debug_names_str_offset>;
// An offset in .debug_info, where a unit begins.
using info_offset = named_number<struct info_offset_name, debug_names_info_offset>;
// The offset of a DIE from the start of its unit.
using unit_offset = named_number<struct unit_offset_name, debug_names_unit_offset>;
// The signature of a type unit.
using type_signature = named_number<struct type_signature_name, debug_names_type_signature>;

// ---- What a call answers

// Why a call said no: the refusal's number, 1 to 14, and the one value that the refusal carries (0 where it carries none).
struct refusal {
    std::uint32_t number = 0;
    std::uint64_t value = 0;

    // gimli's name of the refusal, such as "UnexpectedEof"; 13 and 14, which gimli does not have, are named in the same manner. Empty
    // for any other number.
    const char* name() const noexcept { return debug_names_status_name(number); }
};

// A value, or the refusal. True where there is a value.
template <class T>
class result {
public:
    constexpr result() noexcept = default;
    constexpr result(T value) noexcept : value_(value) {}
    constexpr result(refusal why) noexcept : why_(why) {}

    constexpr explicit operator bool() const noexcept { return why_.number == 0; }

    // The value; where the call was refused it is T{}, which says nothing.
    constexpr const T& value() const noexcept { return value_; }
    constexpr const T& operator*() const noexcept { return value_; }
    constexpr const T* operator->() const noexcept { return &value_; }

    // The refusal; its number is 0 where there is a value.
    constexpr refusal why() const noexcept { return why_; }

private:
    T value_{};
    refusal why_{};
};

// ---- What is lent

namespace detail {

// What stands in for the address of no bytes.
inline constexpr std::uint8_t no_byte = 0;

// The pointer that data() of a container gives; size() must be there, too.
template <class Container, class = decltype(std::declval<Container&>().size())>
using data_of = decltype(std::declval<Container&>().data());

template <class Container>
using if_bytes = std::enable_if_t<sizeof(*std::declval<data_of<const Container>>()) == 1>;

} // namespace detail

// Lent bytes: a section, or a name. They are not copied. The pointer must be valid for the length; null with the length 0 is no bytes.
class bytes {
public:
    constexpr bytes() noexcept = default;
    constexpr bytes(const std::uint8_t* data, std::size_t size) noexcept
        : data_(data == nullptr && size == 0 ? &detail::no_byte : data), size_(size) {}

    // The contents of whatever has data() and size() and elements of one byte: std::string_view, std::vector, std::array, std::span.
    template <class Container, class = detail::if_bytes<Container>>
    bytes(const Container& container) noexcept
        : bytes(reinterpret_cast<const std::uint8_t*>(container.data()), container.size()) {}

    // The first byte; never null where the length is 0.
    constexpr const std::uint8_t* data() const noexcept { return data_; }
    constexpr std::size_t size() const noexcept { return size_; }

    // `size` of these bytes from `start` on, as text. Both must lie inside.
    std::string_view text(std::size_t start, std::size_t size) const noexcept {
        return {reinterpret_cast<const char*>(data_) + start, size};
    }

private:
    const std::uint8_t* data_ = &detail::no_byte;
    std::size_t size_ = 0;
};

// A record of the section query: a struct of plain numbers, which C shares; debug_names.h says what its fields are. `name_of` and those
// beside it give its numbers under their names.
using record = debug_names_record;

// Lent records, which the section query writes.
class records {
public:
    constexpr records() noexcept = default;
    constexpr records(record* data, std::size_t size) noexcept : data_(data), size_(size) {}

    template <std::size_t N>
    constexpr records(record (&array)[N]) noexcept : data_(array), size_(N) {}

    // The contents of whatever has data() and size() and holds records: std::vector, std::array, std::span.
    template <class Container, class = std::enable_if_t<std::is_convertible_v<detail::data_of<Container>, record*>>>
    constexpr records(Container&& container) noexcept : data_(container.data()), size_(container.size()) {}

    constexpr record* data() const noexcept { return data_; }
    constexpr std::size_t size() const noexcept { return size_; }

private:
    record* data_ = nullptr;
    std::size_t size_ = 0;
};

// ---- What is told of units, parents and tables

enum class unit_kind : std::uint32_t {
    none = DEBUG_NAMES_NO_UNIT,
    compile = DEBUG_NAMES_COMPILE_UNIT,
    local_type = DEBUG_NAMES_LOCAL_TYPE_UNIT,
    foreign_type = DEBUG_NAMES_FOREIGN_TYPE_UNIT,
};

// A unit: the value is its offset in .debug_info, and of a foreign type unit its signature; 0 where there is no unit. `offset` and
// `signature` give it under its name.
struct unit {
    unit_kind kind = unit_kind::none;
    std::uint64_t value = 0;

    // Where a compile unit or a local type unit begins; none for any other kind.
    constexpr std::optional<info_offset> offset() const noexcept {
        if (kind != unit_kind::compile && kind != unit_kind::local_type) return std::nullopt;
        return info_offset(static_cast<info_offset::value_type>(value));
    }
    // The signature of a foreign type unit; none for any other kind.
    constexpr std::optional<type_signature> signature() const noexcept {
        if (kind != unit_kind::foreign_type) return std::nullopt;
        return type_signature(value);
    }
};

enum class parent_kind : std::uint32_t {
    not_known = DEBUG_NAMES_PARENT_NOT_KNOWN, // the entry does not say
    entry = DEBUG_NAMES_PARENT_ENTRY,
    none = DEBUG_NAMES_NO_PARENT, // it has none in the index
};

// What is known of an entry's parent; the offset is the handle of the parent where that is an entry, else 0.
struct parent {
    parent_kind kind = parent_kind::not_known;
    entry_offset offset{};
};

enum class table_kind : std::uint32_t {
    none = DEBUG_NAMES_NO_TABLE,
    complete = DEBUG_NAMES_COMPLETE, // a lookup by hash lists every name
    incomplete = DEBUG_NAMES_INCOMPLETE,
};

// What the table check says: `missed` is the number of names that lookups by hash do not list, `name` the smallest of their numbers, and
// `hash` the hash that is stored for that name. All three are 0 where no name is missed.
struct table {
    table_kind kind = table_kind::none;
    std::uint64_t missed = 0;
    name_index name{};
    std::uint32_t hash = 0;
};

// The same with the string of that name, or why it cannot be read.
struct lost_name {
    std::uint64_t missed = 0;
    name_index name{};
    std::uint32_t hash = 0;
    result<std::string_view> string{};
};

// A name of a bucket: its number, and the hash that is stored for it.
struct bucket_name {
    name_index number{};
    std::uint32_t hash = 0;
};

namespace detail {

// The refusal of any answer of debug_names.h.
template <class Answer>
constexpr refusal why(const Answer& answer) noexcept {
    return {answer.status, answer.value};
}

// The value of an answer: a plain number, or one under a name.
template <class Number>
constexpr Number number_of(std::uint64_t value) noexcept {
    if constexpr (std::is_integral_v<Number>) return value;
    else return Number(static_cast<typename Number::value_type>(value));
}

template <class Number = std::uint64_t>
constexpr result<Number> number(const debug_names_answer& answer) noexcept {
    if (answer.status != DEBUG_NAMES_OK) return why(answer);
    return number_of<Number>(answer.value);
}

template <class Number = std::uint64_t>
constexpr result<std::optional<Number>> number_or_none(const debug_names_answer& answer) noexcept {
    if (answer.status != DEBUG_NAMES_OK) return why(answer);
    if (answer.kind == DEBUG_NAMES_NONE) return std::optional<Number>();
    return std::optional<Number>(number_of<Number>(answer.value));
}

constexpr result<unit> unit_of(const debug_names_answer& answer) noexcept {
    if (answer.status != DEBUG_NAMES_OK) return why(answer);
    return unit{static_cast<unit_kind>(answer.kind), answer.value};
}

constexpr result<parent> parent_of(const debug_names_answer& answer) noexcept {
    if (answer.status != DEBUG_NAMES_OK) return why(answer);
    return parent{static_cast<parent_kind>(answer.kind), number_of<entry_offset>(answer.value)};
}

inline result<std::string_view> string_in(bytes strings, const debug_names_string& found) noexcept {
    if (found.status != DEBUG_NAMES_OK) return why(found);
    return strings.text(static_cast<std::size_t>(found.value), found.len);
}

// Each walk below has `next`, which takes one step: it is false at the end, else `out` is what the step answered, a refusal included.
class header_walk;
class name_walk;
class bucket_walk;
class hash_walk;
class entry_walk;

} // namespace detail

// ---- Ranges

// The steps of a lookup, for a range-based for. Each element is a result; after a refusal, which is then the last element, it ends. A
// range can be gone through again, and then takes the same steps.
template <class Walk>
class steps {
public:
    class iterator {
    public:
        using iterator_category = std::input_iterator_tag;
        using value_type = result<typename Walk::item>;
        using difference_type = std::ptrdiff_t;
        using pointer = const value_type*;
        using reference = const value_type&;

        // The end.
        iterator() noexcept = default;
        explicit iterator(const Walk& walk) noexcept : walk_(walk), done_(false) { ++*this; }

        reference operator*() const noexcept { return current_; }
        pointer operator->() const noexcept { return &current_; }
        iterator& operator++() noexcept {
            done_ = !current_ || !walk_.next(current_);
            return *this;
        }
        iterator operator++(int) noexcept {
            iterator before = *this;
            ++*this;
            return before;
        }

        // Two iterators of a range are told apart only by whether they are at the end.
        friend bool operator==(const iterator& a, const iterator& b) noexcept { return a.done_ == b.done_; }
        friend bool operator!=(const iterator& a, const iterator& b) noexcept { return !(a == b); }

    private:
        Walk walk_{};
        value_type current_{};
        bool done_ = true;
    };

    explicit steps(const Walk& walk) noexcept : walk_(walk) {}
    iterator begin() const noexcept { return iterator(walk_); }
    iterator end() const noexcept { return iterator(); }

private:
    Walk walk_;
};

// ---- Sections and indexes

enum class byte_order : std::uint32_t { little = DEBUG_NAMES_LITTLE_ENDIAN, big = DEBUG_NAMES_BIG_ENDIAN };

// A .debug_names section: its byte order and its bytes.
class section {
public:
    constexpr section() noexcept = default;
    constexpr section(byte_order order, bytes names) noexcept : order_(order), bytes_(names) {}

    // The headers, one after another, as a range of result<header>. Refused with 1 where a header, or the index that it describes,
    // runs past the section's end; with 2 at a length that DWARF 5 reserves; with 3 at a version that is not 5.
    inline steps<detail::header_walk> headers() const noexcept;

    constexpr byte_order order() const noexcept { return order_; }
    constexpr bytes contents() const noexcept { return bytes_; }

    // Asks a function of debug_names.h that is given the byte order and the section, and more.
    template <class Call, class... More>
    auto ask(Call call, More... more) const noexcept {
        return call(static_cast<std::uint32_t>(order_), bytes_.data(), bytes_.size(), more...);
    }

private:
    byte_order order_ = byte_order::little;
    bytes bytes_{};
};

// An entry: where the function or type of a name is described.
class entry {
public:
    constexpr entry() noexcept = default;
    constexpr explicit entry(const debug_names_entry& read) noexcept : read_(read) {}

    // Its handle: its offset in the entry pool of its index.
    constexpr entry_offset offset() const noexcept { return detail::number_of<entry_offset>(read_.value); }
    constexpr std::uint64_t abbrev_code() const noexcept { return read_.abbrev_code; }
    // Its DW_TAG.
    constexpr std::uint32_t tag() const noexcept { return read_.tag; }

    // The compile unit that the entry names; the kind is none where it names none. Refused with 12 where the attribute has a wrong
    // form, with 11 at a number above 4,294,967,295, and with 1 where the index has no unit of that number.
    constexpr result<unit> compile_unit() const noexcept { return detail::unit_of(read_.facts.compile_unit); }
    // The type unit that the entry names, local or foreign; else as `compile_unit`.
    constexpr result<unit> type_unit() const noexcept { return detail::unit_of(read_.facts.type_unit); }
    // The offset of the DIE, from the start of its unit; none where the entry does not say. Refused with 12 at a wrong form.
    constexpr result<std::optional<unit_offset>> die_offset() const noexcept {
        return detail::number_or_none<unit_offset>(read_.facts.die_offset);
    }
    // What is known of the parent. Refused with 12 at a wrong form.
    constexpr result<debug_names::parent> parent() const noexcept { return detail::parent_of(read_.facts.parent); }
    // The hash of the type; none where the entry does not say. Refused with 12 at a wrong form.
    constexpr result<std::optional<std::uint64_t>> type_hash() const noexcept {
        return detail::number_or_none(read_.facts.type_hash);
    }

private:
    debug_names_entry read_{};
};

// An index of a section: a handle, which can be copied and kept. The calls refuse with 14 where it does not fit the section.
class index {
public:
    constexpr index() noexcept = default;
    constexpr index(section names, const debug_names_index& handle) noexcept : section_(names), handle_(handle) {}

    constexpr section in() const noexcept { return section_; }
    constexpr const debug_names_index& handle() const noexcept { return handle_; }

    // Asks a function of debug_names.h that is given the byte order, the section and the index, and more.
    template <class Call, class... More>
    auto ask(Call call, More... more) const noexcept {
        return section_.ask(call, handle_, more...);
    }

    // The same index, once its parts and its abbreviation table are checked. Refused with 1 where a part runs past the index's end, and
    // with 1, 4, 5, 6 or 7 at a bad declaration in the table.
    result<index> open() const noexcept {
        const debug_names_answer answer = ask_bytes(debug_names_open);
        if (answer.status != DEBUG_NAMES_OK) return detail::why(answer);
        return *this;
    }

    // ---- Counts

    result<std::uint64_t> compile_unit_count() const noexcept { return count(debug_names_compile_unit_count); }
    result<std::uint64_t> local_type_unit_count() const noexcept { return count(debug_names_local_type_unit_count); }
    result<std::uint64_t> foreign_type_unit_count() const noexcept { return count(debug_names_foreign_type_unit_count); }
    // Local and foreign ones.
    result<std::uint64_t> type_unit_count() const noexcept { return count(debug_names_type_unit_count); }
    result<std::uint64_t> bucket_count() const noexcept { return count(debug_names_bucket_count); }
    result<std::uint64_t> name_count() const noexcept { return count(debug_names_name_count); }
    // Whether the index has a hash table, so that names can be looked up by hash.
    result<bool> has_hash_table() const noexcept {
        const debug_names_answer answer = ask_bytes(debug_names_has_hash_table);
        if (answer.status != DEBUG_NAMES_OK) return detail::why(answer);
        return answer.value != 0;
    }

    // ---- Units, by number: refused with 1 at a number that is not below the count

    result<unit> compile_unit(std::uint32_t number) const noexcept { return detail::unit_of(ask(debug_names_compile_unit, number)); }
    result<unit> local_type_unit(std::uint32_t number) const noexcept {
        return detail::unit_of(ask(debug_names_local_type_unit, number));
    }
    result<unit> foreign_type_unit(std::uint32_t number) const noexcept {
        return detail::unit_of(ask(debug_names_foreign_type_unit, number));
    }
    // Local numbers first, then foreign ones.
    result<unit> type_unit(std::uint32_t number) const noexcept { return detail::unit_of(ask(debug_names_type_unit, number)); }
    // The only compile unit of the index; the kind is none where there is none, or more than one.
    result<unit> default_compile_unit() const noexcept { return detail::unit_of(ask(debug_names_default_compile_unit)); }

    // ---- Names, by number

    // The numbers of all names, in order, as a range of result<name_index>.
    inline steps<detail::name_walk> names() const noexcept;
    // The offset of the name's string in .debug_str. Refused with 1 at a number that is not below the number of names.
    result<str_offset> name_string_offset(name_index name) const noexcept {
        return detail::number<str_offset>(ask(debug_names_name_string_offset, name.value));
    }
    // The name's string: the caller's own bytes of .debug_str, without the zero byte. Refused as `name_string_offset` is, and with 1
    // where no string that ends with a zero byte stands at the offset.
    result<std::string_view> name_string(bytes strings, name_index name) const noexcept {
        return detail::string_in(strings, section_.ask(debug_names_name_string, strings.data(), strings.size(), handle_, name.value));
    }

    // ---- The hash table

    // The names of a bucket, as a range of result<bucket_name>. Refused with 1 at a bucket that is not below the number of buckets, and
    // where the bucket starts more than one past the last name.
    inline steps<detail::bucket_walk> find_by_bucket(std::uint32_t bucket) const noexcept;
    // The numbers of the names for which the hash is stored, as a range of result<name_index>. Names of the same hash may have other
    // strings: compare these. Refused as `find_by_bucket` is for the hash's bucket; so with 1 where there is no hash table.
    inline steps<detail::hash_walk> find_by_hash(std::uint32_t hash) const noexcept;
    // Whether lookups by hash list every name. Refused with 1 where a bucket starts more than one past the last name.
    result<table> check_table() const noexcept {
        const debug_names_table said = ask(debug_names_check_table);
        if (said.status != DEBUG_NAMES_OK) return detail::why(said);
        return table{static_cast<table_kind>(said.kind), said.value, name_index(said.name), said.hash};
    }
    // What `check_table` finds, for a person to start from: the missed name of the smallest number, with its string; none where the table is
    // complete, and where there is no table. Refused as `check_table` is. A string that cannot be read is a refusal inside, so that number
    // and hash are told all the same.
    result<std::optional<debug_names::lost_name>> lost_name(bytes strings) const noexcept {
        const result<table> check = check_table();
        if (!check) return check.why();
        std::optional<debug_names::lost_name> lost;
        if (check->kind == table_kind::incomplete)
            lost = {check->missed, check->name, check->hash, name_string(strings, check->name)};
        return lost;
    }

    // ---- Entries

    // The entries of a name, one after another, as a range of result<entry>. Refused with 1 at a number that is not below the number of
    // names, and where an entry runs past the pool's end; with 8 at a code that is not declared; with 9 at a form that is not known;
    // with 4, 5, 6 or 7 at a bad declaration or number.
    inline steps<detail::entry_walk> entries(name_index name) const noexcept;
    // The entry with a handle. Refused as an entry of `entries` is, with 10 where a series ends at the offset, and with 1 at the pool's
    // end or past it.
    result<debug_names::entry> entry(entry_offset offset) const noexcept {
        const debug_names_entry read = ask(debug_names_name_entry, offset.value);
        if (read.status != DEBUG_NAMES_OK) return detail::why(read);
        return debug_names::entry(read);
    }

private:
    // Asks a function that is given the section and the index alone.
    template <class Call>
    debug_names_answer ask_bytes(Call call) const noexcept {
        return call(section_.contents().data(), section_.contents().size(), handle_);
    }

    template <class Call>
    result<std::uint64_t> count(Call call) const noexcept {
        return detail::number(ask_bytes(call));
    }

    section section_{};
    debug_names_index handle_{};
};

// What else a header says: the length field, the version, and the augmentation string, which is empty where there is none.
struct header_fields {
    std::uint64_t length = 0;
    std::uint32_t version = 0;
    std::string_view augmentation{};
};

// A header: its place in the section, and the index that it describes.
class header {
public:
    constexpr header() noexcept = default;
    constexpr header(section names, const debug_names_header_step& step) noexcept
        : index_(names, step.index), place_(static_cast<std::size_t>(step.value)) {}

    constexpr std::size_t place() const noexcept { return place_; }
    // The index, not yet opened.
    constexpr const debug_names::index& index() const noexcept { return index_; }
    // What else the header says. Refused as the step that answered the header is; so never for a header of `headers`.
    result<header_fields> fields() const noexcept {
        const debug_names_header said = index_.in().ask(debug_names_header_at, place_);
        if (said.status != DEBUG_NAMES_OK) return detail::why(said);
        return header_fields{said.value, said.version, index_.in().contents().text(said.augmentation, said.augmentation_len)};
    }

private:
    debug_names::index index_{};
    std::size_t place_ = 0;
};

// ---- The steps of the ranges

namespace detail {

class header_walk {
public:
    using item = header;

    header_walk() noexcept = default;
    explicit header_walk(section names) noexcept : section_(names) {}

    bool next(result<item>& out) noexcept {
        const debug_names_header_step step = section_.ask(debug_names_next_header, at_);
        at_ = step.next;
        if (step.status != DEBUG_NAMES_OK) out = why(step);
        else out = header(section_, step);
        return step.status != DEBUG_NAMES_OK || step.kind != DEBUG_NAMES_NONE;
    }

private:
    section section_{};
    std::size_t at_ = 0;
};

class name_walk {
public:
    using item = name_index;

    name_walk() noexcept = default;
    explicit name_walk(const index& in) noexcept : count_(in.name_count()) {}

    bool next(result<item>& out) noexcept {
        if (!count_) {
            out = count_.why();
            return true;
        }
        out = number_of<item>(at_);
        return at_++ < *count_;
    }

private:
    result<std::uint64_t> count_{};
    std::uint64_t at_ = 0;
};

// The three walks below hold their last step, which at first is the lookup's own answer: where that was refused or is an end, so is the
// first step.
class bucket_walk {
public:
    using item = bucket_name;

    bucket_walk() noexcept = default;
    bucket_walk(const index& in, std::uint32_t bucket) noexcept : index_(in), bucket_(bucket) {
        const debug_names_answer found = in.ask(debug_names_find_by_bucket, bucket);
        last_.status = found.status;
        last_.kind = found.kind;
        last_.value = found.value;
        last_.next = static_cast<debug_names_name_index>(found.value);
    }

    bool next(result<item>& out) noexcept {
        if (last_.status == DEBUG_NAMES_OK && last_.kind != DEBUG_NAMES_NONE)
            last_ = index_.ask(debug_names_next_in_bucket, bucket_, last_.next);
        if (last_.status != DEBUG_NAMES_OK) out = why(last_);
        else out = item{number_of<name_index>(last_.value), last_.hash};
        return last_.status != DEBUG_NAMES_OK || last_.kind != DEBUG_NAMES_NONE;
    }

private:
    index index_{};
    std::uint32_t bucket_ = 0;
    debug_names_bucket_step last_{};
};

class hash_walk {
public:
    using item = name_index;

    hash_walk() noexcept = default;
    hash_walk(const index& in, std::uint32_t hash) noexcept : index_(in), last_(in.ask(debug_names_find_by_hash, hash)) {}

    bool next(result<item>& out) noexcept {
        if (last_.status == DEBUG_NAMES_OK && last_.kind != DEBUG_NAMES_NONE)
            last_ = index_.ask(debug_names_next_by_hash, last_.next);
        if (last_.status != DEBUG_NAMES_OK) out = why(last_);
        else out = number_of<item>(last_.value);
        return last_.status != DEBUG_NAMES_OK || last_.kind != DEBUG_NAMES_NONE;
    }

private:
    index index_{};
    debug_names_hash_step last_{};
};

class entry_walk {
public:
    using item = entry;

    entry_walk() noexcept = default;
    entry_walk(const index& in, name_index name) noexcept : index_(in) {
        const debug_names_answer found = in.ask(debug_names_name_entries, name.value);
        last_.status = found.status;
        last_.kind = found.kind;
        last_.value = found.value;
        last_.next = static_cast<std::size_t>(found.value);
    }

    bool next(result<item>& out) noexcept {
        if (last_.status == DEBUG_NAMES_OK && last_.kind != DEBUG_NAMES_NONE)
            last_ = index_.ask(debug_names_next_entry, last_.next);
        if (last_.status != DEBUG_NAMES_OK) out = why(last_);
        else out = entry(last_);
        return last_.status != DEBUG_NAMES_OK || last_.kind != DEBUG_NAMES_NONE;
    }

private:
    index index_{};
    debug_names_entry last_{};
};

} // namespace detail

inline steps<detail::header_walk> section::headers() const noexcept {
    return steps<detail::header_walk>(detail::header_walk(*this));
}

inline steps<detail::name_walk> index::names() const noexcept {
    return steps<detail::name_walk>(detail::name_walk(*this));
}

inline steps<detail::bucket_walk> index::find_by_bucket(std::uint32_t bucket) const noexcept {
    return steps<detail::bucket_walk>(detail::bucket_walk(*this, bucket));
}

inline steps<detail::hash_walk> index::find_by_hash(std::uint32_t hash) const noexcept {
    return steps<detail::hash_walk>(detail::hash_walk(*this, hash));
}

inline steps<detail::entry_walk> index::entries(name_index name) const noexcept {
    return steps<detail::entry_walk>(detail::entry_walk(*this, name));
}

// ---- Over a whole section

// The string at an offset of .debug_str: the caller's own bytes, without the zero byte. Refused with 1 at an offset past the end, and
// where no zero byte follows.
inline result<std::string_view> get_str(bytes strings, str_offset offset) noexcept {
    return detail::string_in(strings, debug_names_get_str(strings.data(), strings.size(), offset.value));
}

// Where the function or type of a name is described, over all indexes of the section: the number of all its entries. The first of them
// are written to the records that are lent, as many as there is room for; the others keep their contents, and so do all where the query
// is refused. `hash` is the hash of the name (DWARF 5, 6.1.1.4.5), which the caller brings. The first refusal that is met on the way
// over the section is the answer: of a header, of opening an index, of a lookup, of a name's string, of an entry, or of its facts.
inline result<std::uint64_t> query(
    const section& names, bytes strings, std::uint32_t hash, std::string_view name, records out) noexcept {
    const bytes wanted(name);
    record none{};
    return detail::number(names.ask(debug_names_query, strings.data(), strings.size(), hash, wanted.data(), wanted.size(),
        out.size() == 0 ? &none : out.data(), out.size()));
}

// The numbers of a record, under their names: its name, the handle of its entry, its unit, and the offset of its DIE, if the entry says it.
constexpr name_index name_of(const record& r) noexcept { return name_index(r.name); }
constexpr entry_offset entry_of(const record& r) noexcept { return entry_offset(r.entry_offset); }
constexpr unit unit_of(const record& r) noexcept { return {static_cast<unit_kind>(r.unit_kind), r.unit_value}; }
constexpr std::optional<unit_offset> die_offset_of(const record& r) noexcept {
    return r.has_die_offset == 0 ? std::nullopt : std::optional<unit_offset>(unit_offset(r.die_offset));
}

// ---- These numbers do not mix

namespace detail {

template <class... Numbers>
struct numbers {
    // No plain number is taken for this one, nor this one for a plain number; and of these it is made of itself alone, even where its name is
    // spelled out.
    template <class Number>
    static constexpr bool apart = !std::is_convertible_v<std::uint64_t, Number> && !std::is_convertible_v<Number, std::uint64_t> &&
        (std::size_t{std::is_constructible_v<Number, Numbers>} + ...) == 1;
    static constexpr bool all_apart = (apart<Numbers> && ...);

    // Behind `First` the call takes that number, but no plain one and no other of these.
    template <class Number, class Call, class... First>
    static constexpr bool only = std::is_invocable_v<Call, First..., Number> && !std::is_invocable_v<Call, First..., std::uint64_t> &&
        (std::size_t{std::is_invocable_v<Call, First..., Numbers>} + ...) == 1;
};

using kinds = numbers<name_index, entry_offset, str_offset, info_offset, unit_offset, type_signature>;

static_assert(kinds::all_apart);
static_assert(kinds::only<name_index, decltype(&index::name_string_offset), const index&>);
static_assert(kinds::only<name_index, decltype(&index::name_string), const index&, bytes>);
static_assert(kinds::only<name_index, decltype(&index::entries), const index&>);
static_assert(kinds::only<entry_offset, decltype(&index::entry), const index&>);
static_assert(kinds::only<str_offset, decltype(&get_str), bytes>);

} // namespace detail

} // namespace debug_names

#endif
