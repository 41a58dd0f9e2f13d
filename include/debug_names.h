/* The proved reader of .debug_names, for C and C++: the functions of libdebug_names.a.
 *
 * .debug_names is the DWARF 5 section (6.1.1) that says where the function or type of a name is described. Every function
 * below is proved to meet its contract (crates/debug_names): on any bytes, any numbers and any handles it ends, reads only
 * what it is lent, keeps nothing, and answers, or refuses with a number and a value, as docs/SPECIFICATION.md says.
 *
 * What crosses:
 * - A section, a name and records are lent as a pointer to the first of them and their number. The pointer must be valid and aligned for
 *   that many; for none of them pass any aligned address that is not null. Of a section at most 2,147,483,647 bytes are taken, else the
 *   call is refused with 13.
 * - The byte order is a number: 0 is little, any other is big.
 * - An index is a handle, a small struct by value. Whatever numbers it holds, a call answers or refuses with 14 (it does not
 *   fit the section); a format that is neither 4 nor 8 does not fit. Cursors are numbers, or a small struct by value.
 * - An answer is a struct by value: `status` is 0, or the number of the refusal; `kind` says what is answered; `value` is the
 *   answer's number, or, where the call is refused, the one value that the refusal carries (0 where it carries none). Where a
 *   call is refused, or answers an end or none, every field that its comment does not name is 0.
 * - A step answers the cursor after it, also where it is refused. After 13 and 14 that is the caller's cursor, number by number.
 * - The number of a name, the handle of an entry and the offset of a string, a unit or a DIE each have a type of their own, by which parameters
 *   and fields are declared. `value` is a uint64_t, since it also holds what a refusal carries, and so is `unit_value`: the comments say which
 *   type it has else. In a record the handle of the entry has 32 bits, and no such type.
 *
 * A place is a byte offset from the section's start. The structs are those of x86-64. */
#ifndef DEBUG_NAMES_H
#define DEBUG_NAMES_H

#include <stddef.h>
#include <stdint.h>

#ifdef __cplusplus
extern "C" {
#endif

/* Numbers that stand for something, each under a name of its own. To a C compiler they are plain numbers, so that an offset in one section
 * passes for one in another; in debug_names.hpp they are types that do not mix. */
typedef uint32_t debug_names_name_index;     /* the number of a name in its index, counted from 0 */
typedef size_t debug_names_entry_offset;     /* the handle of an entry: its offset from the start of its index's entry pool */
typedef size_t debug_names_str_offset;       /* an offset in .debug_str, where a string begins */
typedef size_t debug_names_info_offset;      /* an offset in .debug_info, where a unit begins */
typedef size_t debug_names_unit_offset;      /* the offset of a DIE from the start of its unit */
typedef uint64_t debug_names_type_signature; /* the signature of a type unit */

/* The byte orders. */
enum debug_names_order { DEBUG_NAMES_LITTLE_ENDIAN = 0, DEBUG_NAMES_BIG_ENDIAN = 1 };

/* The refusals, by their numbers (SPECIFICATION 2.1) and gimli's names, each with the value that it carries. */
enum debug_names_status {
    DEBUG_NAMES_OK = 0,
    DEBUG_NAMES_UNEXPECTED_EOF = 1,               /* the place where the failing read began; of a LEB128 number, of the missing byte */
    DEBUG_NAMES_UNKNOWN_RESERVED_LENGTH = 2,      /* the length */
    DEBUG_NAMES_UNKNOWN_VERSION = 3,              /* the version */
    DEBUG_NAMES_ABBREVIATION_TAG_ZERO = 4,
    DEBUG_NAMES_ATTRIBUTE_NAME_ZERO = 5,
    DEBUG_NAMES_ATTRIBUTE_FORM_ZERO = 6,
    DEBUG_NAMES_BAD_UNSIGNED_LEB128 = 7,
    DEBUG_NAMES_INVALID_ABBREVIATION_CODE = 8,    /* the code */
    DEBUG_NAMES_UNKNOWN_FORM = 9,                 /* the form */
    DEBUG_NAMES_NO_ENTRY_AT_GIVEN_OFFSET = 10,    /* the debug_names_entry_offset */
    DEBUG_NAMES_INVALID_NAME_ATTRIBUTE_INDEX = 11, /* the number */
    DEBUG_NAMES_UNSUPPORTED_ATTRIBUTE_FORM = 12,  /* the form */
    DEBUG_NAMES_SECTION_TOO_LONG = 13,
    DEBUG_NAMES_DOES_NOT_FIT = 14
};

/* gimli's name of a refusal, such as "UnexpectedEof"; 13 and 14, which gimli does not have, are named in the same manner. Empty for any
 * other number. */
static inline const char *debug_names_status_name(uint32_t status) {
    static const char *const names[] = {
        "",
        "UnexpectedEof",
        "UnknownReservedLength",
        "UnknownVersion",
        "AbbreviationTagZero",
        "AttributeNameZero",
        "AttributeFormZero",
        "BadUnsignedLeb128",
        "InvalidAbbreviationCode",
        "UnknownForm",
        "NoEntryAtGivenOffset",
        "InvalidNameAttributeIndex",
        "UnsupportedAttributeForm",
        "SectionTooLong",
        "DoesNotFit",
    };
    return status < sizeof names / sizeof *names ? names[status] : "";
}

/* What `kind` says: none or an end is 0, and what is there is 1, but for the three lists that follow. */
enum debug_names_kind { DEBUG_NAMES_NONE = 0, DEBUG_NAMES_SOME = 1 };

/* The kinds of units: the value of 1 and 2 is a debug_names_info_offset, that of 3 a debug_names_type_signature. */
enum debug_names_unit_kind {
    DEBUG_NAMES_NO_UNIT = 0,
    DEBUG_NAMES_COMPILE_UNIT = 1,
    DEBUG_NAMES_LOCAL_TYPE_UNIT = 2,
    DEBUG_NAMES_FOREIGN_TYPE_UNIT = 3
};

/* What is known of an entry's parent. */
enum debug_names_parent_kind {
    DEBUG_NAMES_PARENT_NOT_KNOWN = 0, /* the entry does not say */
    DEBUG_NAMES_PARENT_ENTRY = 1,     /* the value is the parent's debug_names_entry_offset */
    DEBUG_NAMES_NO_PARENT = 2         /* it has none in the index */
};

/* What the table check says. */
enum debug_names_table_kind {
    DEBUG_NAMES_NO_TABLE = 0,
    DEBUG_NAMES_COMPLETE = 1,  /* a lookup by hash lists every name */
    DEBUG_NAMES_INCOMPLETE = 2 /* some are missed: debug_names_table says how many, and which is the first */
};

/* An answer. */
typedef struct {
    uint32_t status;
    uint32_t kind;
    uint64_t value;
} debug_names_answer;

/* An index: a handle, by value. Its parts begin at the place `begin`, and its entry pool ends at the place `end`; `format` is the number
 * of bytes of its words, 4 or 8. */
typedef struct {
    size_t begin;
    size_t end;
    uint32_t compile_unit_count;
    uint32_t local_type_unit_count;
    uint32_t foreign_type_unit_count;
    uint32_t bucket_count;
    uint32_t name_count;
    uint32_t abbrev_table_size;
    uint32_t format;
} debug_names_index;

/* A step over the headers: kind 0 is the section's end; 1 is a header, whose place is `value`, with the index that it describes.
 * `next` is the cursor after the step, refusals included. */
typedef struct {
    uint32_t status;
    uint32_t kind;
    uint64_t value;
    size_t next;
    debug_names_index index;
} debug_names_header_step;

/* What else a header says: kind 0 is the section's end; 1 is a header, whose `value` is its length field. A header without an
 * augmentation string has `augmentation_len` 0; else the string stands at the place `augmentation`. */
typedef struct {
    uint32_t status;
    uint32_t kind;
    uint64_t value;
    size_t augmentation;
    size_t augmentation_len;
    uint32_t version;
} debug_names_header;

/* A string of .debug_str: `value` is the debug_names_str_offset where it begins, and it has `len` bytes, the zero byte not counted. */
typedef struct {
    uint32_t status;
    uint32_t kind;
    uint64_t value;
    size_t len;
} debug_names_string;

/* A step over the names of a bucket: kind 0 is the end, 1 is a name, whose debug_names_name_index is `value`, and for which `hash` is stored.
 * `next` is the cursor after the step, refusals included: the name to examine next. */
typedef struct {
    uint32_t status;
    uint32_t kind;
    uint64_t value;
    uint32_t hash;
    debug_names_name_index next;
} debug_names_bucket_step;

/* A cursor over the names that store a hash: the name to examine next, in a bucket. Where `has_bucket` is 0 there are none. An answer that is
 * not refused then has 0 for bucket and name, and else 1 for `has_bucket`. */
typedef struct {
    uint32_t hash;
    uint32_t has_bucket;
    uint32_t bucket;
    debug_names_name_index name;
} debug_names_hash_cursor;

/* A lookup by hash, or a step of it: kind 0 is the end, 1 is a name, whose debug_names_name_index is `value` (of the lookup itself: `value`
 * is 0). `next` is the cursor after it, and after a refused step the caller's own; a refused lookup has none, and all its numbers are 0. */
typedef struct {
    uint32_t status;
    uint32_t kind;
    uint64_t value;
    debug_names_hash_cursor next;
} debug_names_hash_step;

/* What the table check says; the kind is of debug_names_table_kind. A name is missed where the run of its own bucket does not reach it.
 * Where names are missed, `value` is how many, `name` the smallest of their numbers, and `hash` the hash that is stored for that name;
 * debug_names_name_string gives its string. Else `name` and `hash` are 0, and so is `value`, but for that of a refusal. */
typedef struct {
    uint32_t status;
    uint32_t kind;
    uint64_t value;
    debug_names_name_index name;
    uint32_t hash;
} debug_names_table;

/* The five facts of an entry. Each is an answer of its own: kind 0 where the entry has no attribute of that name. */
typedef struct {
    debug_names_answer compile_unit; /* kind and value are those of debug_names_unit_kind */
    debug_names_answer type_unit;    /* the same */
    debug_names_answer die_offset;   /* the value is a debug_names_unit_offset */
    debug_names_answer parent;       /* kind and value are those of debug_names_parent_kind */
    debug_names_answer type_hash;    /* the value is the hash of the type */
} debug_names_facts;

/* An entry: kind 0 is the end of a series; 1 is an entry, whose debug_names_entry_offset is `value`. `next` is the cursor after the step,
 * refusals included. Where the entry is refused, so is each of its facts. */
typedef struct {
    uint32_t status;
    uint32_t kind;
    uint64_t value;
    size_t next;
    uint64_t abbrev_code;
    debug_names_facts facts;
    uint32_t tag;
} debug_names_entry;

/* A record of the section query: where an entry stands and what it describes. Its unit is that of the entry's type_unit attribute, else
 * that of its compile_unit attribute, else the only compile unit of the index, else none; `unit_kind` is of debug_names_unit_kind. An
 * entry of a split build may have both attributes: its DIE belongs to the type unit, and its compile unit, which tells which split file
 * to load, is a fact of debug_names_name_entry for the same handle. Where `has_die_offset` is 0, `die_offset` is 0. */
typedef struct {
    uint64_t unit_value; /* a debug_names_info_offset, a debug_names_type_signature, or 0, by `unit_kind` */
    debug_names_unit_offset die_offset;
    uint32_t index_offset; /* the place of the index's header */
    uint32_t entry_offset; /* the entry's handle: a debug_names_entry_offset in 32 bits, which are enough for any section that is taken */
    debug_names_name_index name;
    uint16_t tag;
    uint8_t unit_kind;
    uint8_t has_die_offset;
} debug_names_record;

#if defined(__cplusplus)
static_assert(sizeof(debug_names_record) == 32, "a record has 32 bytes on x86-64");
static_assert(sizeof(debug_names_index) == 48, "an index has 48 bytes on x86-64");
static_assert(sizeof(debug_names_table) == 24, "a table check has 24 bytes on x86-64");
#elif defined(__STDC_VERSION__) && __STDC_VERSION__ >= 201112L
_Static_assert(sizeof(debug_names_record) == 32, "a record has 32 bytes on x86-64");
_Static_assert(sizeof(debug_names_index) == 48, "an index has 48 bytes on x86-64");
_Static_assert(sizeof(debug_names_table) == 24, "a table check has 24 bytes on x86-64");
#endif

/* ---- Opening a section */

/* The next header, from the cursor `at`; the first cursor is 0. After a refusal the next step is the end, but for 13 and 14: these leave the
 * cursor as it was, and the next step is refused alike. */
debug_names_header_step debug_names_next_header(uint32_t order, const uint8_t *section, size_t section_len, size_t at);

/* What else the header at a place says; refused, and at the section's end none, as that step is. */
debug_names_header debug_names_header_at(uint32_t order, const uint8_t *section, size_t section_len, size_t at);

/* Opens the index that a header describes: its parts must end inside it, and its abbreviation table is read whole. Kind 1, value 0.
 * The other calls take the same handle, opened or not. */
debug_names_answer debug_names_open(const uint8_t *section, size_t section_len, debug_names_index index);

/* ---- Counts: kind 1, and the value is the count. */
debug_names_answer debug_names_compile_unit_count(const uint8_t *section, size_t section_len, debug_names_index index);
debug_names_answer debug_names_local_type_unit_count(const uint8_t *section, size_t section_len, debug_names_index index);
debug_names_answer debug_names_foreign_type_unit_count(const uint8_t *section, size_t section_len, debug_names_index index);
debug_names_answer debug_names_type_unit_count(const uint8_t *section, size_t section_len, debug_names_index index);
debug_names_answer debug_names_bucket_count(const uint8_t *section, size_t section_len, debug_names_index index);
debug_names_answer debug_names_name_count(const uint8_t *section, size_t section_len, debug_names_index index);
/* Kind 1, and the value is 1 where the index has a hash table, else 0. */
debug_names_answer debug_names_has_hash_table(const uint8_t *section, size_t section_len, debug_names_index index);

/* ---- Units, by number: kind and value are those of debug_names_unit_kind. */
debug_names_answer debug_names_compile_unit(
    uint32_t order, const uint8_t *section, size_t section_len, debug_names_index index, uint32_t number);
debug_names_answer debug_names_local_type_unit(
    uint32_t order, const uint8_t *section, size_t section_len, debug_names_index index, uint32_t number);
debug_names_answer debug_names_foreign_type_unit(
    uint32_t order, const uint8_t *section, size_t section_len, debug_names_index index, uint32_t number);
/* Local numbers first, then foreign ones. */
debug_names_answer debug_names_type_unit(
    uint32_t order, const uint8_t *section, size_t section_len, debug_names_index index, uint32_t number);
/* The only compile unit of an index (kind 1, and the value is a debug_names_info_offset), else none (0). */
debug_names_answer debug_names_default_compile_unit(
    uint32_t order, const uint8_t *section, size_t section_len, debug_names_index index);

/* ---- Names: 0 up to the number of names. */

/* Where a name's string begins. Kind 1, and the value is a debug_names_str_offset. */
debug_names_answer debug_names_name_string_offset(
    uint32_t order, const uint8_t *section, size_t section_len, debug_names_index index, debug_names_name_index name);
/* Where a name's string stands in .debug_str. Kind 1, and the value is a debug_names_str_offset. */
debug_names_string debug_names_name_string(
    uint32_t order, const uint8_t *section, size_t section_len, const uint8_t *strings, size_t strings_len,
    debug_names_index index, debug_names_name_index name);
/* Where the string at an offset of .debug_str stands. Kind 1, and the value is that debug_names_str_offset. */
debug_names_string debug_names_get_str(const uint8_t *strings, size_t strings_len, debug_names_str_offset offset);

/* ---- The hash table */

/* The cursor over the names of a bucket: kind 1, and the value is the debug_names_name_index of its first name (of a start one past the last
 * name the number of names, and the first step is the end); kind 0 where the bucket's start is 0. */
debug_names_answer debug_names_find_by_bucket(
    uint32_t order, const uint8_t *section, size_t section_len, debug_names_index index, uint32_t bucket);
/* The next name of a bucket, from the cursor `name`. */
debug_names_bucket_step debug_names_next_in_bucket(
    uint32_t order, const uint8_t *section, size_t section_len, debug_names_index index, uint32_t bucket,
    debug_names_name_index name);
/* The cursor over the names that store a hash: kind 1. */
debug_names_hash_step debug_names_find_by_hash(
    uint32_t order, const uint8_t *section, size_t section_len, debug_names_index index, uint32_t hash);
/* The next name that stores the hash. */
debug_names_hash_step debug_names_next_by_hash(
    uint32_t order, const uint8_t *section, size_t section_len, debug_names_index index, debug_names_hash_cursor cursor);
/* Whether lookups by hash list every name; where they do not, how many names they miss, and the first of these. */
debug_names_table debug_names_check_table(
    uint32_t order, const uint8_t *section, size_t section_len, debug_names_index index);

/* ---- Entries */

/* The cursor over the entries of a name: kind 1, and the value is the place of its first entry (a place, not a handle). */
debug_names_answer debug_names_name_entries(
    uint32_t order, const uint8_t *section, size_t section_len, debug_names_index index, debug_names_name_index name);
/* The next entry, from the cursor `at`. After a refusal the next step is the end, but for 13 and 14. */
debug_names_entry debug_names_next_entry(
    uint32_t order, const uint8_t *section, size_t section_len, debug_names_index index, size_t at);
/* The entry with a handle. `next` is 0. */
debug_names_entry debug_names_name_entry(
    uint32_t order, const uint8_t *section, size_t section_len, debug_names_index index, debug_names_entry_offset offset);

/* ---- The section query */

/* Where the function or type of a name is described, over all indexes of the section: kind 1, and the value is the number of all
 * its entries. `hash` is the hash of the name (DWARF 5, 6.1.1.4.5). The first of them are written to the records that are lent, as
 * many as there is room for; the other records keep their contents, and so do all where the query is refused. The records must be
 * apart from the other bytes that are lent. */
debug_names_answer debug_names_query(
    uint32_t order, const uint8_t *section, size_t section_len, const uint8_t *strings, size_t strings_len, uint32_t hash,
    const uint8_t *name, size_t name_len, debug_names_record *records, size_t records_len);

#ifdef __cplusplus
}
#endif

#endif
