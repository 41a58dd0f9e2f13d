/* where NAMES STR FUNCTION: says where a function is described.
 *
 * NAMES and STR are files with the sections .debug_names and .debug_str of a little-endian program, as objcopy writes them. For each
 * entry of the name FUNCTION one line is written:
 *
 *     main: index 0x0 entry 0x6 tag 0x2e compile unit 0x0 DIE 0x2a
 *
 * They are the place of the index in .debug_names, the entry's handle (its offset in the entry pool), the tag, the unit, and the offset
 * of the DIE from the start of that unit; all numbers are hexadecimal. The unit is one of
 *
 *     compile unit 0x0              its offset in .debug_info
 *     local type unit 0x0           its offset in .debug_info
 *     foreign type unit 0x0         its signature
 *     no unit
 *
 * and an entry that has no DIE offset ends with "no DIE". Where there is no entry the only line is "main: not found". Both end with
 * exit status 0. The other ends, each with a message on stderr:
 *
 *     1   the section query and the lookup by hand give different entries
 *     2   a call is refused ("refused 1 UnexpectedEof 4": its number, its name, and its value in decimal), or there are not three
 *         arguments, or a file cannot be read */
#include "debug_names.h"

#include <inttypes.h>
#include <stdbool.h>
#include <stdio.h>
#include <stdlib.h>
#include <string.h>

/* A file's bytes; `data` is never null. */
struct bytes {
    uint8_t *data;
    size_t len;
};

/* What is searched, and for what. */
struct search {
    struct bytes names;   /* .debug_names */
    struct bytes strings; /* .debug_str */
    const char *name;
    uint32_t hash;
};

/* An index that was opened, and the place of its header. The handle is a value, and can be kept as long as the section's bytes stand. */
struct opened {
    size_t place;
    debug_names_index index;
};

struct indexes {
    struct opened *items;
    size_t count;
};

/* The records of the query, and how many of them the lookup by hand has met so far. */
struct records {
    debug_names_record *items;
    size_t count;
    size_t met;
};

/* ---- How the program ends where something is wrong */

static void stop(int status, const char *what, const char *which) {
    fprintf(stderr, "where: %s%s\n", what, which);
    exit(status);
}

/* Ends the program where a call is refused. Every answer has a status and a value. */
static void must_be_answered(uint32_t status, uint64_t value) {
    if (status == DEBUG_NAMES_OK) return;
    fprintf(stderr, "refused %" PRIu32 " %s %" PRIu64 "\n", status, debug_names_status_name(status), value);
    exit(2);
}

static void *grown(void *items, size_t bytes) {
    void *more = realloc(items, bytes);
    if (more == NULL) stop(2, "no memory", "");
    return more;
}

/* ---- What the program is given */

static struct bytes read_file(const char *path) {
    struct bytes read = {grown(NULL, 4096), 0};
    size_t room = 4096;
    FILE *file = fopen(path, "rb");
    if (file == NULL) stop(2, "cannot read ", path);
    for (size_t got; (got = fread(read.data + read.len, 1, room - read.len, file)) != 0;) {
        read.len += got;
        if (read.len == room) read.data = grown(read.data, room *= 2);
    }
    if (ferror(file)) stop(2, "cannot read ", path);
    fclose(file);
    return read;
}

/* The hash of a name (DWARF 5, 6.1.1.4.5 and 7.33), which the library leaves to its callers. The standard folds the case of all
 * characters; folding A to Z, as here, is enough for names in ASCII. */
static uint32_t hash_of(const char *name) {
    uint32_t hash = 5381;
    for (; *name != 0; name++) {
        uint32_t c = (unsigned char)*name;
        if (c >= 'A' && c <= 'Z') c += 'a' - 'A';
        hash = hash * 33 + c;
    }
    return hash;
}

/* ---- (a) The indexes of the section */

/* Walks over the headers, and opens the index of each. */
static struct indexes open_all(const struct search *s) {
    struct indexes all = {NULL, 0};
    size_t at = 0;
    for (;;) {
        debug_names_header_step step = debug_names_next_header(DEBUG_NAMES_LITTLE_ENDIAN, s->names.data, s->names.len, at);
        must_be_answered(step.status, step.value);
        if (step.kind == DEBUG_NAMES_NONE) return all;
        debug_names_answer open = debug_names_open(s->names.data, s->names.len, step.index);
        must_be_answered(open.status, open.value);
        all.items = grown(all.items, (all.count + 1) * sizeof *all.items);
        all.items[all.count++] = (struct opened){(size_t)step.value, step.index};
        at = step.next;
    }
}

/* ---- (b) The section query */

static debug_names_answer query(const struct search *s, debug_names_record *records, size_t count) {
    return debug_names_query(DEBUG_NAMES_LITTLE_ENDIAN, s->names.data, s->names.len, s->strings.data, s->strings.len, s->hash,
        (const uint8_t *)s->name, strlen(s->name), records, count);
}

/* All records of the name. The first query, with room for none, tells how many there are. */
static struct records find_by_query(const struct search *s) {
    debug_names_record none;
    debug_names_answer total = query(s, &none, 0);
    must_be_answered(total.status, total.value);
    struct records found = {NULL, (size_t)total.value, 0};
    if (found.count == 0) return found;
    found.items = grown(NULL, found.count * sizeof *found.items);
    total = query(s, found.items, found.count);
    must_be_answered(total.status, total.value);
    return found;
}

static void print_unit(const debug_names_record *r) {
    switch (r->unit_kind) {
    case DEBUG_NAMES_COMPILE_UNIT: printf(" compile unit 0x%" PRIx64, r->unit_value); break;
    case DEBUG_NAMES_LOCAL_TYPE_UNIT: printf(" local type unit 0x%" PRIx64, r->unit_value); break;
    case DEBUG_NAMES_FOREIGN_TYPE_UNIT: printf(" foreign type unit 0x%" PRIx64, r->unit_value); break;
    default: printf(" no unit");
    }
}

static void print_record(const char *name, const debug_names_record *r) {
    printf("%s: index 0x%" PRIx32 " entry 0x%" PRIx32 " tag 0x%x", name, r->index_offset, r->entry_offset, (unsigned)r->tag);
    print_unit(r);
    if (r->has_die_offset != 0) printf(" DIE 0x%zx\n", r->die_offset);
    else printf(" no DIE\n");
}

static void print_records(const char *name, const struct records *found) {
    if (found->count == 0) printf("%s: not found\n", name);
    for (size_t i = 0; i < found->count; i++) print_record(name, &found->items[i]);
}

/* ---- (c) The same by hand, call by call */

/* The unit of an entry: the type unit that it names, else the compile unit that it names, else the only compile unit of its index, else
 * none. What comes later in this order is not asked for, so that its refusal does not matter. */
static debug_names_answer unit_of(const struct search *s, const struct opened *in, const debug_names_entry *entry) {
    debug_names_answer unit = entry->facts.type_unit;
    must_be_answered(unit.status, unit.value);
    if (unit.kind == DEBUG_NAMES_NO_UNIT) unit = entry->facts.compile_unit;
    must_be_answered(unit.status, unit.value);
    if (unit.kind == DEBUG_NAMES_NO_UNIT)
        unit = debug_names_default_compile_unit(DEBUG_NAMES_LITTLE_ENDIAN, s->names.data, s->names.len, in->index);
    must_be_answered(unit.status, unit.value);
    return unit;
}

/* The record that the query has to give for an entry. */
static debug_names_record record_of(
    const struct search *s, const struct opened *in, debug_names_name_index name, const debug_names_entry *entry) {
    debug_names_answer unit = unit_of(s, in, entry);
    debug_names_answer die = entry->facts.die_offset;
    must_be_answered(die.status, die.value);
    return (debug_names_record){
        .unit_value = unit.value,
        .die_offset = (debug_names_unit_offset)die.value,
        .index_offset = (uint32_t)in->place,
        .entry_offset = (uint32_t)entry->value,
        .name = name,
        .tag = (uint16_t)entry->tag,
        .unit_kind = (uint8_t)unit.kind,
        .has_die_offset = die.kind != DEBUG_NAMES_NONE,
    };
}

static bool same(const debug_names_record *a, const debug_names_record *b) {
    return a->unit_value == b->unit_value && a->die_offset == b->die_offset && a->index_offset == b->index_offset &&
        a->entry_offset == b->entry_offset && a->name == b->name && a->tag == b->tag && a->unit_kind == b->unit_kind &&
        a->has_die_offset == b->has_die_offset;
}

/* Compares the entries of a name with the query's next records. */
static void meet_entries(const struct search *s, const struct opened *in, debug_names_name_index name, struct records *found) {
    debug_names_answer first = debug_names_name_entries(DEBUG_NAMES_LITTLE_ENDIAN, s->names.data, s->names.len, in->index, name);
    must_be_answered(first.status, first.value);
    size_t at = (size_t)first.value;
    for (;;) {
        debug_names_entry entry = debug_names_next_entry(DEBUG_NAMES_LITTLE_ENDIAN, s->names.data, s->names.len, in->index, at);
        must_be_answered(entry.status, entry.value);
        if (entry.kind == DEBUG_NAMES_NONE) return;
        if (found->met == found->count) stop(1, "the lookup by hand finds an entry that the query does not have: ", s->name);
        debug_names_record record = record_of(s, in, name, &entry);
        if (!same(&record, &found->items[found->met++])) stop(1, "the lookup by hand finds another entry than the query: ", s->name);
        at = entry.next;
    }
}

/* Compares the entries of a name, if its string is the one that is looked for. */
static void meet_name(const struct search *s, const struct opened *in, debug_names_name_index name, struct records *found) {
    debug_names_string string = debug_names_name_string(
        DEBUG_NAMES_LITTLE_ENDIAN, s->names.data, s->names.len, s->strings.data, s->strings.len, in->index, name);
    must_be_answered(string.status, string.value);
    if (string.len != strlen(s->name) || memcmp(s->strings.data + string.value, s->name, string.len) != 0) return;
    meet_entries(s, in, name, found);
}

/* The names that store the hash. */
static void meet_hash(const struct search *s, const struct opened *in, struct records *found) {
    debug_names_hash_step step = debug_names_find_by_hash(DEBUG_NAMES_LITTLE_ENDIAN, s->names.data, s->names.len, in->index, s->hash);
    must_be_answered(step.status, step.value);
    for (;;) {
        step = debug_names_next_by_hash(DEBUG_NAMES_LITTLE_ENDIAN, s->names.data, s->names.len, in->index, step.next);
        must_be_answered(step.status, step.value);
        if (step.kind == DEBUG_NAMES_NONE) return;
        meet_name(s, in, (debug_names_name_index)step.value, found);
    }
}

/* All names, for an index that has no hash table. */
static void meet_all_names(const struct search *s, const struct opened *in, struct records *found) {
    debug_names_answer count = debug_names_name_count(s->names.data, s->names.len, in->index);
    must_be_answered(count.status, count.value);
    for (debug_names_name_index name = 0; name < count.value; name++) meet_name(s, in, name, found);
}

/* Looks the name up in each index, and compares what is found with the query's records. */
static void check_by_hand(const struct search *s, const struct indexes *all, struct records *found) {
    for (size_t i = 0; i < all->count; i++) {
        const struct opened *in = &all->items[i];
        debug_names_answer has_table = debug_names_has_hash_table(s->names.data, s->names.len, in->index);
        must_be_answered(has_table.status, has_table.value);
        if (has_table.value != 0) meet_hash(s, in, found);
        else meet_all_names(s, in, found);
    }
    if (found->met != found->count) stop(1, "the query has an entry that the lookup by hand does not find: ", s->name);
}

int main(int argc, char **argv) {
    if (argc != 4) stop(2, "give three arguments: where NAMES STR FUNCTION", "");
    struct search s = {read_file(argv[1]), read_file(argv[2]), argv[3], hash_of(argv[3])};
    struct indexes all = open_all(&s);
    struct records found = find_by_query(&s);
    print_records(s.name, &found);
    check_by_hand(&s, &all, &found);
    free(found.items);
    free(all.items);
    free(s.strings.data);
    free(s.names.data);
    return 0;
}
