/* What the programs in C share: an entry's fields in order and each once, and their text. */
#ifndef ENTRY_H
#define ENTRY_H

#include <stdint.h>
#include <stdio.h>
#include <stdlib.h>
#include <string.h>

typedef struct { const uint8_t *at; size_t len; } Bytes;
typedef struct { Bytes name, value; } Field;
typedef struct {
    uint8_t seqnum_id[16];
    int64_t seqnum, realtime, monotonic;
    Field *fields;
    size_t count, room;
    uint8_t *body;
    size_t body_len, body_room;
} Entry;

/* Each program says what it was doing, and ends. */
static void die(const char *what);

static void *grown(void *old, size_t size)
{
    void *new = realloc(old, size);
    if (!new)
        die("out of memory");
    return new;
}

static uint64_t number_at(const uint8_t *at)
{
    uint64_t number;
    memcpy(&number, at, 8);
    return number;
}

/* ---- an entry's body ---- */

static int is_text(Bytes value)
{
    const uint8_t *at = value.at, *end = at + value.len;
    while (at < end) {
        uint8_t first = *at++;
        if (first < 0x80) {
            if (first < 32 && first != 9)
                return 0;
            continue;
        }
        int more = first >= 0xf0 ? 3 : first >= 0xe0 ? 2 : 1;
        if (first < 0xc2 || first > 0xf4 || end - at < more)
            return 0;
        uint8_t low = first == 0xe0 ? 0xa0 : first == 0xf0 ? 0x90 : 0x80;
        uint8_t high = first == 0xed ? 0x9f : first == 0xf4 ? 0x8f : 0xbf;
        for (; more > 0; more--, low = 0x80, high = 0xbf)
            if (*at < low || *at++ > high)
                return 0;
    }
    return 1;
}

static int compared(Bytes a, Bytes b)
{
    int order = memcmp(a.at, b.at, a.len < b.len ? a.len : b.len);
    return order ? order : (a.len > b.len) - (a.len < b.len);
}

static int by_name_and_value(const void *a, const void *b)
{
    const Field *left = a, *right = b;
    int order = compared(left->name, right->name);
    return order ? order : compared(left->value, right->value);
}

static void put(Entry *entry, const void *at, size_t len)
{
    if (entry->body_len + len > entry->body_room) {
        entry->body_room = 2 * (entry->body_len + len);
        entry->body = grown(entry->body, entry->body_room);
    }
    memcpy(entry->body + entry->body_len, at, len);
    entry->body_len += len;
}

/* In order, and each once. */
static void sort_fields(Entry *entry)
{
    qsort(entry->fields, entry->count, sizeof(Field), by_name_and_value);
    size_t kept = 0;
    for (size_t i = 0; i < entry->count; i++)
        if (kept == 0 || by_name_and_value(&entry->fields[kept - 1], &entry->fields[i]) != 0)
            entry->fields[kept++] = entry->fields[i];
    entry->count = kept;
}

static void spell(Entry *entry, Field field)
{
    put(entry, field.name.at, field.name.len);
    if (is_text(field.value)) {
        put(entry, "=", 1);
    } else {
        uint64_t len = field.value.len;
        put(entry, "\n", 1);
        put(entry, &len, 8);
    }
    put(entry, field.value.at, field.value.len);
    put(entry, "\n", 1);
}

static void add(Entry *entry, Bytes name, Bytes value)
{
    if (entry->count == entry->room) {
        entry->room = 2 * entry->room + 16;
        entry->fields = grown(entry->fields, entry->room * sizeof(Field));
    }
    entry->fields[entry->count++] = (Field){name, value};
}

static int nibble(uint8_t digit)
{
    return digit <= '9' ? digit - '0' : (digit | 32) - 'a' + 10;
}

static Bytes read_whole(const char *path)
{
    FILE *file = fopen(path, "rb");
    if (!file || fseek(file, 0, SEEK_END))
        die(path);
    size_t len = (size_t)ftell(file);
    uint8_t *at = grown(NULL, len + 1);
    rewind(file);
    if (fread(at, 1, len, file) != len)
        die(path);
    fclose(file);
    return (Bytes){at, len};
}

#endif
