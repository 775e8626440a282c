/* What reading an export stream is measured beside: parser FILE

   The file is read whole. For each entry: its fields are found, the default limits and the metadata are looked at, the
   fields are put in order and each once, and their text is written into memory of its own, which is given back at once.
   The last line is that of `verify export` for a stream without a fault; a fault ends the program with status 1. */
#include "entry.h"

enum { REALTIME, MONOTONIC, SEQNUM, SEQNUM_ID, KNOWN };

typedef struct {
    Entry entry;
    unsigned seen[KNOWN];
    uint64_t counted, weight;
    int fields;
} Draft;

static const char *const known[KNOWN] = {"REALTIME_TIMESTAMP", "MONOTONIC_TIMESTAMP", "SEQNUM", "SEQNUM_ID"};
// run.py defines them, by the table of docs/FORMATS.md.
static const uint64_t name_limit = NAME_LIMIT, value_limit = VALUE_LIMIT;
static const uint64_t fields_limit = FIELDS_LIMIT, entry_limit = ENTRY_LIMIT;

static void die(const char *what)
{
    fprintf(stderr, "parser: %s\n", what);
    exit(3);
}

static void bad(int code, const uint8_t *at, const uint8_t *start)
{
    printf("bad %d %zu\n", code, (size_t)(at - start));
    exit(1);
}

static int number(Bytes value, int64_t *into)
{
    uint64_t sum = 0;
    if (value.len < 1 || value.len > 20)
        return 0;
    for (size_t i = 0; i < value.len; i++) {
        unsigned digit = value.at[i] - '0';
        if (digit > 9 || sum > ((uint64_t)INT64_MAX - digit) / 10)
            return 0;
        sum = 10 * sum + digit;
    }
    *into = (int64_t)sum;
    return 1;
}

static int id(Bytes value, uint8_t *into)
{
    if (value.len != 32)
        return 0;
    for (int i = 0; i < 32; i++)
        if (!strchr("0123456789abcdefABCDEF", value.at[i]) || !value.at[i])
            return 0;
    for (int i = 0; i < 16; i++)
        into[i] = (uint8_t)(nibble(value.at[2 * i]) << 4 | nibble(value.at[2 * i + 1]));
    return 1;
}

/* The value of metadata, by which of the four it is. Values are looked at once the entry is complete. */
static void note_metadata(Draft *draft, Bytes *values, Bytes name, Bytes value)
{
    for (int i = 0; i < KNOWN; i++)
        if (name.len - 2 == strlen(known[i]) && memcmp(name.at + 2, known[i], name.len - 2) == 0) {
            draft->seen[i]++;
            values[i] = value;
        }
}

static void finish(Draft *draft, Bytes *values, const uint8_t *first, const uint8_t *start)
{
    Entry *entry = &draft->entry;
    for (int i = 0; i < KNOWN; i++)
        if (draft->seen[i] > 1)
            bad(20, first, start);
    for (int i = 0; i < KNOWN; i++)
        if (draft->seen[i] == 0)
            bad(21 + i, first, start);
    if (!number(values[REALTIME], &entry->realtime) || !number(values[MONOTONIC], &entry->monotonic)
        || !number(values[SEQNUM], &entry->seqnum))
        bad(25, first, start);
    if (!id(values[SEQNUM_ID], entry->seqnum_id))
        bad(26, first, start);
    if (entry->seqnum == 0)
        bad(27, first, start);
    sort_fields(entry);
    entry->body_len = 0;
    for (size_t i = 0; i < entry->count; i++)
        spell(entry, entry->fields[i]);
    uint8_t *text = grown(NULL, entry->body_len + 1);
    memcpy(text, entry->body, entry->body_len);
    free(text);
}

/* One field at `at`; where it ends, or NULL if the stream ends in it. */
static const uint8_t *next_field(
    Draft *draft, Bytes *values, const uint8_t *at, const uint8_t *end, const uint8_t *start)
{
    const uint8_t *line = memchr(at, '\n', (size_t)(end - at));
    const uint8_t *equal = memchr(at, '=', (size_t)((line ? line : end) - at));
    Bytes name = {at, (size_t)((equal ? equal : line ? line : end) - at)}, value;
    if (name.len == 0)
        bad(10, at, start);
    if (name.len > name_limit)
        bad(11, at, start);
    if (equal) {
        value = (Bytes){equal + 1, (size_t)((line ? line : end) - equal - 1)};
        if (value.len > value_limit)
            bad(12, at, start);
        if (!line)
            return NULL;
    } else {
        if (!line || end - line < 9)
            return NULL;
        value = (Bytes){line + 9, number_at(line + 1)};
        if (value.len > value_limit)
            bad(12, at, start);
        if ((uint64_t)(end - value.at) <= value.len)
            return NULL;
        if (value.at[value.len] != '\n')
            bad(13, value.at + value.len, start);
    }
    draft->fields++;
    if (name.len >= 2 && name.at[0] == '_' && name.at[1] == '_') {
        note_metadata(draft, values, name, value);
    } else {
        draft->weight += name.len + value.len;
        if (++draft->counted > fields_limit)
            bad(14, at, start);
        if (draft->weight > entry_limit)
            bad(15, at, start);
        add(&draft->entry, name, value);
    }
    return value.at + value.len + 1;
}

int main(int words, char **word)
{
    static Draft draft;
    Bytes values[KNOWN], stream;
    uint64_t count = 0;
    if (words != 2)
        die("usage: parser FILE");
    stream = read_whole(word[1]);
    const uint8_t *at = stream.at, *first = at, *end = at + stream.len;
    while (at && at < end) {
        if (*at != '\n') {
            at = next_field(&draft, values, at, end, stream.at);
            continue;
        }
        at++;
        if (draft.fields) {
            finish(&draft, values, first, stream.at);
            count++;
            draft.fields = 0;
            draft.counted = draft.weight = draft.entry.count = 0;
            memset(draft.seen, 0, sizeof draft.seen);
        }
        first = at;
    }
    printf("ok %llu %llu\n", (unsigned long long)count, (unsigned long long)(end - first));
    return 0;
}
