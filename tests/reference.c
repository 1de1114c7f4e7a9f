/* Asks the archive what the examples of docs/REFERENCE.md ask. A line is a question, and gets a line of answer, an accepted list three and one for each
   slot above 0 that has more than its root:
     message HEX
     list HEX
     cause NUMBER
     write(SLOT,KIND,ROUND,SENDER,PRESENT,VOTED,VALUE)
   of one table, add, preview, commit and path by the functions of a tree of commands where "command " stands in front:
     fresh(ROWS)
     add(ROUND,VALUE,PARENT)
     preview(ROUND,VALUE,PARENT)                     in a second table of its length
     preview(ROUND,VALUE,PARENT) into COUNT words    of the second table
     commit(ROUND)
     path(ROUND)
     path(ROUND) into COUNT words
     nodes
     second                                          the nodes of the second table
   of one member:
     fresh(SLOT,NUMBER,N)
     start(ROUND,OFFER)
     deliver HEX
     record */
#include "hex.h"
#include "words.h"
#include <string.h>

enum { ROOM = 8 + 24 * 1000 + 100, STORE_ROWS = 1000, TABLE_ROWS = 64 };

static char line[2 * ROOM + 20], data[ROOM];
static uint8_t store[STORE_ROWS * KALEBASIN_STORE_ROW], answers[1000];
typedef uint64_t Table[TABLE_ROWS * KALEBASIN_TABLE_ROW];
static Table table, before, second, tables[KALEBASIN_SLOTS];
static uint64_t rounds[TABLE_ROWS];

static void put_nodes(const uint64_t *words, size_t rows) {
    for (size_t i = 0; i < rows && words[4 * i + 3]; i++) {
        if (i) printf(", ");
        for (size_t k = 0; k < 4; k++) printf("%s%llu", k ? " " : "", (unsigned long long)words[4 * i + k]);
    }
}

static void put_played(size_t n) {
    size_t lengths[KALEBASIN_SLOTS];
    for (size_t slot = 0; slot < KALEBASIN_SLOTS; slot++) lengths[slot] = sizeof *tables / 8;
    KalebasinPlayResult r =
        kalebasin_play((uint8_t *)data, n, store, sizeof store, *tables, sizeof tables / 8, lengths, answers, sizeof answers);
    if (r.number) {
        printf("refused with %u: %s", r.number, kalebasin_cause(r.number));
        return;
    }
    printf("answers:");
    for (int i = 0; i < data[7]; i++) printf(" %u", answers[i]); /* the count's low byte: an example has fewer events than 128 */
    for (unsigned slot = 0; slot < KALEBASIN_SLOTS; slot++) {
        if (slot && !tables[slot][KALEBASIN_TABLE_ROW]) continue;
        if (slot) printf("\nnodes in slot %u: ", slot);
        else printf("\nnodes: ");
        put_nodes(tables[slot], TABLE_ROWS);
    }
    printf("\nghosts: %u", r.ghosts);
}

/* The calls of a kind of tree. */
typedef struct {
    KalebasinAddResult (*add)(uint64_t *, size_t, uint32_t, uint64_t, uint32_t);
    KalebasinAddResult (*preview)(const uint64_t *, size_t, uint64_t *, size_t, uint32_t, uint64_t, uint32_t);
    uint32_t (*commit)(uint64_t *, size_t, uint32_t);
    KalebasinPathResult (*path)(const uint64_t *, size_t, uint32_t, uint64_t *, size_t);
} Tree;

static const Tree of_values = {kalebasin_tree_add, kalebasin_tree_preview, kalebasin_tree_commit, kalebasin_tree_path};
static const Tree of_commands = {kalebasin_command_add, kalebasin_command_preview, kalebasin_command_commit, kalebasin_command_path};

/* The number, how many rounds the add makes GHOST, or would make so, and which: those that are ADDED before and GHOST after. */
static void put_ghosts(KalebasinAddResult r, const char *makes, const uint64_t *was, const uint64_t *is, size_t rows) {
    printf("%u", r.number);
    if (r.ghosts) printf(", %s %u GHOST:", makes, r.ghosts);
    for (size_t i = 0; i < rows; i++)
        if (was[4 * i + 3] == KALEBASIN_ADDED && is[4 * i + 3] == KALEBASIN_GHOST) printf(" %llu", (unsigned long long)is[4 * i]);
}

static void put_added(const Tree *tree, size_t rows, uint32_t round, uint64_t value, uint32_t parent) {
    memcpy(before, table, sizeof table);
    put_ghosts(tree->add(table, 4 * rows, round, value, parent), "makes", before, table, rows);
}

static void put_previewed(const Tree *tree, size_t rows, size_t words, uint32_t round, uint64_t value, uint32_t parent) {
    KalebasinAddResult r = tree->preview(table, 4 * rows, second, words, round, value, parent);
    put_ghosts(r, "would make", table, r.number ? table : second, rows); /* with a refusal second says nothing of this add */
}

static void put_path(KalebasinPathResult r) {
    printf("%u", r.number);
    for (uint32_t i = 0; i < r.count; i++) printf("%s %llu", i ? "" : ":", (unsigned long long)rounds[i]);
}

static KalebasinMemberRecord record;
static uint8_t reply[32];

/* The number, what is sent and what is made; the record is the one that came back. */
static void put_report(KalebasinMemberResult r) {
    record = r.record;
    printf("%u", r.number);
    if (r.sent) {
        printf(", sends ");
        put_words(stdout, kalebasin_read_message(reply, r.sent));
    }
    if (r.round && r.sent) printf(", makes add(%u,%llu,%u)", r.round, (unsigned long long)r.value, r.parent);
    if (r.round && !r.sent) printf(", makes commit(%u) of %llu", r.round, (unsigned long long)r.value);
}

static void put_record(KalebasinMemberRecord m) {
    printf("%u %u %u %u %llu %u %u %llu %u %u %u", m.me, m.n, m.joined, m.voted, (unsigned long long)m.vote, m.led, m.phase, (unsigned long long)m.value,
           m.source, m.flags, m.slot);
}

static void put_written(uint32_t slot, uint32_t kind, uint32_t round, uint32_t sender, uint32_t present, uint32_t voted, uint64_t value) {
    KalebasinWriteResult r = kalebasin_write_message(slot, kind, round, sender, present, voted, value, reply, sizeof reply);
    printf("%u", r.number);
    for (uint32_t i = 0; i < r.length; i++) printf("%s%02x", i ? i % 4 ? "" : " " : ": ", reply[i]);
}

int main(void) {
    size_t rows = 0;
    memset(second, 99, sizeof second);
    while (fgets(line, sizeof line, stdin)) {
        unsigned a, b, c, d, e, p, words = 4 * rows, room = TABLE_ROWS;
        unsigned long long v;
        const int commands = !strncmp(line, "command ", 8);
        const Tree *tree = commands ? &of_commands : &of_values;
        const char *call = line + (commands ? 8 : 0);
        if (!strncmp(line, "message ", 8)) put_words(stdout, kalebasin_read_message((uint8_t *)data, bytes_of(line + 8, data, ROOM)));
        else if (!strncmp(line, "list ", 5)) put_played(bytes_of(line + 5, data, ROOM));
        else if (sscanf(line, "cause %u", &a) == 1) printf("%s", kalebasin_cause(a));
        else if (sscanf(line, "fresh(%u,%u,%u)", &a, &b, &p) == 3) put_report(kalebasin_member_fresh(a, b, p));
        else if (sscanf(line, "start(%u,%llu)", &a, &v) == 2) put_report(kalebasin_member_start(record, a, v, reply, sizeof reply));
        else if (!strncmp(line, "deliver ", 8))
            put_report(kalebasin_member_deliver(record, (uint8_t *)data, bytes_of(line + 8, data, ROOM), reply, sizeof reply));
        else if (!strncmp(line, "record", 6)) put_record(record);
        else if (sscanf(line, "write(%u,%u,%u,%u,%u,%u,%llu)", &a, &b, &c, &d, &e, &p, &v) == 7) put_written(a, b, c, d, e, p, v);
        else if (sscanf(line, "fresh(%u)", &a) == 1 && a <= TABLE_ROWS) printf("%u", kalebasin_tree_fresh(table, 4 * (rows = a)));
        else if (sscanf(call, "add(%u,%llu,%u)", &a, &v, &p) == 3) put_added(tree, rows, a, v, p);
        else if (sscanf(call, "preview(%u,%llu,%u) into %u words", &a, &v, &p, &words) >= 3 && words <= sizeof second / 8)
            put_previewed(tree, rows, words, a, v, p);
        else if (!strncmp(line, "second", 6)) put_nodes(second, rows);
        else if (sscanf(call, "commit(%u)", &a) == 1) printf("%u", tree->commit(table, 4 * rows, a));
        else if (sscanf(call, "path(%u) into %u words", &a, &room) >= 1 && room <= TABLE_ROWS)
            put_path(tree->path(table, 4 * rows, a, rounds, room));
        else if (!strncmp(line, "nodes", 5)) put_nodes(table, rows);
        else printf("no question: %s", line);
        putchar('\n');
    }
    return 0;
}
