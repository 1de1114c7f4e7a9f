/* Calls each function of kalebasin.h and expects what documents 01 and 02 say: its rehearsal, slots, a message, a member, a START that comes again, a
   tree of each kind of two rounds, rounds made GHOST, previews, and refusals; slices of no elements, also null ones, and bytes at odd addresses. */
#include "kalebasin.h"
#include <stdio.h>
#include <string.h>

#define EXPECT(fact) \
    do { \
        if (!(fact)) { \
            printf("header: not so: %s\n", #fact); \
            return 1; \
        } \
    } while (0)

_Static_assert(sizeof(KalebasinPlayResult) == 24, "six words");
_Static_assert(sizeof(KalebasinMessageResult) == 40, "seven words, four bytes that are no field, and a value");
_Static_assert(sizeof(KalebasinAddResult) == 8, "two words");
_Static_assert(sizeof(KalebasinPathResult) == 8, "two words");
_Static_assert(sizeof(KalebasinWriteResult) == 8, "two words");
_Static_assert(sizeof(KalebasinMemberRecord) == 56, "nine words and two values, nothing between them, and four bytes behind them");
_Static_assert(sizeof(KalebasinMemberResult) == 80, "four words, a value and a record, and nothing between them");

/* The fields of a record, and of a result up to those of its record; the bytes behind may be any. */
enum {
    RECORD = offsetof(KalebasinMemberRecord, slot) + sizeof(uint32_t),
    RESULT = offsetof(KalebasinMemberResult, record) + RECORD
};
_Static_assert(RECORD == 52, "the slot stands behind the flags");

static uint8_t list[500];
static size_t length;

static void word(uint32_t x) {
    for (int shift = 24; shift >= 0; shift -= 8) list[length++] = (uint8_t)(x >> shift);
}

static void start_in(uint32_t slot, uint32_t member, uint32_t round, uint32_t offer) {
    word(1), word(slot), word(member), word(round), word(0), word(offer);
}

static void deliver_in(uint32_t slot, uint32_t message, uint32_t member) {
    word(2), word(slot), word(message), word(member);
}

static void start(uint32_t member, uint32_t round, uint32_t offer) {
    start_in(0, member, round, offer);
}

static void deliver(uint32_t message, uint32_t member) {
    deliver_in(0, message, member);
}

/* Whether these are whole tables of one row: roots. */
static int roots(const uint64_t *words, size_t count) {
    for (size_t at = 0; at < count; at++)
        if (words[at] != (at % 4 == 3 ? KALEBASIN_COMMITTED : 0)) return 0;
    return 1;
}

/* Whether a play is refused with this number and counted nothing. */
static int refused_play(KalebasinPlayResult r, uint32_t number) {
    return r.number == number && !r.accepted && !r.messages && !r.proposals && !r.decisions && !r.ghosts;
}

/* The rehearsal of document 01, in slot 0: four rows there, one in each other slot. */
static int play(void) {
    static const uint8_t want_answers[16] = {0, 0, 0, 0, 25, 0, 0, 0, 0, 0, 0, 0, 0, 0, 0, 99};
    static const uint64_t want_table[16] = {0, 0, 0, 3, 1, 0, 70, 3, 2, 1, 70, 1, 0, 0, 0, 0};
    static const size_t lengths[8] = {16, 4, 4, 4, 4, 4, 4, 4};
    uint8_t store[32 * 20], answers[16];
    uint64_t words[44];
    memset(answers, 99, sizeof answers);
    word(3), word(15);
    start(1, 1, 70), deliver(0, 0), deliver(0, 1), deliver(1, 1), deliver(1, 1), deliver(2, 1), deliver(3, 0), start(2, 2, 80);
    deliver(5, 0), deliver(5, 2), deliver(7, 2), deliver(6, 2), deliver(3, 1), deliver(4, 1), deliver(9, 1);
    KalebasinPlayResult r = kalebasin_play(list, length, store, sizeof store, words, 44, lengths, answers, sizeof answers);
    EXPECT(r.number == 0 && r.accepted == 14 && r.messages == 10 && r.proposals == 2 && r.decisions == 1 && r.ghosts == 0);
    EXPECT(!memcmp(answers, want_answers, sizeof answers) && !memcmp(words, want_table, sizeof want_table) && roots(words + 16, 28));
    EXPECT(refused_play(kalebasin_play(list, length - 1, store, sizeof store, words, 44, lengths, answers, sizeof answers), KALEBASIN_LIST_SHAPE));
    return 0;
}

/* Lengths that aren't those of tables, or whose sum isn't the count of words, get 1, and nothing is written; so does a sum that is the count once it has
   grown past the highest size_t. */
static int table_lengths(void) {
    static const uint8_t no_events[8] = {0, 0, 0, 3};
    static const size_t wrong[][9] = {
        {31, 4, 4, 4, 4, 4, 4, 4, 4},  {33, 4, 4, 4, 4, 4, 4, 4, 4}, {28, 4, 4, 4, 4, 4, 4, 4, 4}, {36, 4, 4, 4, 4, 4, 4, 4, 4},
        {32, 5, 3, 4, 4, 4, 4, 4, 4},  {32, 4, 4, 4, 4, 4, 4, 3, 5}, {28, 4, 4, 4, 0, 4, 4, 4, 4}, {0, 4, 4, 4, 4, 4, 4, 4, 4},
        {32, 4, 4, 4, 4, 4, 4, 8, 4},  {4, 4, 0, 0, 0, 0, 0, 0, 0},  {0, 0, 0, 0, 0, 0, 0, 0, 0},  {32, 32, 0, 0, 0, 0, 0, 0, 0},
        {4, SIZE_MAX - 23, 4, 4, 4, 4, 4, 4, 4}, {1056, 1028, 4, 4, 4, 4, 4, 4, 4}, {1056, 4, 4, 4, 4, 4, 4, 4, 1028},
    };
    static const size_t right[][9] = {{32, 4, 4, 4, 4, 4, 4, 4, 4}, {60, 4, 8, 12, 4, 16, 4, 8, 4}, {1052, 4, 4, 4, 4, 1024, 4, 4, 4}};
    static uint64_t words[1060], junk[1060];
    uint8_t store[32], answers[1];
    memset(junk, 0xa5, sizeof junk), memset(store, 99, sizeof store);
    for (size_t i = 0; i < sizeof wrong / sizeof *wrong; i++) {
        memcpy(words, junk, sizeof junk);
        EXPECT(refused_play(kalebasin_play(no_events, 8, store, 32, words, wrong[i][0], wrong[i] + 1, answers, 1), KALEBASIN_TABLE_LENGTH));
        EXPECT(!memcmp(words, junk, sizeof junk) && store[0] == 99);
    }
    for (size_t i = 0; i < sizeof right / sizeof *right; i++) {
        memcpy(words, junk, sizeof junk);
        EXPECT(kalebasin_play(no_events, 8, store, 32, words, right[i][0], right[i] + 1, answers, 1).number == 0);
        const uint64_t *table = words;
        for (size_t slot = 0; slot < 8; table += right[i][1 + slot++]) {
            EXPECT(roots(table, 4));
            for (size_t at = 4; at < right[i][1 + slot]; at++) EXPECT(table[at] == 0);
        }
        EXPECT(!memcmp(table, junk, sizeof junk - right[i][0] * 8));
    }
    return 0;
}

/* Round 1 in slots 2 and 7 at once, with two values. A message of another slot gets 32, and so does a slot above 7, also with a member and a message that
   there aren't. Slot 1 alone gets 9: its table has no free row. */
static int slots(void) {
    static const uint8_t want_answers[25] = {0, 0, 0, 0, 32, 0, 0, 0, 0, 0, 0, 0, 0, 32, 32, 32, 29, 29, 32, 0, 0, 0, 0, 9, 32};
    static const uint64_t want_tables[2][8] = {{0, 0, 0, 3, 1, 0, 70, 1}, {0, 0, 0, 3, 1, 0, 80, 1}};
    static const size_t lengths[8] = {4, 4, 8, 4, 4, 4, 4, 8};
    uint8_t store[32 * 20], answers[25];
    uint64_t words[40];
    length = 0;
    word(3), word(25);
    start_in(2, 1, 1, 70), start_in(7, 1, 1, 80);                        /* messages 0 and 1 */
    deliver_in(2, 0, 0), deliver_in(7, 1, 0), deliver_in(7, 0, 0);       /* 2 and 3 */
    deliver_in(2, 0, 1), deliver_in(7, 1, 1);                            /* 4 and 5 */
    deliver_in(2, 2, 1), deliver_in(7, 3, 1), deliver_in(2, 4, 1), deliver_in(7, 5, 1); /* PROPOSE: 6 and 7 */
    deliver_in(2, 6, 0), deliver_in(7, 7, 0);                            /* VOTE: 8 and 9 */
    deliver_in(7, 8, 1), start_in(8, 1, 4, 70), deliver_in(8, 9, 1);
    deliver_in(7, 10, 1), deliver_in(7, 9, 3), deliver_in(UINT32_MAX, UINT32_MAX, UINT32_MAX);
    start_in(1, 1, 1, 90), deliver_in(1, 10, 0), deliver_in(1, 10, 1), deliver_in(1, 11, 1), deliver_in(1, 12, 1); /* messages 10 to 12 */
    deliver_in(0, 8, 1);
    KalebasinPlayResult r = kalebasin_play(list, length, store, sizeof store, words, 40, lengths, answers, sizeof answers);
    EXPECT(r.number == 0 && r.accepted == 16 && r.messages == 13 && r.proposals == 2 && r.decisions == 0 && r.ghosts == 0);
    EXPECT(!memcmp(answers, want_answers, sizeof answers));
    EXPECT(roots(words, 8) && !memcmp(words + 8, want_tables[0], 64) && roots(words + 16, 16) && !memcmp(words + 32, want_tables[1], 64));
    for (size_t row = 0; row < 13; row++) {
        KalebasinMessageResult m = kalebasin_read_message(store + 32 * row, row < 2 || (row > 7 && row < 11) ? 16 : row == 6 || row == 7 ? 24 : 20);
        EXPECT(m.number == 0 && m.round == 1 && m.slot == (row > 9 ? 1 : row % 2 ? 7 : 2));
    }
    return 0;
}

static int read_message(void) {
    static const uint8_t join[32] = {0, 0, 0, 7, 0, 0, 0, 2, 0, 0, 0, 9, 0, 0, 0, 3, 0, 0, 0, 1, 0, 0, 0, 8, 1, 2, 3, 4, 5, 6, 7, 8};
    static const uint8_t no_slot[8] = {0, 0, 0, 8, 0, 0, 0, 9};
    KalebasinMessageResult r = kalebasin_read_message(join, 32);
    EXPECT(r.number == 0 && r.slot == 7 && r.kind == KALEBASIN_JOIN && r.round == 9 && r.sender == 3);
    EXPECT(r.present == 1 && r.voted == 8 && r.value == 0x0102030405060708);
    r = kalebasin_read_message(join, 31);
    EXPECT(r.number == KALEBASIN_MESSAGE_LENGTH && !r.slot && !r.kind && !r.round && !r.sender && !r.present && !r.voted && !r.value);
    EXPECT(kalebasin_read_message(no_slot, 7).number == KALEBASIN_MESSAGE_LENGTH);
    r = kalebasin_read_message(no_slot, 8);
    EXPECT(r.number == KALEBASIN_WRONG_SLOT && !r.slot && !r.kind && !r.round && !r.sender && !r.present && !r.voted && !r.value);
    EXPECT(kalebasin_read_message(no_slot + 4, 4).number == KALEBASIN_MESSAGE_LENGTH);
    return 0;
}

static int write_message(void) {
    static const uint8_t propose[24] = {0, 0, 0, 7, 0, 0, 0, 3, 0, 0, 0, 9, 0, 0, 0, 3, 1, 2, 3, 4, 5, 6, 7, 8};
    uint8_t buffer[34], marks[34];
    memset(buffer, 99, sizeof buffer), memset(marks, 99, sizeof marks);
    EXPECT(kalebasin_write_message(8, 5, 0, 7, 2, 1, 1, buffer, 31).number == KALEBASIN_WRONG_SLOT);
    EXPECT(kalebasin_write_message(7, 5, 9, 3, 0, 0, 0, buffer, 34).number == KALEBASIN_MESSAGE_KIND);
    EXPECT(kalebasin_write_message(7, KALEBASIN_JOIN, 9, 3, 2, 0, 0, buffer, 34).number == KALEBASIN_MESSAGE_FIELD);
    EXPECT(kalebasin_write_message(7, KALEBASIN_VOTE, 9, 3, 0, 0, 7, buffer, 34).number == KALEBASIN_MESSAGE_FIELD);
    EXPECT(kalebasin_write_message(7, KALEBASIN_VOTE, 9, 7, 0, 0, 0, buffer, 31).number == KALEBASIN_REPLY_TOO_SHORT);
    KalebasinWriteResult r = kalebasin_write_message(7, KALEBASIN_VOTE, 9, 7, 0, 0, 0, buffer, 32);
    EXPECT(r.number == KALEBASIN_MESSAGE_FIELD && r.length == 0 && !memcmp(buffer, marks, 34));
    r = kalebasin_write_message(7, KALEBASIN_PROPOSE, 9, 3, 0, 0, 0x0102030405060708, buffer, 34);
    EXPECT(r.number == 0 && r.length == 24 && !memcmp(buffer, propose, 24) && !memcmp(buffer + 24, marks, 10));
    return 0;
}

/* Members 0 and 1 of three take round 1 of slot 7 to its decision. A member of slot 0 takes none of their messages. */
static int member(void) {
    static const KalebasinMemberRecord zeros;
    uint8_t sent[32], reply[32], back[32];
    for (uint32_t slot = 7; slot <= 8; slot++) {
        KalebasinMemberResult r = kalebasin_member_fresh(slot, slot == 7 ? 3 : 0, 3);
        EXPECT(r.number == KALEBASIN_RECORD_UNSOUND && !memcmp(&r.record, &zeros, RECORD));
    }
    KalebasinMemberRecord of[2] = {kalebasin_member_fresh(7, 0, 3).record, kalebasin_member_fresh(7, 1, 3).record};
    KalebasinMemberRecord other = kalebasin_member_fresh(0, 1, 3).record, odd[2] = {of[1], of[1]};
    odd[0].flags = 128, odd[1].slot = 8;
    for (int i = 0; i < 2; i++) {
        KalebasinMemberResult r = kalebasin_member_start(odd[i], 1, 70, sent, 32);
        EXPECT(r.number == KALEBASIN_RECORD_UNSOUND && !r.sent && !memcmp(&r.record, &odd[i], RECORD));
        EXPECT(kalebasin_member_deliver(odd[i], sent, 32, reply, 32).number == KALEBASIN_RECORD_UNSOUND);
    }
    EXPECT(kalebasin_member_start(of[1], 2, 70, sent, 31).number == KALEBASIN_REPLY_TOO_SHORT);
    EXPECT(kalebasin_member_start(of[1], 2, 70, sent, 32).number == KALEBASIN_NOT_LEADER);
    KalebasinMemberResult r = kalebasin_member_start(of[1], 1, 70, sent, 32);
    EXPECT(r.number == 0 && r.sent == 16 && !r.round && r.record.led == 1 && r.record.phase == 1 && r.record.slot == 7);
    of[1] = r.record;
    size_t length = r.sent;
    for (uint32_t phase = 1; phase <= 2; phase++) {
        r = kalebasin_member_deliver(other, sent, length, reply, 32);
        EXPECT(r.number == KALEBASIN_WRONG_SLOT && !r.sent && !memcmp(&r.record, &other, RECORD));
        for (int i = 0; i < 2; i++) {
            r = kalebasin_member_deliver(of[i], sent, length, reply, 32);
            EXPECT(r.number == 0 && r.sent > 0 && !r.round && kalebasin_read_message(reply, r.sent).slot == 7);
            of[i] = r.record;
            r = kalebasin_member_deliver(of[1], reply, r.sent, back, 32);
            EXPECT(r.number == 0 && (i == 1 || (!r.sent && !r.round && r.record.flags == 1)));
            of[1] = r.record;
        }
        EXPECT(r.round == 1 && r.value == 70 && r.parent == 0 && r.sent == (phase == 1 ? 24 : 0) && r.record.phase == phase + 1);
        memcpy(sent, back, 32), length = r.sent;
    }
    EXPECT(of[1].flags == 3 && of[0].voted == 1 && of[0].vote == 70);
    return 0;
}

/* Member 0 of three in rounds 1 and 2: a START that comes again leaves the record and sends the same JOIN, without a vote and with one; it gets 22
   after a vote in its round, and after a higher round was joined. */
static int start_again(void) {
    uint8_t start[2][32], reply[32], again[32];
    KalebasinMemberRecord record = kalebasin_member_fresh(3, 0, 3).record;
    for (uint32_t round = 1; round <= 2; round++) {
        uint8_t *sent = start[round - 1], propose[32];
        EXPECT(kalebasin_write_message(3, KALEBASIN_START, round, round, 0, 0, 0, sent, 32).length == 16);
        memset(reply, 99, 32), memset(again, 99, 32);
        KalebasinMemberResult first = kalebasin_member_deliver(record, sent, 16, reply, 32);
        KalebasinMemberResult second = kalebasin_member_deliver(first.record, sent, 16, again, 32);
        EXPECT(first.number == 0 && first.sent == (round == 1 ? 20 : 32) && first.record.joined == round);
        EXPECT(!memcmp(&first, &second, RESULT) && !memcmp(reply, again, 32));
        EXPECT(round == 1 || kalebasin_member_deliver(second.record, start[0], 16, again, 32).number == KALEBASIN_MOVED_PAST);
        EXPECT(kalebasin_write_message(3, KALEBASIN_PROPOSE, round, round, 0, 0, 70, propose, 32).length == 24);
        record = kalebasin_member_deliver(second.record, propose, 24, reply, 32).record;
        EXPECT(record.voted == round && kalebasin_member_deliver(record, sent, 16, again, 32).number == KALEBASIN_MOVED_PAST);
    }
    return 0;
}

/* Whether an add got this number and made so many rounds GHOST. */
static int got(KalebasinAddResult r, uint32_t number, uint32_t ghosts) {
    return r.number == number && r.ghosts == ghosts;
}

static int tree(void) {
    uint64_t table[16], out[4] = {99, 99, 99, 99};
    EXPECT(kalebasin_tree_fresh(table, 15) == 1 && kalebasin_tree_fresh(table, 16) == 0);
    EXPECT(got(kalebasin_tree_add(table, 16, 3, 5, 0), 0, 0) && got(kalebasin_tree_add(table, 16, 7, 5, 3), 0, 0));
    EXPECT(got(kalebasin_tree_add(table, 16, 8, 6, 7), 7, 0) && got(kalebasin_tree_add(table, 16, 8, 5, 6), 5, 0));
    EXPECT(kalebasin_tree_commit(table, 16, 7) == 0 && kalebasin_tree_commit(table, 16, 7) == 11);
    KalebasinPathResult r = kalebasin_tree_path(table, 16, 7, out, 4);
    EXPECT(r.number == 0 && r.count == 3 && out[0] == 0 && out[1] == 3 && out[2] == 7 && out[3] == 99);
    r = kalebasin_tree_path(table, 16, 7, out, 2);
    EXPECT(r.number == 13 && r.count == 0);
    return 0;
}

/* A tree of commands takes values that a tree of values refuses, and a tree of values as it is. */
static int commands(void) {
    uint64_t table[16], out[4] = {99, 99, 99, 99};
    EXPECT(kalebasin_tree_fresh(table, 16) == 0 && got(kalebasin_tree_add(table, 16, 3, 5, 0), 0, 0));
    EXPECT(got(kalebasin_command_add(table, 15, 7, 6, 3), 1, 0) && got(kalebasin_command_add(table, 16, 0, 6, 3), 3, 0));
    EXPECT(got(kalebasin_command_add(table, 16, 7, 6, 4), 5, 0) && got(kalebasin_command_add(table, 16, 7, 6, 3), 0, 0));
    EXPECT(kalebasin_command_commit(table, 16, 7) == 0 && kalebasin_command_commit(table, 16, 7) == 11);
    EXPECT(got(kalebasin_command_add(table, 16, 8, 6, 3), 8, 0) && got(kalebasin_tree_add(table, 16, 8, 6, 7), 2, 0));
    EXPECT(kalebasin_tree_commit(table, 16, 7) == 2 && kalebasin_tree_path(table, 16, 7, out, 4).number == 2);
    KalebasinPathResult r = kalebasin_command_path(table, 16, 7, out, 4);
    EXPECT(r.number == 0 && r.count == 3 && out[0] == 0 && out[1] == 3 && out[2] == 7 && out[3] == 99);
    r = kalebasin_command_path(table, 16, 7, out, 2);
    EXPECT(r.number == 13 && r.count == 0);
    table[15] = 1;
    EXPECT(kalebasin_command_path(table, 16, 7, out, 4).number == 2);
    return 0;
}

/* The calls of a kind. */
typedef KalebasinAddResult Add(uint64_t *, size_t, uint32_t, uint64_t, uint32_t);
typedef KalebasinAddResult Preview(const uint64_t *, size_t, uint64_t *, size_t, uint32_t, uint64_t, uint32_t);

/* Rounds 1 and 2 are made GHOST by round 5. Rounds 4 and 6 are GHOST from the first and aren't counted; round 6 makes one round GHOST, 5.
   A copy of the table tells which. A refused add counts none, though its edge crosses round 7, which is ADDED. */
static int ghosts(Add *add) {
    uint64_t table[28], before[28];
    EXPECT(kalebasin_tree_fresh(table, 28) == 0);
    EXPECT(got(add(table, 28, 1, 5, 0), 0, 0) && got(add(table, 28, 2, 5, 1), 0, 0));
    memcpy(before, table, sizeof table);
    EXPECT(got(add(table, 28, 5, 6, 0), 0, 2));
    for (size_t at = 3; at < 28; at += 4) {
        EXPECT((before[at] == KALEBASIN_ADDED && table[at] == KALEBASIN_GHOST) == (table[at - 3] == 1 || table[at - 3] == 2));
    }
    EXPECT(got(add(table, 28, 4, 5, 2), 0, 0) && table[16] == 4 && table[19] == KALEBASIN_GHOST);
    EXPECT(got(add(table, 28, 7, 6, 5), 0, 0) && table[12] == 5 && table[15] == KALEBASIN_ADDED);
    EXPECT(got(add(table, 28, 6, 8, 0), 0, 1) && table[15] == KALEBASIN_GHOST && table[27] == KALEBASIN_GHOST);
    EXPECT(got(add(table, 28, 8, 9, 0), KALEBASIN_NO_FREE_ROW, 0) && table[23] == KALEBASIN_ADDED);
    return 0;
}

/* The adds of `ghosts`, each behind a preview in a second table of junk: it leaves the table, makes the second what the add then makes of the table, in
   every word, and has the add's result. The last is refused, and both stay. */
static int previews(Add *add, Preview *preview) {
    static const struct {
        uint32_t round, parent, ghosts;
        uint64_t value;
    } adds[] = {{1, 0, 0, 5}, {2, 1, 0, 5}, {5, 0, 2, 6}, {4, 2, 0, 5}, {7, 5, 0, 6}, {6, 0, 1, 8}};
    uint64_t table[28], before[28], second[28], junk[28];
    memset(junk, 0xa5, sizeof junk);
    EXPECT(kalebasin_tree_fresh(table, 28) == 0);
    for (size_t i = 0; i < sizeof adds / sizeof *adds; i++) {
        memcpy(before, table, sizeof table), memcpy(second, junk, sizeof junk);
        EXPECT(got(preview(table, 28, second, 28, adds[i].round, adds[i].value, adds[i].parent), 0, adds[i].ghosts));
        EXPECT(!memcmp(table, before, sizeof table));
        EXPECT(got(add(table, 28, adds[i].round, adds[i].value, adds[i].parent), 0, adds[i].ghosts));
        EXPECT(!memcmp(second, table, sizeof table));
    }
    memcpy(before, table, sizeof table), memcpy(second, junk, sizeof junk);
    EXPECT(got(preview(table, 28, second, 28, 8, 9, 0), KALEBASIN_NO_FREE_ROW, 0));
    EXPECT(!memcmp(table, before, sizeof table) && !memcmp(second, junk, sizeof junk));
    return 0;
}

/* Refused previews count none and leave both tables: 1 comes before 31, 31 before 2, and 2 before what the add gives. The second is a fresh table or junk, as
   long as the table or of another length. */
static int refused_previews(Preview *preview) {
    static const uint64_t full[16] = {0, 0, 0, 3, 2, 0, 5, 1, 4, 2, 5, 3, 6, 4, 5, 1}, no_tree[16] = {0, 0, 0, 3, 2, 0, 5, 9};
    const uint32_t other_value = preview == kalebasin_tree_preview ? KALEBASIN_VALUE_DIFFERS : KALEBASIN_NO_FREE_ROW;
    const struct Refused {
        const uint64_t *table;
        size_t len, second_len;
        uint32_t round, parent, number;
        uint64_t value;
    } refused[] = {
        {full, 15, 16, 0, 0, KALEBASIN_TABLE_LENGTH, 5},
        {full, 15, 15, 0, 0, KALEBASIN_TABLE_LENGTH, 5},
        {no_tree, 16, 12, 0, 0, KALEBASIN_LENGTHS_DIFFER, 5},
        {full, 16, 15, 0, 0, KALEBASIN_LENGTHS_DIFFER, 5},
        {full, 16, 20, 0, 0, KALEBASIN_LENGTHS_DIFFER, 5},
        {no_tree, 16, 16, 0, 0, KALEBASIN_NOT_A_TREE, 5},
        {full, 16, 16, 0, 9, KALEBASIN_ROUND_RANGE, 5},
        {full, 16, 16, 4, 9, KALEBASIN_ROUND_PRESENT, 5},
        {full, 16, 16, 5, 9, KALEBASIN_PARENT_ABSENT, 5},
        {full, 16, 16, 3, 4, KALEBASIN_PARENT_NOT_BELOW, 9},
        {full, 16, 16, 7, 6, other_value, 9},
        {full, 16, 16, 7, 2, KALEBASIN_CROSSES_COMMITTED, 5},
        {full, 16, 16, 7, 6, KALEBASIN_NO_FREE_ROW, 5},
    };
    uint64_t table[16], second[20], held[2][20] = {{0, 0, 0, 3}};
    memset(held[1], 0xa5, sizeof held[1]);
    for (size_t i = 0; i < 2 * (sizeof refused / sizeof *refused); i++) {
        const struct Refused *one = &refused[i / 2];
        memcpy(table, one->table, sizeof table), memcpy(second, held[i % 2], sizeof second);
        EXPECT(got(preview(table, one->len, second, one->second_len, one->round, one->value, one->parent), one->number, 0));
        EXPECT(!memcmp(table, one->table, sizeof table) && !memcmp(second, held[i % 2], sizeof second));
    }
    return 0;
}

/* Of three GHOST nodes round 4 made two so; round 3, proposed behind it, was GHOST from the first. */
static int play_ghosts(void) {
    static const uint64_t want_table[20] = {0, 0, 0, 3, 1, 0, 70, 2, 2, 1, 70, 2, 4, 0, 60, 1, 3, 0, 90, 2};
    static const size_t lengths[8] = {20, 4, 4, 4, 4, 4, 4, 4};
    uint8_t store[32 * 17], answers[21];
    uint64_t words[48];
    length = 0;
    word(3), word(21);
    start(1, 1, 70), deliver(0, 0), deliver(0, 1), deliver(1, 1), deliver(2, 1), deliver(3, 0);
    start(2, 2, 80), deliver(5, 0), deliver(5, 2), deliver(6, 2), deliver(7, 2);
    start(0, 3, 90), deliver(9, 1), deliver(9, 2), deliver(10, 0);
    start(1, 4, 60), deliver(12, 1), deliver(12, 2), deliver(13, 1), deliver(14, 1), deliver(11, 0);
    KalebasinPlayResult r = kalebasin_play(list, length, store, sizeof store, words, 48, lengths, answers, sizeof answers);
    EXPECT(r.number == 0 && r.accepted == 21 && r.messages == 17 && r.proposals == 4 && r.decisions == 0 && r.ghosts == 2);
    EXPECT(!memcmp(words, want_table, sizeof want_table) && roots(words + 20, 28));
    return 0;
}

/* Slices of no elements, with a pointer that mustn't be followed: null, or one to memory that isn't there. */
static int nothing(uint64_t *nowhere) {
    static const uint8_t no_events[8] = {0, 0, 0, 3};
    static const uint8_t one_event[24] = {0, 0, 0, 3, 0, 0, 0, 1, 0, 0, 0, 2};
    static const size_t lengths[8] = {4, 4, 4, 4, 4, 4, 4, 4}, no_lengths[8];
    uint8_t *none = (uint8_t *)nowhere, store[32], answers[1];
    uint64_t table[32], out[1];
    EXPECT(kalebasin_play(none, 0, store, 32, table, 32, lengths, answers, 1).number == KALEBASIN_LIST_SHAPE);
    EXPECT(kalebasin_play(no_events, 8, none, 0, table, 32, lengths, answers, 1).number == KALEBASIN_STORE_OR_ANSWERS);
    EXPECT(kalebasin_play(no_events, 8, store, 32, nowhere, 0, lengths, answers, 1).number == KALEBASIN_TABLE_LENGTH);
    EXPECT(kalebasin_play(no_events, 8, store, 32, nowhere, 0, no_lengths, answers, 1).number == KALEBASIN_TABLE_LENGTH);
    EXPECT(kalebasin_play(one_event, 24, store, 32, table, 32, lengths, none, 0).number == KALEBASIN_STORE_OR_ANSWERS);
    EXPECT(kalebasin_play(no_events, 8, store, 32, table, 32, lengths, none, 0).number == KALEBASIN_OK);
    EXPECT(roots(table, 32));
    EXPECT(kalebasin_play(none, 0, none, 0, nowhere, 0, lengths, none, 0).number == KALEBASIN_LIST_SHAPE);
    EXPECT(kalebasin_read_message(none, 0).number == KALEBASIN_MESSAGE_LENGTH);
    KalebasinMemberRecord record = kalebasin_member_fresh(0, 1, 3).record;
    uint8_t reply[32];
    EXPECT(kalebasin_write_message(0, KALEBASIN_VOTE, 9, 3, 0, 0, 0, none, 0).number == KALEBASIN_REPLY_TOO_SHORT);
    EXPECT(kalebasin_member_start(record, 1, 70, none, 0).number == KALEBASIN_REPLY_TOO_SHORT);
    EXPECT(kalebasin_member_deliver(record, one_event, 24, none, 0).number == KALEBASIN_REPLY_TOO_SHORT);
    EXPECT(kalebasin_member_deliver(record, none, 0, reply, 32).number == KALEBASIN_MESSAGE_LENGTH);
    EXPECT(kalebasin_tree_fresh(nowhere, 0) == KALEBASIN_TABLE_LENGTH);
    EXPECT(got(kalebasin_tree_add(nowhere, 0, 1, 5, 0), KALEBASIN_TABLE_LENGTH, 0));
    for (size_t second = 0; second <= 1; second++) {
        EXPECT(got(kalebasin_tree_preview(nowhere, 0, second ? out : nowhere, second, 1, 5, 0), KALEBASIN_TABLE_LENGTH, 0));
        EXPECT(got(kalebasin_command_preview(nowhere, 0, second ? out : nowhere, second, 1, 5, 0), KALEBASIN_TABLE_LENGTH, 0));
    }
    EXPECT(got(kalebasin_tree_preview(table, 4, nowhere, 0, 1, 5, 0), KALEBASIN_LENGTHS_DIFFER, 0));
    EXPECT(got(kalebasin_command_preview(table, 4, nowhere, 0, 1, 5, 0), KALEBASIN_LENGTHS_DIFFER, 0));
    EXPECT(kalebasin_tree_commit(nowhere, 0, 1) == KALEBASIN_TABLE_LENGTH);
    EXPECT(kalebasin_tree_path(nowhere, 0, 0, out, 1).number == KALEBASIN_TABLE_LENGTH);
    EXPECT(kalebasin_tree_path(table, 4, 0, nowhere, 0).number == KALEBASIN_PATH_TOO_LONG);
    EXPECT(got(kalebasin_command_add(nowhere, 0, 1, 5, 0), KALEBASIN_TABLE_LENGTH, 0));
    EXPECT(kalebasin_command_commit(nowhere, 0, 1) == KALEBASIN_TABLE_LENGTH);
    EXPECT(kalebasin_command_path(nowhere, 0, 0, out, 1).number == KALEBASIN_TABLE_LENGTH);
    EXPECT(kalebasin_command_path(table, 4, 0, nowhere, 0).number == KALEBASIN_PATH_TOO_LONG);
    return 0;
}

/* A list, that of `slots`, a store, answers and a message, each at an odd address. */
static int odd_addresses(void) {
    static _Alignas(8) uint8_t odd_list[501], odd_store[32 * 20 + 1], odd_answers[26], odd_message[17];
    static const size_t lengths[8] = {4, 4, 8, 4, 4, 4, 4, 8};
    uint64_t words[40];
    static const uint8_t vote[16] = {0, 0, 0, 6, 0, 0, 0, 4, 0, 0, 0, 9, 0, 0, 0, 2};
    memcpy(odd_list + 1, list, length), memcpy(odd_message + 1, vote, 16);
    KalebasinPlayResult r = kalebasin_play(odd_list + 1, length, odd_store + 1, 32 * 20, words, 40, lengths, odd_answers + 1, 25);
    EXPECT(r.number == 0 && r.accepted == 16 && r.messages == 13 && r.proposals == 2 && r.decisions == 0 && r.ghosts == 0);
    KalebasinMessageResult m = kalebasin_read_message(odd_message + 1, 16);
    EXPECT(m.number == 0 && m.slot == 6 && m.kind == KALEBASIN_VOTE && m.round == 9 && m.sender == 2);
    return 0;
}

/* Every number up to the last has words of its own; those behind it share the last. */
static int causes(void) {
    const char *none = kalebasin_cause(UINT32_MAX);
    for (uint32_t a = 0; a <= KALEBASIN_WRONG_SLOT; a++) {
        EXPECT(strcmp(kalebasin_cause(a), none));
        for (uint32_t b = 0; b < a; b++) EXPECT(strcmp(kalebasin_cause(a), kalebasin_cause(b)));
    }
    EXPECT(!strcmp(kalebasin_cause(KALEBASIN_WRONG_SLOT + 1), none));
    return 0;
}

int main(void) {
    EXPECT(kalebasin_version() == KALEBASIN_VERSION);
    EXPECT(kalebasin_member_version() == KALEBASIN_VERSION);
    return play() || table_lengths() || slots() || read_message() || write_message() || member() || start_again() || tree() || commands() ||
           ghosts(kalebasin_tree_add) || ghosts(kalebasin_command_add) || previews(kalebasin_tree_add, kalebasin_tree_preview) ||
           previews(kalebasin_command_add, kalebasin_command_preview) || refused_previews(kalebasin_tree_preview) ||
           refused_previews(kalebasin_command_preview) || nothing(NULL) || nothing((uint64_t *)8) || odd_addresses() || play_ghosts() || causes();
}
