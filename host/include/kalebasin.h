/* The C functions of two archives, for x86-64: libexports.a has play, the message reader and the calls of trees, libexports_member.a has one member
 * and the message writer.
 * docs/REFERENCE.md says more of each of them, of the bytes and of the numbers.
 *
 * Linking: after `host/archives.sh`,
 *
 *     cc -Ihost/include PROGRAM.c target/staticlib/libexports.a target/staticlib/libexports_member.a
 *
 * and a program needs only the one that it calls. They ask for functions of <string.h> that copy, fill or compare memory, and for nothing else.
 *
 * A slice is a pointer and a count of elements (bytes or 64-bit words). Bytes may start at any address; words, lengths,
 * table, second and out start at a multiple of 8. Where the count is 0 the pointer isn't followed and may be null. The call
 * then answers as it does to any slice of no elements: 26 to a list, 28 to a store, 1 to words or a table, 31 to second, 14
 * to a message, 13 to out, 18 to a reply or buffer; and no answer bytes are enough for a list of no events. lengths has no
 * count: it stands at eight numbers. What is lent for writing overlaps nothing else. Nothing is kept after a call, and
 * nothing is allocated.
 *
 * Each number is 0 for OK, or a refusal. A call gives the first refusal that applies, in the order noted at the call; it
 * then changes nothing, and every other field of its result is 0, but for a record, which comes back as it came.
 */
#ifndef KALEBASIN_H
#define KALEBASIN_H

#include <stddef.h>
#include <stdint.h>

#ifdef __cplusplus
extern "C" {
#endif

enum KalebasinNumber {
    KALEBASIN_OK = 0,
    KALEBASIN_TABLE_LENGTH = 1,
    KALEBASIN_NOT_A_TREE = 2,
    KALEBASIN_ROUND_RANGE = 3,
    KALEBASIN_ROUND_PRESENT = 4,
    KALEBASIN_PARENT_ABSENT = 5,
    KALEBASIN_PARENT_NOT_BELOW = 6,
    KALEBASIN_VALUE_DIFFERS = 7,
    KALEBASIN_CROSSES_COMMITTED = 8,
    KALEBASIN_NO_FREE_ROW = 9,
    KALEBASIN_ROUND_ABSENT = 10,
    KALEBASIN_IS_COMMITTED = 11,
    KALEBASIN_IS_GHOST = 12,
    KALEBASIN_PATH_TOO_LONG = 13,
    KALEBASIN_MESSAGE_LENGTH = 14,
    KALEBASIN_MESSAGE_KIND = 15,
    KALEBASIN_MESSAGE_FIELD = 16,
    KALEBASIN_RECORD_UNSOUND = 17,
    KALEBASIN_REPLY_TOO_SHORT = 18,
    KALEBASIN_NOT_LEADER = 19,
    KALEBASIN_NOT_ABOVE_LED = 20,
    KALEBASIN_WRONG_SENDER = 21,
    KALEBASIN_MOVED_PAST = 22,
    KALEBASIN_ANOTHER_VALUE = 23,
    KALEBASIN_NOT_AWAITED = 24,
    KALEBASIN_COUNTED_ALREADY = 25,
    KALEBASIN_LIST_SHAPE = 26,
    KALEBASIN_OFFICE_SIZE = 27,
    KALEBASIN_STORE_OR_ANSWERS = 28,
    KALEBASIN_NO_MEMBER_OR_MESSAGE = 29,
    KALEBASIN_STORE_FULL = 30,
    KALEBASIN_LENGTHS_DIFFER = 31,
    KALEBASIN_WRONG_SLOT = 32
};

/* The cause of a number in words; never null. */
static inline const char *kalebasin_cause(uint32_t number) {
    switch (number) {
    case KALEBASIN_OK: return "OK";
    case KALEBASIN_TABLE_LENGTH: return "the table's length isn't a multiple of 4 words from 4 to 1,024";
    case KALEBASIN_NOT_A_TREE: return "the table isn't a tree";
    case KALEBASIN_ROUND_RANGE: return "the round is 0 or above 1,000,000";
    case KALEBASIN_ROUND_PRESENT: return "the round is present already";
    case KALEBASIN_PARENT_ABSENT: return "the parent is absent";
    case KALEBASIN_PARENT_NOT_BELOW: return "the parent isn't below the round";
    case KALEBASIN_VALUE_DIFFERS: return "the value isn't the parent's";
    case KALEBASIN_CROSSES_COMMITTED: return "the edge crosses a COMMITTED node";
    case KALEBASIN_NO_FREE_ROW: return "the table has no free row";
    case KALEBASIN_ROUND_ABSENT: return "the round is absent";
    case KALEBASIN_IS_COMMITTED: return "the round is COMMITTED already";
    case KALEBASIN_IS_GHOST: return "the round is GHOST";
    case KALEBASIN_PATH_TOO_LONG: return "the slice is too short for the path";
    case KALEBASIN_MESSAGE_LENGTH: return "the message's length isn't that of its kind";
    case KALEBASIN_MESSAGE_KIND: return "the message's kind isn't 1 to 4";
    case KALEBASIN_MESSAGE_FIELD: return "a field of the message is out of range";
    case KALEBASIN_RECORD_UNSOUND: return "the member record isn't sound";
    case KALEBASIN_REPLY_TOO_SHORT: return "the reply buffer is under 32 bytes";
    case KALEBASIN_NOT_LEADER: return "the member isn't the leader of the round";
    case KALEBASIN_NOT_ABOVE_LED: return "the round isn't above the one the member led last";
    case KALEBASIN_WRONG_SENDER: return "the sender is no member, or doesn't lead the round";
    case KALEBASIN_MOVED_PAST: return "the member has moved past the round";
    case KALEBASIN_ANOTHER_VALUE: return "the member has voted for another value in the round";
    case KALEBASIN_NOT_AWAITED: return "the message isn't awaited";
    case KALEBASIN_COUNTED_ALREADY: return "the sender is counted already";
    case KALEBASIN_LIST_SHAPE: return "the count is above 1,000, or bytes, count and kinds don't match exactly";
    case KALEBASIN_OFFICE_SIZE: return "the number of members isn't 3, 5 or 7";
    case KALEBASIN_STORE_OR_ANSWERS: return "the store isn't 1 to 2,000 whole rows of 32 bytes, or there are too few answer bytes";
    case KALEBASIN_NO_MEMBER_OR_MESSAGE: return "there is no such member or no such message";
    case KALEBASIN_STORE_FULL: return "the store is full";
    case KALEBASIN_LENGTHS_DIFFER: return "the two tables differ in length";
    case KALEBASIN_WRONG_SLOT: return "the slot of a message or event is above 7, or a message is of another slot";
    default: return "no refusal has this number";
    }
}

/* The version of the functions that this header declares, and that which each archive has. A program that starts asks that they
 * be equal: the version goes up with each change that a caller sees. */
enum { KALEBASIN_VERSION = 6 };
uint32_t kalebasin_version(void);
uint32_t kalebasin_member_version(void);

/* The slots: 0 to 7, each with its own members and its own table. */
enum { KALEBASIN_SLOTS = 8 };

/* A row of the store in bytes, and a row of a table in words. */
enum { KALEBASIN_STORE_ROW = 32, KALEBASIN_TABLE_ROW = 4 };

/* The status of a table's row; a free row is all 0. */
enum { KALEBASIN_ADDED = 1, KALEBASIN_GHOST = 2, KALEBASIN_COMMITTED = 3 };

/* The kind of a message. */
enum { KALEBASIN_START = 1, KALEBASIN_JOIN = 2, KALEBASIN_PROPOSE = 3, KALEBASIN_VOTE = 4 };

typedef struct {
    uint32_t number;
    uint32_t accepted;  /* events with the answer 0 */
    uint32_t messages;  /* rows of the store that hold a message */
    uint32_t proposals; /* nodes beside the roots */
    uint32_t decisions; /* COMMITTED nodes beside the roots */
    uint32_t ghosts;    /* rounds made GHOST, the sum over its adds; a node that was GHOST from the first isn't counted */
} KalebasinPlayResult;

/* Runs a list of events over a whole office; each count of the result is that of all slots. 26, 27, 28, 1.
 *
 * list:    XDR words, high byte first: N, the count, then for each event 1, slot, member, round, offer (8 bytes),
 *          or 2, slot, message number, member.
 * store:   1 to 2,000 rows of 32 bytes, which all slots share. It is cleared; message k, from 0, stands at the front of row k.
 * words:   the tables of the eight slots, one after another in slot order, each of 1 to 256 rows of 4 words: round, parent, value,
 *          status. They are made fresh before the first event. In what a table is left, a GHOST node with a higher round in a row
 *          above was GHOST from the first; the other GHOST nodes are those that ghosts counts.
 * lengths: the words of each table. They may differ, and their sum is words_len; else 1.
 * answers: at least a byte for each event, which gets 0, 3, 9, 19, 20, 22, 24, 25, 29, 30 or 32; bytes behind them stay.
 */
KalebasinPlayResult kalebasin_play(const uint8_t *list, size_t list_len,
                                   uint8_t *store, size_t store_len,
                                   uint64_t *words, size_t words_len, const size_t lengths[KALEBASIN_SLOTS],
                                   uint8_t *answers, size_t answers_len);

typedef struct {
    uint32_t number;
    uint32_t slot;
    uint32_t kind;
    uint32_t round;
    uint32_t sender;
    uint32_t present; /* JOIN: 1 if it tells a vote */
    uint32_t voted;   /* JOIN that tells a vote: its round */
    uint64_t value;   /* PROPOSE: the value; JOIN that tells a vote: its value */
} KalebasinMessageResult;

/* Reads one message, neither more nor fewer bytes. 14 (under 8 bytes), 32 (a slot above 7), 15, 14 (wrong length; a JOIN: under 20
 * bytes), 16 (presence), 14 (a JOIN: wrong length), 16 (other fields). A field that the kind doesn't have is 0. */
KalebasinMessageResult kalebasin_read_message(const uint8_t *bytes, size_t len);

typedef struct {
    uint32_t number;
    uint32_t length; /* bytes written */
} KalebasinWriteResult;

/* Writes the message with these fields to the front of buffer; bytes behind it stay. A field that the kind doesn't have
 * is 0, as the reader gives it. 32 (a slot above 7), 15, 16 (presence; a field that the kind doesn't have isn't 0), 18 (under 32
 * bytes), 16 (ranges). */
KalebasinWriteResult kalebasin_write_message(uint32_t slot, uint32_t kind, uint32_t round, uint32_t sender,
                                             uint32_t present, uint32_t voted, uint64_t value,
                                             uint8_t *buffer, size_t len);

/* A member record, of one slot. Any numbers may stand here: what is no sound record gets 17. */
typedef struct {
    uint32_t me;     /* own number */
    uint32_t n;      /* N, the number of members: a quorum is 2 of 3, 3 of 5 or 4 of 7 */
    uint32_t joined; /* J, the highest round joined or voted in */
    uint32_t voted;  /* V, the round last voted in, 0 if none */
    uint64_t vote;   /* W, the value voted for there */
    uint32_t led;    /* L, the round last led, 0 if none */
    uint32_t phase;  /* 0 idle, 1 collecting, 2 proposed, 3 decided */
    uint64_t value;  /* X, the value to propose */
    uint32_t source; /* B, the round that it came from */
    uint32_t flags;  /* bit s: member s is counted in this phase; none from bit 7 on */
    uint32_t slot;   /* 0 to 7: the slot that it takes messages of */
} KalebasinMemberRecord;

typedef struct {
    uint32_t number;
    uint32_t sent;   /* bytes at the front of the reply, 0 if nothing is sent */
    uint32_t round;  /* of the proposal that is sent, or of the decision where nothing is sent; else 0 */
    uint32_t parent; /* of the proposal: the round that its value came from */
    uint64_t value;  /* proposed or decided */
    KalebasinMemberRecord record; /* after the call; with a refusal as it came */
} KalebasinMemberResult;

/* The record of a member that has done nothing yet in this slot; zeros, where it is refused. 17. */
KalebasinMemberResult kalebasin_member_fresh(uint32_t slot, uint32_t number, uint32_t members);

/* Starts a round. reply has at least 32 bytes; what is sent stands at its front, and bytes behind it stay.
 * 17, 18, 3, 19, 20. */
KalebasinMemberResult kalebasin_member_start(KalebasinMemberRecord record, uint32_t round, uint64_t offer,
                                             uint8_t *reply, size_t len);

/* Delivers the bytes of one message; reply as above. 17, 18, those of the reader, but 32 for every slot beside the record's own;
 * then START 21, 22; JOIN 21, 24, 25; PROPOSE 21, 22, 23; VOTE 21, 24, 25.
 *
 * A START or PROPOSE that comes again, as where its answer was lost, leaves the record as it is and sends the same JOIN or
 * VOTE. It gets 22 once the member has joined or voted in a higher round, a START also once the member has voted in its own. */
KalebasinMemberResult kalebasin_member_deliver(KalebasinMemberRecord record, const uint8_t *bytes, size_t bytes_len,
                                               uint8_t *reply, size_t len);

/* Makes a table fresh: the root 0, 0, 0, 3 and zeros. It is then a tree of either kind. 1. */
uint32_t kalebasin_tree_fresh(uint64_t *table, size_t len);

/* The next four are the calls of a tree of values, as play leaves one in each slot: a node has its parent's value, unless that
 * is the root. A table is such a tree if they can leave it, from a fresh one; else it gets 2. */

typedef struct {
    uint32_t number;
    uint32_t ghosts; /* rounds made GHOST: ADDED before the add and GHOST after it; the new one isn't counted */
} KalebasinAddResult;

/* Adds a round. 1 to 9 in that order. Which rounds it made GHOST, a copy of the table from before the call tells: rows keep their
 * places, and those rounds are in the rows whose status is KALEBASIN_ADDED there and KALEBASIN_GHOST here. */
KalebasinAddResult kalebasin_tree_add(uint64_t *table, size_t len, uint32_t round, uint64_t value, uint32_t parent);

/* Makes second what kalebasin_tree_add would make of table, which stays, with the result of the add. Which rounds it would make
 * GHOST, the two tables then tell as above. second may hold anything; with a refusal it stays as well. 1, 31 (second_len isn't
 * len), then 2 to 9 in that order; 1 and 2 are of table alone. */
KalebasinAddResult kalebasin_tree_preview(const uint64_t *table, size_t len, uint64_t *second, size_t second_len,
                                          uint32_t round, uint64_t value, uint32_t parent);

/* Commits a round. 1, 2, 3, 10, 11, 12. */
uint32_t kalebasin_tree_commit(uint64_t *table, size_t len, uint32_t round);

typedef struct {
    uint32_t number;
    uint32_t count; /* rounds written */
} KalebasinPathResult;

/* Writes the rounds from the root to this one to the front of out; words behind them stay.
 * 1, 2, 3 (not for round 0), 10, 13. */
KalebasinPathResult kalebasin_tree_path(const uint64_t *table, size_t len, uint32_t round,
                                        uint64_t *out, size_t out_len);

/* The last four are the calls of a tree of commands, each after a named earlier one: the same table, but a node has any value. A
 * table is such a tree if they can leave it, from a fresh one; else it gets 2. Every tree of values is a tree of commands. */

/* Adds a round; ghosts is as above. 1 to 6, 8, 9 in that order. */
KalebasinAddResult kalebasin_command_add(uint64_t *table, size_t len, uint32_t round, uint64_t value, uint32_t parent);

/* Makes second what kalebasin_command_add would make of table; all else is as above. 1, 31, 2 to 6, 8, 9 in that order. */
KalebasinAddResult kalebasin_command_preview(const uint64_t *table, size_t len, uint64_t *second, size_t second_len,
                                             uint32_t round, uint64_t value, uint32_t parent);

/* Commits a round. 1, 2, 3, 10, 11, 12. */
uint32_t kalebasin_command_commit(uint64_t *table, size_t len, uint32_t round);

/* Writes the rounds from the root to this one to the front of out; words behind them stay.
 * 1, 2, 3 (not for round 0), 10, 13. */
KalebasinPathResult kalebasin_command_path(const uint64_t *table, size_t len, uint32_t round,
                                           uint64_t *out, size_t out_len);

#ifdef __cplusplus
}
#endif

#endif
