/* Makes a capture of UDP datagrams, each with the bytes of a message, sound or damaged, and says what the proved reader answers to each.
   The arguments are three files to write: the capture, a line for each packet with the refusal or the fields, and a line with the words. */
#include "words.h"
#include <string.h>

enum { PORT = 7070, LONGEST = 32, ROOM = 44 };

static FILE *capture, *fields, *words;

/* Numbers with the high byte first, as in XDR and in the headers of IP and UDP. */
static uint8_t *put(uint8_t *to, uint64_t x, int bytes) {
    for (int shift = 8 * (bytes - 1); shift >= 0; shift -= 8) *to++ = (uint8_t)(x >> shift);
    return to;
}

/* A pcap file with the high byte first, of packets that start with the header of IP. */
static void put_file_header(void) {
    uint8_t head[24] = {0}, *at = put(head, 0xa1b2c3d4, 4);
    put(put(at, 2, 2), 4, 2);
    put(put(head + 16, 65535, 4), 101, 4);
    fwrite(head, 1, sizeof head, capture);
}

static void put_packet(const uint8_t *bytes, size_t len) {
    uint8_t packet[16 + 28 + ROOM] = {0}, *ip = packet + 16, *udp = ip + 20;
    put(put(packet + 8, 28 + len, 4), 28 + len, 4);
    put(put(ip, 0x4500, 2), 28 + len, 2);
    put(put(ip + 8, 64, 1), 17, 1);
    put(put(ip + 12, 0x7f000001, 4), 0x7f000001, 4);
    put(put(put(udp, 40000, 2), PORT, 2), 8 + len, 2);
    memcpy(udp + 8, bytes, len);
    fwrite(packet, 1, 16 + 28 + len, capture);
}

/* A field that the message doesn't have is left empty. */
static void put_field(int there, uint64_t x) {
    putc('\t', fields);
    if (there) fprintf(fields, "%llu", (unsigned long long)x);
}

static void put_answer(KalebasinMessageResult r) {
    int join = r.kind == KALEBASIN_JOIN;
    if (r.number) fprintf(fields, "%u", r.number);
    put_field(!r.number, r.slot);
    put_field(!r.number, r.kind);
    put_field(!r.number, r.round);
    put_field(!r.number, r.sender);
    put_field(join, r.present);
    put_field(r.present, r.voted);
    put_field(r.present || r.kind == KALEBASIN_PROPOSE, r.value);
    putc('\n', fields);
    put_words(words, r);
    putc('\n', words);
}

static void message(const uint8_t *bytes, size_t len) {
    put_packet(bytes, len);
    put_answer(kalebasin_read_message(bytes, len));
}

/* The five shapes of a message: slot, kind, round, sender; presence; voted round, value. */
static size_t write_message(uint8_t *to, uint32_t slot, int shape, uint32_t round, uint32_t sender, uint32_t voted, uint64_t value) {
    static const uint8_t kinds[] = {1, 2, 2, 3, 4};
    uint8_t *at = put(put(put(put(to, slot, 4), kinds[shape], 4), round, 4), sender, 4);
    if (shape == 1) at = put(at, 0, 4);
    if (shape == 2) at = put(put(put(at, 1, 4), voted, 4), value, 8);
    if (shape == 3) at = put(at, value, 8);
    return (size_t)(at - to);
}

static const uint32_t edges[] = {0, 1, 2, 3, 4, 5, 6, 7, 8, 255, 256, 65536, 0xffffff, 0x1000000, 0x2000000, 999999, 1000000, 1000001, 0x7fffffff, 0xffffffff};
#define EACH(name, list) for (size_t name = 0; name < sizeof list / sizeof *list; name++)

/* Each shape with fields at and around their limits; the slot is never the sender's number, so that neither can be shown for
   the other. */
static void ranges(int shape) {
    static const uint32_t rounds[] = {0, 1, 2, 66051, 999999, 1000000, 1000001};
    static const uint64_t values[] = {0x0102030405060708, 0, 70, UINT64_MAX};
    uint8_t bytes[ROOM];
    int valued = shape == 2 || shape == 3 ? 4 : 1;
    uint32_t voted = shape == 2 ? 3 : 1;
    EACH(r, rounds) for (uint32_t sender = 0; sender < 9; sender++) for (int v = 0; v < valued; v++) for (uint32_t down = 0; down < voted; down++)
        message(bytes, write_message(bytes, (sender + 4) % 9, shape, rounds[r], sender, rounds[r] - down, values[v]));
}

/* A message cut at every length and with bytes behind it; with each byte and each word replaced. */
static void damages(int shape) {
    static const uint8_t replaced[] = {0, 1, 2, 7, 0x80, 0xff};
    uint8_t whole[ROOM] = {0}, bytes[ROOM];
    size_t len = write_message(whole, 3, shape, 66051, 6, 66050, 0x0102030405060708);
    for (size_t cut = 1; cut <= len + 8; cut++) message(whole, cut);
    for (size_t at = 0; at < len; at++) EACH(b, replaced) {
        memcpy(bytes, whole, ROOM);
        bytes[at] = replaced[b];
        message(bytes, len);
    }
    for (size_t at = 0; at < len; at += 4) EACH(e, edges) {
        memcpy(bytes, whole, ROOM);
        put(bytes + at, edges[e], 4);
        message(bytes, len);
    }
}

/* Any slot with any kind, and a JOIN with any presence, at every length. */
static void lengths(void) {
    uint8_t bytes[ROOM] = {0};
    put(put(bytes + 8, 66051, 4), 6, 4);
    for (size_t len = 4; len <= LONGEST + 4; len++) EACH(e, edges) {
        for (uint32_t slot = 6; slot <= 8; slot++) {
            put(put(bytes, slot, 4), edges[e], 4);
            put(bytes + 16, 0, 4);
            message(bytes, len);
        }
        put(put(bytes, edges[e], 4), KALEBASIN_JOIN, 4);
        put(put(bytes + 16, 1, 4), 1, 4);
        message(bytes, len);
        put(bytes, 7, 4);
        put(put(bytes + 16, edges[e], 4), 1, 4);
        message(bytes, len);
    }
}

int main(int count, char **names) {
    if (count != 4 || !(capture = fopen(names[1], "wb")) || !(fields = fopen(names[2], "w")) || !(words = fopen(names[3], "w"))) return 2;
    put_file_header();
    for (int shape = 0; shape < 5; shape++) ranges(shape), damages(shape);
    lengths();
    return fclose(capture) || fclose(fields) || fclose(words);
}
