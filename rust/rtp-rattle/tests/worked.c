/* Some of the paper's worked packets, each call of rtp_rattle.h at least once. Exits with 1 at the first that goes otherwise. */
#include <stdio.h>
#include <stdlib.h>
#include <string.h>

#include "rtp_rattle.h"

#define CHECK(c)                                                     \
    do {                                                             \
        if (!(c)) {                                                  \
            fprintf(stderr, "%s:%d: %s\n", __FILE__, __LINE__, #c);  \
            exit(1);                                                 \
        }                                                            \
    } while (0)

#define SAME(bytes, literal) (memcmp(bytes, literal, sizeof literal - 1) == 0)

static const uint8_t H[12] = {0x80, 0x60, 0, 1, 0, 0, 0, 2, 0, 0, 0, 3};

/* The calls were compiled with these records. */
static void sizes(void) {
    struct rtp_sizes s = rtp_sizes();
    CHECK(s.refused == sizeof(struct rtp_refused));
    CHECK(s.test == sizeof(struct rtp_test));
    CHECK(s.extensions == sizeof(struct rtp_extensions));
    CHECK(s.header == sizeof(struct rtp_header));
    CHECK(s.fixed == sizeof(struct rtp_fixed));
    CHECK(s.front == sizeof(struct rtp_front));
    CHECK(s.bytes == sizeof(struct rtp_bytes));
    CHECK(s.header_front == sizeof(struct rtp_header_front));
    CHECK(s.header_read == sizeof(struct rtp_header_read));
    CHECK(s.length == sizeof(struct rtp_length));
    CHECK(s.header_changed == sizeof(struct rtp_header_changed));
    CHECK(s.element == sizeof(struct rtp_element));
    CHECK(s.ids == sizeof(struct rtp_ids));
    CHECK(s.packet_front == sizeof(struct rtp_packet_front));
    CHECK(s.packet_read == sizeof(struct rtp_packet_read));
    CHECK(s.parameter_set == sizeof(struct rtp_parameter_set));
    CHECK(s.h264_payloader == sizeof(struct rtp_h264_payloader));
    CHECK(s.h264_sent == sizeof(struct rtp_h264_sent));
    CHECK(s.h264_lent_payloader == sizeof(struct rtp_h264_lent_payloader));
    CHECK(s.h264_lent_sent == sizeof(struct rtp_h264_lent_sent));
    CHECK(s.h264_packet == sizeof(struct rtp_h264_packet));
    CHECK(s.body == sizeof(struct rtp_body));
    CHECK(s.h264_read == sizeof(struct rtp_h264_read));
    CHECK(s.vp8_payloader == sizeof(struct rtp_vp8_payloader));
    CHECK(s.vp8_sent == sizeof(struct rtp_vp8_sent));
    CHECK(s.vp8_packet == sizeof(struct rtp_vp8_packet));
    CHECK(s.vp8_read == sizeof(struct rtp_vp8_read));
    CHECK(s.joiner == sizeof(struct rtp_joiner));
    CHECK(s.joined == sizeof(struct rtp_joined));
    CHECK(s.closed == sizeof(struct rtp_closed));
    CHECK(sizeof s == 30 * sizeof(size_t));
}

static void headers(void) {
    struct rtp_header_read read = rtp_header_unmarshal(H, 12);
    CHECK(read.refused.number == 0 && read.at == 12);
    CHECK(read.header.version == 2 && read.header.payload_type == 96 && read.header.sequence_number == 1);
    CHECK(read.header.timestamp == 2 && read.header.ssrc == 3 && !read.header.padding);
    CHECK(rtp_header_unmarshal(H, 11).refused.number == RTP_HEADER_SIZE_INSUFFICIENT);
    CHECK(rtp_header_unmarshal(NULL, 0).refused.number == RTP_HEADER_SIZE_INSUFFICIENT);

    uint8_t buf[13];
    memset(buf, 0xEE, sizeof buf);
    CHECK(rtp_header_marshal_size(read.header).bytes == 12);
    CHECK(rtp_header_marshal_to(read.header, buf, 11).refused.number == RTP_BUFFER_TOO_SMALL && buf[0] == 0xEE);
    CHECK(rtp_header_marshal_to(read.header, buf, 13).bytes == 12 && memcmp(buf, H, 12) == 0 && buf[12] == 0xEE);
}

static void extensions(void) {
    struct rtp_header h = rtp_header_default();
    CHECK(rtp_header_del_extension(h, 1).refused.number == RTP_EXTENSIONS_NOT_ENABLED);
    struct rtp_header_changed changed = rtp_header_set_extension(h, 1, (const uint8_t *)"\xAA\xBB", 2);
    CHECK(changed.refused.number == 0 && changed.header.extensions_padding == 1);
    h = changed.header;
    struct rtp_element e = rtp_header_get_extension(h, 1);
    CHECK(e.present && e.len == 2 && SAME(h.extensions.bytes + e.at, "\xAA\xBB"));
    CHECK(!rtp_header_get_extension(h, 2).present);
    struct rtp_ids ids = rtp_header_get_extension_ids(h);
    CHECK(ids.count == 1 && ids.ids[0] == 1 && ids.ids[1] == 0);
    CHECK(rtp_header_get_extension_payload_len(h).bytes == 3);
    changed = rtp_header_del_extension(h, 1);
    CHECK(changed.refused.number == 0 && changed.header.extensions.count == 0);
    h.csrc_count = SIZE_MAX;
    CHECK(rtp_header_marshal_size(h).refused.number == RTP_OUTSIDE_DOMAIN);
}

static void packets(void) {
    uint8_t padded[13];
    memcpy(padded, H, 12);
    padded[0] = 0xA0;
    CHECK(rtp_packet_unmarshal(padded, 12).refused.number == RTP_SHORT_PACKET);
    padded[12] = 0;
    struct rtp_packet_read read = rtp_packet_unmarshal(padded, 13);
    CHECK(read.refused.number == 0 && read.at == 12 && read.len == 1 && read.header.padding);
    uint8_t buf[20];
    CHECK(rtp_packet_marshal_size(read.header, (const uint8_t *)"\1\2\3\4", 4).bytes == 20);
    CHECK(rtp_packet_marshal_to(read.header, (const uint8_t *)"\1\2\3\4", 4, buf, 20).bytes == 20);
    CHECK(memcmp(buf, padded, 12) == 0 && SAME(buf + 12, "\1\2\3\4\0\0\0\4"));
}

/* A header with a source and an element, and a plain one, each in parts: written and read back into a record full of other things. */
static void parts(void) {
    static const uint8_t E[24] = {0x91, 0x60, 0, 1, 0, 0, 0, 2, 0, 0, 0, 3, 0, 0, 0, 9, 0xBE, 0xDE, 0, 1, 0x11, 0xAA, 0xBB, 0};
    struct rtp_header h, other;
    memset(&h, 0, sizeof h);
    h.csrc_count = 15, h.extensions.count = 32, h.extensions.bytes[1023] = 7;
    other = h;
    CHECK(rtp_header_unmarshal_into(&h, E, 23).number == RTP_HEADER_SIZE_INSUFFICIENT_FOR_EXTENSION && memcmp(&h, &other, sizeof h) == 0);
    CHECK(rtp_header_unmarshal_into(&h, E, 24).at == 24);
    CHECK(h.version == 2 && h.extension && h.payload_type == 96 && h.sequence_number == 1 && h.timestamp == 2 && h.ssrc == 3);
    CHECK(h.csrc_count == 1 && h.csrc[0] == 9 && h.extension_profile == 0xBEDE && h.extensions_padding == 1);
    CHECK(h.extensions.count == 1 && h.extensions.ids[0] == 1 && h.extensions.lens[0] == 2 && SAME(h.extensions.bytes, "\xAA\xBB"));
    CHECK(h.extensions.bytes[1023] == 0);

    CHECK(rtp_header_marshal_size_from(&h).bytes == 24 && rtp_header_get_extension_payload_len_from(&h).bytes == 3);
    struct rtp_element e = rtp_header_get_extension_from(&h, 1);
    CHECK(e.refused.number == 0 && e.present && e.at == 0 && e.len == 2 && !rtp_header_get_extension_from(&h, 2).present);
    CHECK(rtp_header_get_extension_ids_from(&h).count == 1 && rtp_header_get_extension_ids_from(&h).ids[0] == 1);
    CHECK(rtp_packet_marshal_size_from(&h, (const uint8_t *)"\1\2", 2).bytes == 26);

    uint8_t buf[32];
    memset(buf, 0xEE, sizeof buf);
    CHECK(rtp_header_marshal_from(&h, buf, 23).number == RTP_BUFFER_TOO_SMALL && buf[0] == 0xEE);
    struct rtp_bytes w = rtp_header_marshal_from(&h, buf, sizeof buf);
    CHECK(w.number == 0 && w.bytes == 24 && memcmp(buf, E, 24) == 0 && buf[24] == 0xEE);
    h.padding = true;
    w = rtp_packet_marshal_from(&h, (const uint8_t *)"\1\2", 2, buf, sizeof buf);
    CHECK(w.bytes == 28 && SAME(buf + 24, "\1\2\0\2"));
    struct rtp_packet_front p = rtp_packet_unmarshal_into(&h, buf, 28);
    CHECK(p.number == 0 && p.at == 24 && p.len == 2 && h.padding && h.csrc[0] == 9);
    p = rtp_packet_unmarshal_front(buf, 28);
    CHECK(p.number == 0 && p.len == 2 && p.front.csrc_count == 1 && p.front.count == 1 && p.front.fixed.ssrc == 3);

    CHECK(rtp_header_unmarshal_front(H, 12).front.fixed.sequence_number == 1);
    CHECK(rtp_packet_unmarshal_into(&h, H, 12).len == 0 && h.csrc[0] == 0 && h.extensions.count == 0 && !h.padding);
    w = rtp_header_marshal_from(&h, buf, 12);
    CHECK(w.bytes == 12 && memcmp(buf, H, 12) == 0);
    w = rtp_packet_marshal_from(&h, (const uint8_t *)"\5", 1, buf, 13);
    CHECK(w.bytes == 13 && memcmp(buf, H, 12) == 0 && buf[12] == 5);
    h.extensions_padding = 262141;
    CHECK(rtp_header_marshal_from(&h, buf, 32).number == RTP_OUTSIDE_DOMAIN);
}

static void h264(void) {
    static const uint8_t frame[] = {0, 0, 1, 0x65, 1, 2, 3, 4, 5};
    uint8_t out[32], gather[5], units[10];
    size_t ends[4];
    struct rtp_h264_sent sent = rtp_h264_payload(rtp_h264_payloader_new(), 4, frame, sizeof frame, out, sizeof out, ends, 4);
    CHECK(sent.refused.number == 0 && sent.packets == 3 && sent.bytes == 11);
    CHECK(ends[0] == 4 && ends[1] == 8 && ends[2] == 11 && SAME(out, "\x7C\x85\1\2\x7C\5\3\4\x7C\x45\5"));
    CHECK(sent.sender.sps.len == 0 && sent.sender.pps.len == 0);

    struct rtp_h264_packet reader = {.is_avc = false, .gathered = 0};
    struct rtp_h264_read read;
    for (size_t i = 0, at = 0; i < 3; at = ends[i], i++) {
        read = rtp_h264_depacketize(reader, out + at, ends[i] - at, gather, sizeof gather, units, sizeof units);
        CHECK(read.refused.number == 0);
        reader = read.packet;
    }
    CHECK(read.bytes == 10 && SAME(units, "\0\0\0\1\x65\1\2\3\4\5"));
    CHECK(read.body.lies_in == 2 && read.body.at == 0 && read.body.len == 5 && SAME(gather, "\1\2\3\4\5"));
    read = rtp_h264_depacketize(reader, (const uint8_t *)"\x18\0\x09\x41\5", 5, gather, 5, units, 10);
    CHECK(read.refused.number == RTP_STAP_A_SIZE_LARGER_THAN_BUFFER && read.refused.carried[0] == 9 && read.refused.carried[1] == 2);
    CHECK(rtp_h264_is_partition_head(out, 4).holds && !rtp_h264_is_partition_head(out + 4, 4).holds);
    CHECK(rtp_h264_is_partition_tail(true) && !rtp_h264_is_partition_tail(false));
}

/* Of 67AA, 68BB, 650102 what does not fit the mtu is counted; behind them a set of 1,025 bytes, beside whose refusal nothing is. */
static void dropped(void) {
    static const uint8_t frame[20 + 1024] = {0, 0, 1, 0x67, 0xAA, 0, 0, 1, 0x68, 0xBB, 0, 0, 1, 0x65, 1, 2, 0, 0, 1, 0x67};
    static const struct {
        size_t mtu, len;
        uint8_t refused;
        size_t packets, bytes, units, pairs;
    } cases[] = {
        {9, 16, 0, 2, 12, 0, 0}, {8, 16, 0, 1, 3, 0, 1}, {2, 16, 0, 0, 0, 1, 1},
        {0, 16, 0, 0, 0, 0, 0},  {2, 0, 0, 0, 0, 0, 0},  {2, sizeof frame, RTP_OVER_LIMITS, 0, 0, 0, 0},
    };
    for (size_t i = 0; i < sizeof cases / sizeof *cases; i++) {
        uint8_t out[16];
        size_t ends[4];
        struct rtp_h264_sent sent =
            rtp_h264_payload(rtp_h264_payloader_new(), cases[i].mtu, frame, cases[i].len, out, sizeof out, ends, 4);
        CHECK(sent.refused.number == cases[i].refused && sent.packets == cases[i].packets && sent.bytes == cases[i].bytes);
        CHECK(sent.units_dropped == cases[i].units && sent.pairs_dropped == cases[i].pairs);
        CHECK(sent.bytes == 0 || SAME(out + sent.bytes - 3, "\x65\1\2"));
    }
}

/* A host that keeps the parameter sets of a sender. */
struct host {
    struct rtp_h264_lent_payloader sender;
    uint8_t sps[1024], pps[1024], out[16];
    size_t ends[4];
};

/* Nothing saved, and every byte A7. */
static struct host fresh(void) {
    struct host h;
    memset(&h, 0xA7, sizeof h);
    h.sender = (struct rtp_h264_lent_payloader){0, 0};
    return h;
}

static struct rtp_h264_lent_sent send_lent(struct host *h, size_t mtu, const uint8_t *frame, size_t len) {
    struct rtp_h264_lent_sent sent =
        rtp_h264_lent_payload(h->sender, h->sps, h->pps, mtu, frame, len, h->out, sizeof h->out, h->ends, 4);
    h->sender = sent.sender;
    return sent;
}

/* Whether the buffers hold these sets in front and A7 behind them, and the sender's lengths are n and m. */
static bool holds(const struct host *h, const char *sps, const char *pps, size_t n, size_t m) {
    struct host full = fresh();
    memcpy(full.sps, sps, strlen(sps));
    memcpy(full.pps, pps, strlen(pps));
    return memcmp(h->sps, full.sps, 1024) == 0 && memcmp(h->pps, full.pps, 1024) == 0 && h->sender.sps_len == n && h->sender.pps_len == m;
}

/* The parameter sets in the host's buffers: sent at once, and over two calls. */
static void lent(void) {
    static const uint8_t unit[] = {0, 0, 1, 0x65, 1, 2, 3, 4, 5};
    static const uint8_t pair[] = {0, 0, 1, 0x67, 0xAA, 0, 0, 1, 0x68, 0xBB, 0, 0, 1, 0x65, 1, 2};
    struct host h = fresh();
    struct rtp_h264_lent_sent sent = send_lent(&h, 4, unit, sizeof unit);
    CHECK(sent.refused.number == 0 && sent.packets == 3 && sent.bytes == 11 && sent.units_dropped == 0 && sent.pairs_dropped == 0);
    CHECK(h.ends[0] == 4 && h.ends[1] == 8 && h.ends[2] == 11 && SAME(h.out, "\x7C\x85\1\2\x7C\5\3\4\x7C\x45\5\xA7"));
    CHECK(holds(&h, "", "", 0, 0));

    sent = send_lent(&h, 9, pair, sizeof pair);
    CHECK(sent.refused.number == 0 && sent.packets == 2 && sent.bytes == 12 && h.ends[0] == 9 && h.ends[1] == 12);
    CHECK(SAME(h.out, "\x78\0\2\x67\xAA\0\2\x68\xBB\x65\1\2") && holds(&h, "", "", 0, 0));
    sent = send_lent(&h, 8, pair, sizeof pair);
    CHECK(sent.packets == 1 && sent.units_dropped == 0 && sent.pairs_dropped == 1);
    sent = send_lent(&h, 2, pair, sizeof pair);
    CHECK(sent.packets == 0 && sent.units_dropped == 1 && sent.pairs_dropped == 1 && holds(&h, "", "", 0, 0));

    h = fresh();
    CHECK(send_lent(&h, 9, pair, 5).packets == 0 && holds(&h, "\x67\xAA", "", 2, 0));
    CHECK(send_lent(&h, 9, pair + 5, 5).packets == 0 && holds(&h, "\x67\xAA", "\x68\xBB", 2, 2));
    sent = send_lent(&h, 9, pair + 10, 6);
    CHECK(sent.packets == 2 && SAME(h.out, "\x78\0\2\x67\xAA\0\2\x68\xBB\x65\1\2") && holds(&h, "\x67\xAA", "\x68\xBB", 0, 0));
}

/* Each refusal leaves the four buffers and the lengths as they were. Behind 67AA, 68BB, 650102 stands a set of 1,025 bytes. */
static void lent_refused(void) {
    static const uint8_t frame[20 + 1024] = {0, 0, 1, 0x67, 0xAA, 0, 0, 1, 0x68, 0xBB, 0, 0, 1, 0x65, 1, 2, 0, 0, 1, 0x67};
    static const struct {
        struct rtp_h264_lent_payloader sender;
        size_t len, room, rows;
        uint8_t refused;
    } cases[] = {
        {{1025, 0}, 16, 16, 4, RTP_OUTSIDE_DOMAIN},       {{0, 1025}, 16, 16, 4, RTP_OUTSIDE_DOMAIN},
        {{SIZE_MAX, 2}, 16, 16, 4, RTP_OUTSIDE_DOMAIN},   {{0, 0}, sizeof frame, 16, 4, RTP_OVER_LIMITS},
        {{3, 1024}, sizeof frame, 0, 0, RTP_OVER_LIMITS}, {{0, 0}, 16, 11, 4, RTP_BUFFER_TOO_SMALL},
        {{0, 0}, 16, 16, 1, RTP_BUFFER_TOO_SMALL},        {{1, 0}, 16, 0, 0, RTP_BUFFER_TOO_SMALL},
    };
    for (size_t i = 0; i < sizeof cases / sizeof *cases; i++) {
        struct host h = fresh(), as_it_was = h;
        struct rtp_h264_lent_sent sent = rtp_h264_lent_payload(cases[i].sender, h.sps, h.pps, 9, frame, cases[i].len, h.out, cases[i].room,
                                                               h.ends, cases[i].rows);
        CHECK(sent.refused.number == cases[i].refused && sent.packets == 0 && sent.bytes == 0);
        CHECK(sent.units_dropped == 0 && sent.pairs_dropped == 0 && memcmp(&h, &as_it_was, sizeof h) == 0);
        CHECK(sent.sender.sps_len == cases[i].sender.sps_len && sent.sender.pps_len == cases[i].sender.pps_len);
    }
}

static void vp8(void) {
    struct rtp_vp8_payloader payloader = {.enable_picture_id = true, .picture_id = 127};
    uint8_t out[16];
    size_t ends[4];
    struct rtp_vp8_sent sent = rtp_vp8_payload(payloader, 4, (const uint8_t *)"\xAA\xBB", 2, out, sizeof out, ends, 4);
    CHECK(sent.packets == 2 && sent.bytes == 8 && SAME(out, "\x90\x80\x7F\xAA\x80\x80\x7F\xBB") && sent.payloader.picture_id == 128);

    struct rtp_vp8_read read = rtp_vp8_depacketize((struct rtp_vp8_packet){0}, (const uint8_t *)"\x90\x80\5\xAA", 4);
    CHECK(read.refused.number == 0 && read.at == 3 && read.packet.picture_id == 5);
    read = rtp_vp8_depacketize(read.packet, (const uint8_t *)"\x10\7\xAA\xBB", 4);
    CHECK(read.refused.number == 0 && read.at == 2 && read.packet.picture_id == 7 && read.packet.x == 0 && read.packet.i == 1);
    CHECK(rtp_vp8_is_partition_head(out, 4).holds && rtp_vp8_is_partition_tail(true));
}

/* "The three FU-A above as 65535, 0, 1". */
static const struct {
    uint16_t number;
    const char *payload;
    size_t len;
} fragments[3] = {{65535, "\x7C\x85\1\2", 4}, {0, "\x7C\5\3\4", 4}, {1, "\x7C\x45\5", 3}};

/* Fragment i with this time in a packet, which has 16 bytes: how long it is. */
static size_t stamped(size_t i, uint32_t time, uint8_t *packet) {
    memcpy(packet, H, 12);
    packet[2] = (uint8_t)(fragments[i].number >> 8);
    packet[3] = (uint8_t)fragments[i].number;
    for (int k = 0; k < 4; k++)
        packet[4 + k] = (uint8_t)(time >> (24 - 8 * k));
    memcpy(packet + 12, fragments[i].payload, fragments[i].len);
    return 12 + fragments[i].len;
}

/* The three fragments, of which the first bears this mark. */
static void joining(uint8_t mark) {
    struct rtp_joiner joiner = rtp_joiner_open(3, 65535);
    uint8_t gather[5], out[10];
    struct rtp_joined joined;
    for (size_t i = 0; i < 3; i++) {
        uint8_t packet[16];
        size_t len = stamped(i, 2, packet);
        packet[12] |= i == 0 ? mark : 0;
        joined = rtp_joiner_join(&joiner, packet, len, gather, sizeof gather, out, sizeof out);
        CHECK(joined.refused.number == 0 && !joined.late && joined.first == fragments[i].number && joined.count == 0);
        CHECK(joiner.running == (i < 2) && joiner.marked == (i < 2 && mark != 0) && joiner.time == (i < 2 ? 2u : 0u));
    }
    CHECK(joined.bytes == 10 && SAME(out, "\0\0\0\1") && out[4] == (0x65 | mark) && SAME(out + 5, "\1\2\3\4\5"));
    CHECK(joiner.awaited == 2 && joiner.missed == 0 && !joiner.running && joiner.gathered == 0 && !joiner.marked && joiner.time == 0);
    struct rtp_closed closed = rtp_joiner_close(joiner, 4);
    CHECK(closed.refused.number == 0 && closed.first == 2 && closed.count == 2 && closed.joiner.closed && closed.joiner.missed == 2);
    CHECK(rtp_joiner_close(closed.joiner, 4).refused.number == RTP_ALREADY_CLOSED);
    joiner = rtp_joiner_open(3, 0);
    joiner.missed = UINT32_MAX;
    CHECK(rtp_joiner_join(&joiner, H, 12, gather, sizeof gather, out, sizeof out).refused.number == RTP_MISSED_TOTAL_FULL);
    CHECK(joiner.awaited == 0 && joiner.missed == UINT32_MAX);
    joiner = rtp_joiner_open(3, 1);
    joiner.marked = true;
    CHECK(rtp_joiner_join(&joiner, H, 12, gather, sizeof gather, out, sizeof out).refused.number == RTP_OUTSIDE_DOMAIN);
    CHECK(joiner.awaited == 1 && joiner.marked && rtp_joiner_close(joiner, 1).refused.number == RTP_OUTSIDE_DOMAIN);
    joiner = rtp_joiner_open(3, 1);
    joiner.time = 2;
    CHECK(rtp_joiner_join(&joiner, H, 12, gather, sizeof gather, out, sizeof out).refused.number == RTP_OUTSIDE_DOMAIN);
    CHECK(joiner.awaited == 1 && joiner.time == 2 && rtp_joiner_close(joiner, 1).refused.number == RTP_OUTSIDE_DOMAIN);
}

/* The fragments with one time; before each but the first it comes with the other, which is refused and leaves all as it was. */
static void joining_times(uint32_t time, uint32_t other) {
    struct rtp_joiner joiner = rtp_joiner_open(3, 65535);
    uint8_t gather[5] = {0}, out[10] = {0}, packet[16];
    for (size_t i = 0; i < 3; i++) {
        struct rtp_joiner before = joiner;
        uint8_t gathered[5], handed[10] = {0};
        memcpy(gathered, gather, sizeof gather);
        size_t len = stamped(i, other, packet);
        if (i > 0) {
            struct rtp_joined joined = rtp_joiner_join(&joiner, packet, len, gather, sizeof gather, out, sizeof out);
            CHECK(joined.refused.number == RTP_OTHER_TIME && joined.refused.carried[0] == 0 && joined.bytes == 0 && !joined.late);
            CHECK(joiner.awaited == before.awaited && joiner.missed == 0 && joiner.running && joiner.gathered == before.gathered);
            CHECK(joiner.source == 3 && !joiner.marked && joiner.time == time && !joiner.closed);
            CHECK(memcmp(gather, gathered, sizeof gather) == 0 && memcmp(out, handed, sizeof out) == 0);
        }
        len = stamped(i, time, packet);
        CHECK(rtp_joiner_join(&joiner, packet, len, gather, sizeof gather, out, sizeof out).refused.number == 0);
    }
    CHECK(SAME(out, "\0\0\0\1\x65\1\2\3\4\5") && joiner.awaited == 2 && !joiner.running && joiner.time == 0);
}

/* What takes 16 MiB, more than the gate's programs have room for: a frame of one byte too many, and runs around the longest. */
static void limits(void) {
    const size_t frame = 16777216;
    uint8_t *bytes = calloc(frame + 1, 1), out[16];
    size_t ends[4];
    CHECK(bytes != NULL);
    CHECK(rtp_h264_payload(rtp_h264_payloader_new(), 1200, bytes, frame + 1, out, sizeof out, ends, 4).refused.number == RTP_OUTSIDE_DOMAIN);
    struct host h = fresh();
    CHECK(send_lent(&h, 1200, bytes, frame + 1).refused.number == RTP_OUTSIDE_DOMAIN && holds(&h, "", "", 0, 0));
    CHECK(rtp_vp8_payload((struct rtp_vp8_payloader){0}, 1200, bytes, frame + 1, out, sizeof out, ends, 4).refused.number == RTP_OUTSIDE_DOMAIN);

    struct rtp_h264_packet reader = {.is_avc = false, .gathered = frame - 1};
    struct rtp_h264_read read = rtp_h264_depacketize(reader, (const uint8_t *)"\x7C\5\1", 3, bytes, frame, out, sizeof out);
    CHECK(read.refused.number == RTP_GATHER_TOO_SMALL && read.packet.gathered == frame - 1);
    read = rtp_h264_depacketize(reader, (const uint8_t *)"\x7C\x45\1", 3, bytes, frame, out, sizeof out);
    CHECK(read.refused.number == RTP_GATHER_TOO_SMALL && read.packet.gathered == frame - 1 && bytes[frame - 1] == 0);
    reader.gathered = frame;
    read = rtp_h264_depacketize(reader, (const uint8_t *)"\x41\0\0", 3, bytes, frame, out, sizeof out);
    CHECK(read.refused.number == RTP_OUTSIDE_DOMAIN && read.packet.gathered == frame);

    struct rtp_joiner joiner = rtp_joiner_open(3, 1);
    joiner.running = true;
    joiner.gathered = frame;
    CHECK(rtp_joiner_join(&joiner, H, 12, bytes, frame, out, sizeof out).refused.number == RTP_OUTSIDE_DOMAIN);
    CHECK(joiner.awaited == 1 && joiner.running && joiner.gathered == frame);
    free(bytes);
}

int main(void) {
    sizes();
    headers();
    extensions();
    packets();
    parts();
    h264();
    dropped();
    lent();
    lent_refused();
    vp8();
    joining(0);
    joining(0x80);
    joining_times(2, 9);
    joining_times(0, UINT32_MAX);
    joining_times(UINT32_MAX, 0);
    limits();
    return 0;
}
