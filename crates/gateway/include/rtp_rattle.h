/* RTP headers and packets, H.264 and VP8 payloads, and a joiner of H.264 units: the proved calls of crates/gateway.
 *
 * A slice is a pointer and a count of elements: `const uint8_t *packet, size_t packet_len`. The pointer is not read where the count
 * is 0. A buffer of a fixed size is a pointer to that many bytes: `uint8_t sps[1024]`. What is written (`uint8_t *`, `size_t *`, such a
 * buffer, a joiner) overlaps nothing else that is passed in the same call.
 * A `bool` is true or false, in a record too: a record that was never set is no argument. Any other value in a record is; what lies
 * outside the limits is refused with 8.
 *
 * Each call that can refuse answers a record that begins with `refused`, or with the number alone where its refusals carry nothing. The number is 0 where the call answers. Else nothing is changed: no buffer, no state; every
 * other value is 0 and the state comes back as it was. One call differs: rtp_vp8_depacketize keeps the fields read so far
 * beside refusal 4 of a payload of 4 bytes or more.
 *
 * For 64-bit machines: size_t has 64 bits. */
#ifndef RTP_RATTLE_H
#define RTP_RATTLE_H

#include <stdbool.h>
#include <stddef.h>
#include <stdint.h>

#ifdef __cplusplus
extern "C" {
#endif

/* ---- refusals */

enum rtp_refusal {
    RTP_HEADER_SIZE_INSUFFICIENT = 1,               /* under 4 bytes, or under 12 + 4 x CC */
    RTP_HEADER_SIZE_INSUFFICIENT_FOR_EXTENSION = 2, /* extension header or block longer than the packet */
    RTP_ELEMENT_PAST_PACKET = 3,                    /* an element's byte lies past the packet */
    RTP_SHORT_PACKET = 4,                           /* the packet is too short */
    RTP_BUFFER_TOO_SMALL = 5,                       /* output buffer, or table of packet ends, too small */
    RTP_GATHER_TOO_SMALL = 6,                       /* gather buffer too small, or the run over 16,777,215 bytes */
    RTP_OVER_LIMITS = 7,                            /* over 32 elements or 1,024 data bytes; an SPS or PPS over 1,024 */
    RTP_OUTSIDE_DOMAIN = 8,                         /* any other input outside the limits */
    RTP_EXTENSION_NOT_WORDS = 9,                    /* other profile, element bytes not a multiple of 4 */
    RTP_RFC3550_HEADER_ID_RANGE = 10,               /* other profile: set with id not 0; write with element count not 1 */
    RTP_RFC8285_ONE_BYTE_ID_RANGE = 11,             /* set, one-byte: id not 1..14 */
    RTP_RFC8285_ONE_BYTE_SIZE = 12,                 /* set, one-byte: size over 16 */
    RTP_RFC8285_TWO_BYTE_ID_RANGE = 13,             /* set, two-byte: id 0 */
    RTP_RFC8285_TWO_BYTE_SIZE = 14,                 /* set, two-byte: size over 255 */
    RTP_EXTENSION_NOT_FOUND = 15,                   /* delete: id absent */
    RTP_EXTENSIONS_NOT_ENABLED = 16,                /* delete: extensions off */
    RTP_STAP_A_SIZE_LARGER_THAN_BUFFER = 17,        /* STAP-A size past the packet: carries the size and the bytes left */
    RTP_STAP_A_SIZE_CUT = 18,                       /* one byte left where STAP-A needs a two-byte size */
    RTP_NALU_TYPE_IS_NOT_HANDLED = 19,              /* NAL type 0, 25..27, 29..31: carries the type */
    RTP_OTHER_SOURCE = 20,                          /* joiner: other SSRC */
    RTP_START_AND_END = 21,                         /* joiner: FU-A with start and end both set */
    RTP_ALREADY_CLOSED = 22,                        /* joiner already closed */
    RTP_CLOSING_TOO_FAR = 23,                       /* closing number 32,768 or more ahead of the awaited one */
    RTP_MISSED_TOTAL_FULL = 24,                     /* missed total would pass 4,294,967,295 */
    RTP_OTHER_TIME = 25                             /* joiner: fragment of another time */
};

struct rtp_refused {
    uint8_t number;    /* 0 where the call answers; else one of enum rtp_refusal */
    size_t carried[2]; /* 17: the size and the bytes left; 19: the NAL type and a zero; else zeros */
};

struct rtp_test {
    struct rtp_refused refused;
    bool holds; /* false beside a refusal */
};

/* ---- the header */

struct rtp_extensions {
    size_t count;        /* how many elements there are: 0 to 32 */
    uint8_t ids[32];     /* the id of each */
    uint16_t lens[32];   /* how many data bytes each has: 1,024 in all at most */
    uint8_t bytes[1024]; /* the data of all of them, packed in order */
};

struct rtp_header {
    uint8_t version;      /* 0 to 3; 2 for RTP */
    bool padding;         /* the packet ends in padding */
    bool extension;       /* the header has an extension block */
    bool marker;
    uint8_t payload_type; /* 0 to 127 */
    uint16_t sequence_number;
    uint32_t timestamp;
    uint32_t ssrc;
    size_t csrc_count;    /* how many contributing sources there are: 0 to 15 */
    uint32_t csrc[15];
    uint16_t extension_profile; /* 0xBEDE: one-byte elements; 0x1000: two-byte elements; any other: one element of whole words */
    struct rtp_extensions extensions;
    size_t extensions_padding;  /* zeros of the block: as many as were read, or as the size is to count: 0 to 262,140 */
};

struct rtp_header_read {
    struct rtp_refused refused;
    size_t at;                /* the payload's place in the packet */
    struct rtp_header header; /* all zeros beside a refusal */
};

struct rtp_length {
    struct rtp_refused refused;
    size_t bytes;
};

struct rtp_header_changed {
    struct rtp_refused refused;
    struct rtp_header header;
};

struct rtp_element {
    struct rtp_refused refused;
    bool present; /* false where the header has none of that id */
    size_t at;    /* the data: `len` bytes of the header's `extensions.bytes` from `at` on */
    size_t len;
};

struct rtp_ids {
    struct rtp_refused refused;
    size_t count;
    uint8_t ids[32]; /* in order, then zeros */
};

/* All zeros. */
struct rtp_header rtp_header_default(void);

struct rtp_header_read rtp_header_unmarshal(const uint8_t *packet, size_t packet_len);

struct rtp_length rtp_header_marshal_size(struct rtp_header header);

/* How many bytes were written; the rest of the buffer stays. */
struct rtp_length rtp_header_marshal_to(struct rtp_header header, uint8_t *buf, size_t buf_len);

struct rtp_header_changed rtp_header_set_extension(struct rtp_header header, uint8_t id, const uint8_t *payload, size_t payload_len);

struct rtp_header_changed rtp_header_del_extension(struct rtp_header header, uint8_t id);

struct rtp_element rtp_header_get_extension(struct rtp_header header, uint8_t id);

struct rtp_ids rtp_header_get_extension_ids(struct rtp_header header);

struct rtp_length rtp_header_get_extension_payload_len(struct rtp_header header);

/* ---- the packet */

struct rtp_packet_read {
    struct rtp_refused refused;
    size_t at; /* the payload: `len` bytes of the packet from `at` on */
    size_t len;
    struct rtp_header header; /* all zeros beside a refusal */
};

struct rtp_packet_read rtp_packet_unmarshal(const uint8_t *packet, size_t packet_len);

struct rtp_length rtp_packet_marshal_size(struct rtp_header header, const uint8_t *payload, size_t payload_len);

/* How many bytes were written; the rest of the buffer stays. */
struct rtp_length rtp_packet_marshal_to(struct rtp_header header, const uint8_t *payload, size_t payload_len, uint8_t *buf, size_t buf_len);

/* ---- headers and packets in parts
 *
 * A header's record has 1,224 bytes, and the calls above copy it two or three times, some 20 ns each. The calls below copy none: what is
 * small of it goes by value, its arrays are lent. They read, write and refuse exactly what those do. Use
 *
 *   rtp_header_marshal_from, rtp_packet_marshal_from   to write from a record;
 *   rtp_header_marshal_size_from and the others that end so   to look at a record;
 *   rtp_header_unmarshal_into, rtp_packet_unmarshal_into   to read into a record that is there;
 *   rtp_header_unmarshal_front, rtp_packet_unmarshal_front   where CSRCs and elements are not wanted: nothing else is as quick;
 *   the calls above where a header comes and goes by value.
 *
 * The parts of a record are its first fields, in a struct of their own, its csrc_count, csrc and extension_profile, the four fields of its
 * extensions, and its extensions_padding. The answers of most of these calls begin with `number`, 0 where the call answers, else one of enum
 * rtp_refusal: their refusals carry nothing. */

/* The first fields of a header, in their order. */
struct rtp_fixed {
    uint8_t version;
    bool padding;
    bool extension;
    bool marker;
    uint8_t payload_type;
    uint16_t sequence_number;
    uint32_t timestamp;
    uint32_t ssrc;
};

/* A header without its arrays. */
struct rtp_front {
    struct rtp_fixed fixed;
    size_t csrc_count; /* how many contributing sources there are: 0 to 15 */
    size_t count;      /* how many extension elements there are: 0 to 32 */
    size_t extensions_padding;
    uint16_t extension_profile;
};

struct rtp_bytes {
    size_t number;
    size_t bytes; /* how many they are, or how many were written: then the rest of the buffer stays */
};

struct rtp_header_front {
    size_t number;
    size_t at;              /* the payload's place in the packet */
    struct rtp_front front; /* all zeros beside a refusal */
};

struct rtp_packet_front {
    size_t number;
    size_t at; /* the payload: `len` bytes of the packet from `at` on */
    size_t len;
    struct rtp_front front; /* all zeros beside a refusal */
};

struct rtp_header_front rtp_header_unmarshal_front(const uint8_t *packet, size_t packet_len);

/* The arrays become those of the header, with zeros behind what it has; beside a refusal they stay. */
struct rtp_header_front rtp_header_unmarshal_parts(const uint8_t *packet, size_t packet_len, uint32_t csrc[15], uint8_t ids[32],
                                                   uint16_t lens[32], uint8_t bytes[1024]);

struct rtp_packet_front rtp_packet_unmarshal_front(const uint8_t *packet, size_t packet_len);

struct rtp_packet_front rtp_packet_unmarshal_parts(const uint8_t *packet, size_t packet_len, uint32_t csrc[15], uint8_t ids[32],
                                                   uint16_t lens[32], uint8_t bytes[1024]);

/* `profile` and `padding` are a header's extension_profile and extensions_padding. */
struct rtp_bytes rtp_header_marshal_parts(struct rtp_fixed fixed, size_t csrc_count, const uint32_t csrc[15], uint16_t profile,
                                            size_t count, const uint8_t ids[32], const uint16_t lens[32], const uint8_t bytes[1024],
                                            size_t padding, uint8_t *buf, size_t buf_len);

/* Of a header without CSRCs and elements. */
struct rtp_bytes rtp_header_marshal_bare(struct rtp_fixed fixed, uint16_t profile, size_t padding, uint8_t *buf, size_t buf_len);

struct rtp_bytes rtp_packet_marshal_parts(struct rtp_fixed fixed, size_t csrc_count, const uint32_t csrc[15], uint16_t profile,
                                            size_t count, const uint8_t ids[32], const uint16_t lens[32], const uint8_t bytes[1024],
                                            size_t padding, const uint8_t *payload, size_t payload_len, uint8_t *buf, size_t buf_len);

/* Of a packet whose header has no CSRCs and elements. */
struct rtp_bytes rtp_packet_marshal_bare(struct rtp_fixed fixed, uint16_t profile, size_t padding, const uint8_t *payload,
                                           size_t payload_len, uint8_t *buf, size_t buf_len);

struct rtp_bytes rtp_header_marshal_size_parts(struct rtp_fixed fixed, size_t csrc_count, const uint32_t csrc[15], uint16_t profile,
                                               size_t count, const uint8_t ids[32], const uint16_t lens[32], const uint8_t bytes[1024],
                                               size_t padding);

struct rtp_bytes rtp_header_get_extension_payload_len_parts(struct rtp_fixed fixed, size_t csrc_count, const uint32_t csrc[15], uint16_t profile,
                                                            size_t count, const uint8_t ids[32], const uint16_t lens[32], const uint8_t bytes[1024],
                                                            size_t padding);

struct rtp_element rtp_header_get_extension_parts(struct rtp_fixed fixed, size_t csrc_count, const uint32_t csrc[15], uint16_t profile,
                                                  size_t count, const uint8_t ids[32], const uint16_t lens[32], const uint8_t bytes[1024],
                                                  size_t padding, uint8_t id);

struct rtp_ids rtp_header_get_extension_ids_parts(struct rtp_fixed fixed, size_t csrc_count, const uint32_t csrc[15], uint16_t profile,
                                                  size_t count, const uint8_t ids[32], const uint16_t lens[32], const uint8_t bytes[1024],
                                                  size_t padding);

struct rtp_bytes rtp_packet_marshal_size_parts(struct rtp_fixed fixed, size_t csrc_count, const uint32_t csrc[15], uint16_t profile,
                                               size_t count, const uint8_t ids[32], const uint16_t lens[32], const uint8_t bytes[1024],
                                               size_t padding, const uint8_t *payload, size_t payload_len);

static inline struct rtp_fixed rtp_header_fixed(const struct rtp_header *h)
{
    struct rtp_fixed fixed = {h->version,         h->padding,   h->extension, h->marker, h->payload_type,
                              h->sequence_number, h->timestamp, h->ssrc};
    return fixed;
}

static inline void rtp_header_store(struct rtp_header *h, const struct rtp_front *front)
{
    h->version = front->fixed.version;
    h->padding = front->fixed.padding;
    h->extension = front->fixed.extension;
    h->marker = front->fixed.marker;
    h->payload_type = front->fixed.payload_type;
    h->sequence_number = front->fixed.sequence_number;
    h->timestamp = front->fixed.timestamp;
    h->ssrc = front->fixed.ssrc;
    h->csrc_count = front->csrc_count;
    h->extension_profile = front->extension_profile;
    h->extensions.count = front->count;
    h->extensions_padding = front->extensions_padding;
}

/* Beside a refusal the record is as it was; so it is below. */
static inline struct rtp_header_front rtp_header_unmarshal_into(struct rtp_header *h, const uint8_t *packet, size_t packet_len)
{
    struct rtp_header_front read = rtp_header_unmarshal_parts(packet, packet_len, h->csrc, h->extensions.ids, h->extensions.lens,
                                                              h->extensions.bytes);
    if (read.number == 0)
        rtp_header_store(h, &read.front);
    return read;
}

static inline struct rtp_packet_front rtp_packet_unmarshal_into(struct rtp_header *h, const uint8_t *packet, size_t packet_len)
{
    struct rtp_packet_front read = rtp_packet_unmarshal_parts(packet, packet_len, h->csrc, h->extensions.ids, h->extensions.lens,
                                                              h->extensions.bytes);
    if (read.number == 0)
        rtp_header_store(h, &read.front);
    return read;
}

static inline struct rtp_bytes rtp_header_marshal_from(const struct rtp_header *h, uint8_t *buf, size_t buf_len)
{
    if (h->csrc_count == 0 && h->extensions.count == 0)
        return rtp_header_marshal_bare(rtp_header_fixed(h), h->extension_profile, h->extensions_padding, buf, buf_len);
    return rtp_header_marshal_parts(rtp_header_fixed(h), h->csrc_count, h->csrc, h->extension_profile, h->extensions.count,
                                    h->extensions.ids, h->extensions.lens, h->extensions.bytes, h->extensions_padding, buf, buf_len);
}

static inline struct rtp_bytes rtp_packet_marshal_from(const struct rtp_header *h, const uint8_t *payload, size_t payload_len,
                                                         uint8_t *buf, size_t buf_len)
{
    if (h->csrc_count == 0 && h->extensions.count == 0)
        return rtp_packet_marshal_bare(rtp_header_fixed(h), h->extension_profile, h->extensions_padding, payload, payload_len, buf,
                                       buf_len);
    return rtp_packet_marshal_parts(rtp_header_fixed(h), h->csrc_count, h->csrc, h->extension_profile, h->extensions.count,
                                    h->extensions.ids, h->extensions.lens, h->extensions.bytes, h->extensions_padding, payload,
                                    payload_len, buf, buf_len);
}

static inline struct rtp_bytes rtp_header_marshal_size_from(const struct rtp_header *h)
{
    return rtp_header_marshal_size_parts(rtp_header_fixed(h), h->csrc_count, h->csrc, h->extension_profile, h->extensions.count,
                                         h->extensions.ids, h->extensions.lens, h->extensions.bytes, h->extensions_padding);
}

static inline struct rtp_bytes rtp_header_get_extension_payload_len_from(const struct rtp_header *h)
{
    return rtp_header_get_extension_payload_len_parts(rtp_header_fixed(h), h->csrc_count, h->csrc, h->extension_profile, h->extensions.count,
                                                      h->extensions.ids, h->extensions.lens, h->extensions.bytes, h->extensions_padding);
}

static inline struct rtp_element rtp_header_get_extension_from(const struct rtp_header *h, uint8_t id)
{
    return rtp_header_get_extension_parts(rtp_header_fixed(h), h->csrc_count, h->csrc, h->extension_profile, h->extensions.count,
                                          h->extensions.ids, h->extensions.lens, h->extensions.bytes, h->extensions_padding, id);
}

static inline struct rtp_ids rtp_header_get_extension_ids_from(const struct rtp_header *h)
{
    return rtp_header_get_extension_ids_parts(rtp_header_fixed(h), h->csrc_count, h->csrc, h->extension_profile, h->extensions.count,
                                              h->extensions.ids, h->extensions.lens, h->extensions.bytes, h->extensions_padding);
}

static inline struct rtp_bytes rtp_packet_marshal_size_from(const struct rtp_header *h, const uint8_t *payload, size_t payload_len)
{
    return rtp_packet_marshal_size_parts(rtp_header_fixed(h), h->csrc_count, h->csrc, h->extension_profile, h->extensions.count,
                                         h->extensions.ids, h->extensions.lens, h->extensions.bytes, h->extensions_padding, payload, payload_len);
}

/* ---- H.264 */

struct rtp_parameter_set {
    uint8_t bytes[1024]; /* its bytes, zeros behind them */
    size_t len;          /* how many they are, 0 to 1,024; 0 for none */
};

struct rtp_h264_payloader {
    struct rtp_parameter_set sps; /* waits for a picture parameter set, or for a unit to be sent before */
    struct rtp_parameter_set pps;
};

struct rtp_h264_sent {
    struct rtp_refused refused;
    size_t packets;       /* how many packets were written */
    size_t bytes;         /* how many bytes they have together */
    size_t units_dropped; /* how many units were dropped for the mtu */
    size_t pairs_dropped; /* how many pairs of parameter sets were dropped for the mtu */
    struct rtp_h264_payloader sender;
};

/* A sender whose parameter sets lie in two buffers that the host keeps. Both lengths 0 for one with nothing saved. */
struct rtp_h264_lent_payloader {
    size_t sps_len; /* how many bytes in front of its buffer are a sequence parameter set that waits, 0 to 1,024; 0 for none */
    size_t pps_len; /* of the picture parameter set, likewise */
};

struct rtp_h264_lent_sent {
    struct rtp_refused refused;
    size_t packets;       /* how many packets were written */
    size_t bytes;         /* how many bytes they have together */
    size_t units_dropped; /* how many units were dropped for the mtu */
    size_t pairs_dropped; /* how many pairs of parameter sets were dropped for the mtu */
    struct rtp_h264_lent_payloader sender;
};

struct rtp_h264_packet {
    bool is_avc;     /* units are handed out behind a 4-byte length, and not behind a start code */
    size_t gathered; /* how many bytes of fragments stand in front of the gather buffer; 0 for none: 0 to 16,777,215 */
};

struct rtp_body {
    uint8_t lies_in; /* 0: nowhere; 1: in the payload; 2: in the gather buffer */
    size_t at;       /* `len` bytes from `at` on */
    size_t len;
};

struct rtp_h264_read {
    struct rtp_refused refused;
    size_t bytes;         /* how many bytes were handed out */
    struct rtp_body body; /* all after the first byte of the unit that the payload completed */
    struct rtp_h264_packet packet;
};

/* A sender with nothing saved. */
struct rtp_h264_payloader rtp_h264_payloader_new(void);

/* The payloads of a frame, each of at most mtu bytes, one behind the other in out; ends says where each ends. What cannot go so is dropped, and
 * counted. */
struct rtp_h264_sent rtp_h264_payload(struct rtp_h264_payloader sender, size_t mtu, const uint8_t *frame, size_t frame_len, uint8_t *out,
                                      size_t out_len, size_t *ends, size_t ends_len);

/* The same with the parameter sets in sps and pps, which the host leaves alone between calls. A set that waits stands in front of its
 * buffer; what stands behind it is any, and stays. Nothing of their size goes by value: this is the call for a host that sends a frame a
 * call. */
struct rtp_h264_lent_sent rtp_h264_lent_payload(struct rtp_h264_lent_payloader sender, uint8_t sps[1024], uint8_t pps[1024], size_t mtu,
                                                const uint8_t *frame, size_t frame_len, uint8_t *out, size_t out_len, size_t *ends,
                                                size_t ends_len);

/* Reads a payload: fragments are gathered in gather, which is left alone between calls; whole units are handed out in out. */
struct rtp_h264_read rtp_h264_depacketize(struct rtp_h264_packet packet, const uint8_t *payload, size_t payload_len, uint8_t *gather,
                                          size_t gather_len, uint8_t *out, size_t out_len);

struct rtp_test rtp_h264_is_partition_head(const uint8_t *payload, size_t payload_len);

bool rtp_h264_is_partition_tail(bool marker);

/* ---- VP8 */

struct rtp_vp8_payloader {
    bool enable_picture_id; /* whether each payload shows the picture id */
    uint16_t picture_id;    /* the next frame's id, 0 to 32,767 */
};

struct rtp_vp8_sent {
    struct rtp_refused refused;
    size_t packets; /* how many packets were written */
    size_t bytes;   /* how many bytes they have together */
    struct rtp_vp8_payloader payloader;
};

/* The fields of the descriptors read so far: a field that a packet does not have keeps its value. */
struct rtp_vp8_packet {
    uint8_t x;           /* 1 where the extension octet is there */
    uint8_t n;           /* 1 where the frame can be discarded */
    uint8_t s;           /* 1 at the start of a VP8 partition */
    uint8_t pid;         /* the partition's index, 0 to 7 */
    uint8_t i;           /* 1 where the picture id is there; any other number counts as 0, here and in l, t, k */
    uint8_t l;           /* 1 where tl0_pic_idx is there */
    uint8_t t;           /* 1 where tid and y are there */
    uint8_t k;           /* 1 where key_idx is there */
    uint16_t picture_id; /* 7 or 15 bits: 0 to 32,767 */
    uint8_t tl0_pic_idx; /* index of the temporal base layer, 0 to 255 */
    uint8_t tid;         /* temporal layer, 0 to 3 */
    uint8_t y;           /* layer sync bit */
    uint8_t key_idx;     /* index of the temporal key frame, 0 to 31 */
};

struct rtp_vp8_read {
    struct rtp_refused refused;
    size_t at; /* where the VP8 payload begins: it is all from there on */
    struct rtp_vp8_packet packet;
};

/* The payloads of a frame, each of at most mtu bytes, one behind the other in out; ends says where each ends. */
struct rtp_vp8_sent rtp_vp8_payload(struct rtp_vp8_payloader payloader, size_t mtu, const uint8_t *frame, size_t frame_len, uint8_t *out,
                                    size_t out_len, size_t *ends, size_t ends_len);

struct rtp_vp8_read rtp_vp8_depacketize(struct rtp_vp8_packet packet, const uint8_t *payload, size_t payload_len);

struct rtp_test rtp_vp8_is_partition_head(const uint8_t *payload, size_t payload_len);

bool rtp_vp8_is_partition_tail(bool marker);

/* ---- the joiner of H.264 units */

struct rtp_joiner {
    uint32_t source;  /* the sender's SSRC */
    uint16_t awaited; /* the sequence number of the next packet */
    uint32_t missed;  /* how many packets were passed over */
    bool running;     /* a run is open: fragments of a unit were gathered, and its last is still to come */
    size_t gathered;  /* how many bytes of the open run stand in front of the gather buffer; 0 where no run is open: 0 to 16,777,215. Any
                       * other number where no run is open is refused with 8 */
    uint32_t time;    /* the timestamp that the fragments of the open run share: any number; 0 where no run is open. Any other number where
                       * no run is open is refused with 8 */
    bool marked;      /* a fragment of the open run had its forbidden bit set; false where no run is open. True where no run is open is
                       * refused with 8 */
    bool closed;      /* closed: every call answers 22 */
};

struct rtp_joined {
    struct rtp_refused refused;
    bool late;      /* its number is 32,768 or more ahead: nothing was done with it, and the rest is 0 */
    uint16_t first; /* the first of the numbers that were passed over before it */
    uint16_t count; /* how many they are */
    size_t bytes;   /* how many bytes were handed out */
};

struct rtp_closed {
    struct rtp_refused refused;
    uint16_t first; /* the first of the numbers that never came */
    uint16_t count; /* how many they are */
    struct rtp_joiner joiner;
};

struct rtp_joiner rtp_joiner_open(uint32_t ssrc, uint16_t first);

/* Brings the joiner up to date by a packet. The gather buffer is left alone between calls; units are handed out in out, each behind
 * 00 00 00 01. The first byte of a unit that came in fragments has NRI and type of the last of them, and the forbidden bit where any of them
 * had it; every other unit is handed out as it came.
 * All fragments of a unit carry one timestamp. One that is no start and has the awaited number, but another timestamp than the open run, is of
 * another unit, as where a second encoder sends under the same SSRC: it is refused with 25, and its number is awaited still. */
struct rtp_joined rtp_joiner_join(struct rtp_joiner *joiner, const uint8_t *packet, size_t packet_len, uint8_t *gather, size_t gather_len,
                                  uint8_t *out, size_t out_len);

/* Closes it with the number after the last sent. */
struct rtp_closed rtp_joiner_close(struct rtp_joiner joiner, uint16_t number);

/* ---- the sizes of these records */

/* How many bytes each record above has, as the calls were compiled: a host whose `sizeof (struct rtp_header)` is not
 * `rtp_sizes().header` was compiled with another header, and must not call. Equal sizes alone do not show that the headers are equal: `running`
 * of a joiner takes a byte that would be padding without it, and its `time` and `marked` stand where a header without them has `closed` and
 * padding. This record too grows where one is added, and is then longer than an older host's: compile with the header that came with the
 * archive before you ask. */
struct rtp_sizes {
    size_t refused;
    size_t test;
    size_t extensions;
    size_t header;
    size_t fixed;
    size_t front;
    size_t bytes;
    size_t header_front;
    size_t header_read;
    size_t length;
    size_t header_changed;
    size_t element;
    size_t ids;
    size_t packet_front;
    size_t packet_read;
    size_t parameter_set;
    size_t h264_payloader;
    size_t h264_sent;
    size_t h264_lent_payloader;
    size_t h264_lent_sent;
    size_t h264_packet;
    size_t body;
    size_t h264_read;
    size_t vp8_payloader;
    size_t vp8_sent;
    size_t vp8_packet;
    size_t vp8_read;
    size_t joiner;
    size_t joined;
    size_t closed;
};

struct rtp_sizes rtp_sizes(void);

#ifdef __cplusplus
}
#endif

#endif
