/* GTP-U, GTPv2-C, traffic flow templates, policing and charging: proved functions for C and C++.
 *
 * Each call answers GTP_C_OK or the number of a refusal (enum gtp_c_code). On a refusal nothing is written but
 * *needed, unless a line below says otherwise. Calls of libgtp_c take no memory, share nothing, and may run in any
 * number of threads. Those below "libgtp_c_memory" take memory for the time of the call, and answer
 * GTP_C_NO_MEMORY where there is none.
 *
 * What memory must be there, which no call can test:
 * - a pointer and a length behind it are so many octets or structs, all of them readable, and writable behind a
 *   pointer without const; a length is below 2^63. NULL is well where the length is 0, and nowhere else;
 * - what a call writes (out, needed, head, ..) lies apart from all else that it is given;
 * - a struct's pointer is aligned as C aligns the struct;
 * - no other thread writes meanwhile what a call reads, or touches what it writes.
 * Structs need not be initialised before a call fills them.
 *
 * Addresses, ports and TEIDs are numbers in the order of the machine: 192.0.2.1 is 0xc0000201. Octets in messages
 * and packets are as on the wire. The standards: TS 29.281 (GTP-U), TS 29.274 (GTPv2-C), TS 24.008 (templates),
 * TS 23.401 (rates), RFC 791 (IPv4). x86-64 with the instructions of x86-64-v2, System V calling convention. */
#ifndef GTP_C_H
#define GTP_C_H

#include <stddef.h>
#include <stdint.h>

#ifdef __cplusplus
extern "C" {
#endif

/* What a call answers. */
enum gtp_c_code {
    GTP_C_OK = 0,
    GTP_C_SHORT = 1,        /* fewer octets than a header, a value or an entry has */
    GTP_C_VERSION = 2,      /* another version */
    GTP_C_NOT_GTP = 3,      /* GTP' in the place of GTP */
    GTP_C_LENGTH = 4,       /* a length passes the end, or ends within the header */
    GTP_C_EXTENSION = 5,    /* an extension header is empty or passes the end */
    GTP_C_KIND = 6,         /* a type of message that isn't spoken here */
    GTP_C_PIGGYBACK = 7,    /* another message is piggybacked */
    GTP_C_HEADER = 8,       /* an IPv4 header's length is below five words, or passes the end */
    GTP_C_TOTAL = 9,        /* an IPv4 total length ends within the header, or passes the end */
    GTP_C_MISSING = 10,     /* a required element is absent */
    GTP_C_INCORRECT = 11,   /* a required element is outside its grammar */
    GTP_C_PARAMETERS = 12,  /* a template has a parameter list */
    GTP_C_OPERATION = 13,   /* a template's operation is none, or has another number of entries */
    GTP_C_COMPONENT = 14,   /* a filter's contents are no components */
    GTP_C_REPEATED_ID = 15, /* an identifier stands twice */
    GTP_C_TRAILING = 16,    /* octets stand behind the last entry */
    GTP_C_NO_SUCH_ID = 17,  /* no filter has an identifier that is replaced or removed */
    GTP_C_ID_TAKEN = 18,    /* a filter has an identifier that is added */
    GTP_C_EMPTY = 19,       /* there is no filter to delete, or none would be left */
    GTP_C_NO_MEMORY = 20,   /* memory ran out */
    GTP_C_NO_ROOM = 21,     /* out is too short: *needed says how much it must have */
    GTP_C_TOO_LONG = 22,    /* a payload is longer than 65,535 octets */
    GTP_C_RANGE = 23,       /* a number, a moment or a struct is out of its range */
    GTP_C_VALUE = 24,       /* a value is outside its element's grammar */
    GTP_C_END = 25,         /* no element begins here: the end */
    GTP_C_NO_BEARER = 26,   /* the packet takes no bearer */
    GTP_C_TOO_MANY = 27,    /* more filters than are looked at */
    GTP_C_POLICED = 28,     /* the octets don't pass the policer */
    GTP_C_NO_REPLY = 29,    /* the message is no request, and gets no reply */
    GTP_C_FULL = 30         /* the packet was counted, and filled its piece */
};

/* ---- GTP-U (TS 29.281) ---- */

struct gtp_c_gtpu_head {
    size_t body_from; /* the body is bytes + body_from, behind all extension headers; within the octets given */
    size_t body_len;  /* octets */
    uint32_t teid;
    uint16_t seq;     /* counts where has_seq is 1 */
    uint8_t has_seq;  /* 0 or 1 */
    uint8_t kind;     /* 1 Echo Request, 2 Echo Response, 26 Error Indication, 254 End Marker, 255 G-PDU */
};

/* The message at the front of some octets (section 5.1). SHORT, VERSION, NOT_GTP, LENGTH, EXTENSION, KIND: the first
 * that fits. */
uint32_t gtp_c_gtpu_read(const uint8_t *bytes, size_t len, struct gtp_c_gtpu_head *head);

/* Writes the eight octets before a payload of payload_len octets to the front of out. TOO_LONG, NO_ROOM; *needed is 8. */
uint32_t gtp_c_gpdu_head(uint32_t teid, size_t payload_len, uint8_t *out, size_t room, size_t *needed);

/* Each writes a whole message to the front of out: 12, 14, 24 and 8 octets. NO_ROOM; *needed is the message's length. */
uint32_t gtp_c_echo_request(uint16_t seq, uint8_t *out, size_t room, size_t *needed);
uint32_t gtp_c_echo_response(uint16_t seq, uint8_t *out, size_t room, size_t *needed);
uint32_t gtp_c_error_indication(uint16_t seq, uint32_t teid, uint32_t peer, uint8_t *out, size_t room, size_t *needed);
uint32_t gtp_c_end_marker(uint32_t teid, uint8_t *out, size_t room, size_t *needed);

/* ---- GTPv2-C (TS 29.274) ---- */

struct gtp_c_gtpv2_head {
    size_t ies_from;  /* the elements are bytes + ies_from; within the octets given */
    size_t ies_len;   /* octets */
    uint32_t teid;    /* counts where has_teid is 1 */
    uint32_t seq;     /* below 2^24 */
    uint8_t has_teid; /* 0 or 1 */
    uint8_t kind;     /* the message type (table 6.1-1) */
};

/* The head of the message at the front of some octets (section 5.1). SHORT, VERSION, PIGGYBACK, LENGTH, KIND: the first
 * that fits. */
uint32_t gtp_c_gtpv2_head(const uint8_t *bytes, size_t len, struct gtp_c_gtpv2_head *head);

/* An element: its value is octets[from] up to octets[to], where the next element begins. */
struct gtp_c_ie {
    size_t from;
    size_t to;
    uint8_t kind;     /* the element type (table 8.1-1) */
    uint8_t instance; /* below 16 */
};

/* The element whose header begins at a place of some octets, as those at ies_from: begin at 0, go on at ie->to. END
 * behind the last, SHORT where one to three octets are left, LENGTH where a value passes the end. */
uint32_t gtp_c_ie_at(const uint8_t *octets, size_t len, size_t at, struct gtp_c_ie *ie);

/* The value of an element: each call takes the octets of one value, octets + ie.from and ie.to - ie.from. SHORT where
 * they are too few, VALUE where they are outside the element's grammar. Octets behind a value's own, and spare bits,
 * don't count. */

struct gtp_c_imsi {
    uint8_t digits[16]; /* in ASCII; the first count of them count */
    uint8_t count;      /* 6 to 15 */
};
uint32_t gtp_c_imsi(const uint8_t *value, size_t len, struct gtp_c_imsi *imsi); /* section 8.3 */

struct gtp_c_cause {
    uint8_t cause;              /* table 8.4-1 */
    uint8_t has_offending;      /* 0 or 1 */
    uint8_t offending_kind;     /* the offending element's type and instance: count where has_offending is 1 */
    uint8_t offending_instance; /* below 16 */
};
uint32_t gtp_c_cause(const uint8_t *value, size_t len, struct gtp_c_cause *cause); /* section 8.4 */

uint32_t gtp_c_recovery(const uint8_t *value, size_t len, uint8_t *counter); /* the restart counter: section 8.5 */

struct gtp_c_ambr {
    uint32_t up; /* kilobits a second */
    uint32_t down;
};
uint32_t gtp_c_ambr(const uint8_t *value, size_t len, struct gtp_c_ambr *ambr); /* section 8.7 */

uint32_t gtp_c_ebi(const uint8_t *value, size_t len, uint8_t *ebi); /* 0 or 5 to 15: section 8.8 */

uint32_t gtp_c_paa(const uint8_t *value, size_t len, uint32_t *address); /* of PDN type IPv4: section 8.14 */

struct gtp_c_bearer_qos {
    uint64_t mbr_up; /* kilobits a second, below 2^40 */
    uint64_t mbr_down;
    uint64_t gbr_up;
    uint64_t gbr_down;
    uint8_t arp;     /* PCI in bit 7, priority level in bits 6 to 3, PVI in bit 1 */
    uint8_t qci;
};
uint32_t gtp_c_bearer_qos(const uint8_t *value, size_t len, struct gtp_c_bearer_qos *qos); /* section 8.15 */

uint32_t gtp_c_rat_type(const uint8_t *value, size_t len, uint8_t *rat); /* section 8.17 */

struct gtp_c_fteid {
    uint32_t teid;
    uint32_t address;  /* IPv4 */
    uint8_t interface; /* the interface type, below 64 (table 8.22-1) */
};
uint32_t gtp_c_fteid(const uint8_t *value, size_t len, struct gtp_c_fteid *fteid); /* with flag V4: section 8.22 */

uint32_t gtp_c_pdn_type(const uint8_t *value, size_t len, uint8_t *pdn); /* 1 IPv4, 2 IPv6, 3 both: section 8.34 */

/* Writes the reply to a request whose element of this type and instance (below 16) is missing or incorrect: fault is
 * GTP_C_MISSING or GTP_C_INCORRECT. RANGE, the faults of gtp_c_gtpv2_head, NO_REPLY, NO_ROOM; *needed is 22, to an Echo
 * Request 18, and 0 where there is no reply. */
uint32_t gtp_c_gtpv2_refusal(const uint8_t *request, size_t len, uint32_t fault, uint8_t kind, uint8_t instance,
                             uint8_t *out, size_t room, size_t *needed);

/* Writes an Echo Response to a sequence number (below 2^24), with a restart counter. RANGE (*needed is 0), NO_ROOM
 * (*needed is 13). */
uint32_t gtp_c_gtpv2_echo_response(uint32_t seq, uint8_t counter, uint8_t *out, size_t room, size_t *needed);

/* ---- IPv4 (RFC 791) ---- */

struct gtp_c_ip4_head {
    uint32_t source;
    uint32_t destination;
    uint32_t spi;             /* of ESP and AH: counts where has_spi is 1 */
    uint16_t source_port;     /* of TCP, UDP and SCTP: counts where has_ports is 1 */
    uint16_t destination_port;
    uint16_t total_len;       /* octets, header and payload */
    uint16_t fragment_offset; /* units of eight octets */
    uint8_t protocol;
    uint8_t tos;              /* type of service */
    uint8_t has_ports;        /* 0 or 1 */
    uint8_t has_spi;          /* 0 or 1 */
};

/* The fields of the packet at the front of some octets; its checksum isn't looked at. SHORT, VERSION, HEADER, TOTAL: the
 * first that fits. */
uint32_t gtp_c_ip4_read(const uint8_t *bytes, size_t len, struct gtp_c_ip4_head *head);

/* ---- Packet filters (TS 24.008, 10.5.6.12) ---- */

/* A component: its type octet (table 10.5.162), and its one or two numbers, where a type has two: address and mask,
 * lowest and highest port, type of service and mask. One of an unknown type, or with a number that its type hasn't, is
 * fitted by no packet. */
struct gtp_c_tft_component {
    uint32_t first;
    uint32_t second;
    uint8_t kind;
};

struct gtp_c_tft_filter {
    struct gtp_c_tft_component components[9];
    uint8_t bearer;     /* the caller's number of the bearer */
    uint8_t id;         /* the packet filter identifier, 0 to 15 */
    uint8_t direction;  /* 0 before Release 7 (as 1), 1 downlink only, 2 uplink only, 3 both */
    uint8_t precedence; /* the lowest is looked at first */
    uint8_t count;      /* the first so many components count; above nine: nine */
};

/* Whether a packet fits a filter: *does_fit is 1 or 0. The packet goes to the user where up is 0, and else comes from it.
 * The faults of gtp_c_ip4_read. */
uint32_t gtp_c_tft_fits(const struct gtp_c_tft_filter *filter, uint32_t up, const uint8_t *packet, size_t len,
                        uint8_t *does_fit);

/* The bearer that a downlink packet takes: that of the first filter that it fits, by precedence, bearer and identifier;
 * where it fits none, bearer 0 if has_default isn't 0. TOO_MANY (more than 176 filters), the faults of gtp_c_ip4_read,
 * NO_BEARER. */
uint32_t gtp_c_tft_choose(const struct gtp_c_tft_filter *filters, size_t count, uint32_t has_default,
                          const uint8_t *packet, size_t len, uint8_t *bearer);

/* Writes the filters that a template's operation makes of others to the front of out: operation 1 creates, 2 deletes all,
 * 3 adds, 4 replaces, 5 removes, 6 does nothing; of a removal the entries' identifiers alone count. *needed is how many
 * were written. TOO_MANY (more than 16 filters or 15 entries), OPERATION, NO_SUCH_ID, ID_TAKEN, EMPTY (*needed is 0),
 * NO_ROOM (*needed structs are enough). */
uint32_t gtp_c_tft_apply(const struct gtp_c_tft_filter *filters, size_t count, uint8_t operation,
                         const struct gtp_c_tft_filter *entries, size_t entry_count, struct gtp_c_tft_filter *out,
                         size_t room, size_t *needed);

/* ---- Policing (TS 23.401, section 4.7.3) ---- */

struct gtp_c_policer {
    uint64_t rate;  /* kilobits a second, below 2^40 */
    uint64_t level; /* millibits that might pass at once at the moment of the last ask */
    uint64_t last;  /* the moment of the last ask, in microseconds, below 2^50 */
};

/* A full bucket of a rate, at moment 0. RANGE. */
uint32_t gtp_c_policer_new(uint64_t rate, struct gtp_c_policer *policer);

/* Whether so many octets pass at a moment, which may not be before the last one: OK, POLICED (the bucket moves on), or
 * RANGE (it stays as it is). */
uint32_t gtp_c_policer_ask(struct gtp_c_policer *policer, uint64_t at, uint32_t octets);

/* ---- Charging ---- */

/* A piece of a bearer's record, of fewer than 1,000,000 octets: all 0 is the first one. */
struct gtp_c_piece {
    uint64_t seq; /* how many pieces of the bearer stand before it */
    uint64_t up_octets;
    uint64_t down_octets;
    uint64_t up_packets;
    uint64_t down_packets;
    uint64_t first; /* moments of the first and the last packet, in microseconds: count where there are packets */
    uint64_t last;
};

/* Counts a packet of so many octets at a moment (below 2^50), down where up is 0, and else up. FULL: counted, and the
 * piece has 1,000,000 octets or more. RANGE: not counted, since the piece was full, a count is at its end, or the moment
 * is none. */
uint32_t gtp_c_piece_count(struct gtp_c_piece *piece, uint32_t up, uint32_t octets, uint64_t at);

/* Begins the next piece, once the row of this one is written: seq is one more, all else 0. RANGE. */
uint32_t gtp_c_piece_next(struct gtp_c_piece *piece);

/* ---- libgtp_c_memory ---- */

/* The element that is missing or incorrect. */
struct gtp_c_gtpv2_fault {
    uint8_t kind;
    uint8_t instance;
};

/* Looks the message at the front of some octets through, with the elements that its type asks for. The faults of
 * gtp_c_gtpv2_head, LENGTH also of its elements, MISSING and INCORRECT (*fault says which element; else it stays as it
 * was), NO_MEMORY. The reply to it: gtp_c_gtpv2_refusal. */
uint32_t gtp_c_gtpv2_check(const uint8_t *bytes, size_t len, struct gtp_c_gtpv2_fault *fault);

/* Reads a whole template (value of the element Bearer TFT): its operation, and its filters, as filters of this bearer;
 * of a removal structs with identifiers alone. *needed is how many entries it has. SHORT, PARAMETERS, OPERATION,
 * COMPONENT, REPEATED_ID, TRAILING (*needed is 0), NO_ROOM, NO_MEMORY. On a refusal *operation is as it was, and nothing
 * is said of entries. */
uint32_t gtp_c_tft_read(const uint8_t *octets, size_t len, uint8_t bearer, uint8_t *operation,
                        struct gtp_c_tft_filter *entries, size_t room, size_t *needed);

#ifdef __cplusplus
}
#endif

#endif
