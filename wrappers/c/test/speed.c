/* Nanoseconds a call, the least of many runs, of each export and of plain C by turns, and their ratio:
 *     speed [RUNS [CALLS [NAME [SIDE]]]]
 * RUNS of CALLS calls of all, or of the one of this name, alone of this side: export or C. With one run of few calls it is
 * for counting instructions. */
#define _POSIX_C_SOURCE 199309L
#include "plain.h"
#include <stdio.h>
#include <stdlib.h>
#include <string.h>
#include <time.h>

static uint8_t gpdu[64][64], long_gpdu[64][64], ip[64][64];
static uint8_t request[64][128];
static struct gtp_c_tft_filter filters[16];
static struct gtp_c_gtpu_head tunnel;
static struct gtp_c_gtpv2_head message;
static struct gtp_c_ip4_head packet;
static struct gtp_c_policer bucket, plain_bucket;
static uint8_t out[8], bearer;
static size_t needed;
static uint64_t at;
static volatile uint64_t sum;
static unsigned i;

/* a Create Session Request by the cursor, with the values of its elements; what is in its Bearer Context too */
static uint32_t walk(const uint8_t *b, size_t n, int values) {
    struct gtp_c_ie ie;
    uint32_t kinds = 0;
    for (size_t from = 0; gtp_c_ie_at(b, n, from, &ie) == GTP_C_OK; from = ie.to) {
        kinds += ie.kind;
        const uint8_t *value = b + ie.from;
        size_t len = ie.to - ie.from;
        if (!values) continue;
        static struct gtp_c_imsi imsi;
        static struct gtp_c_fteid fteid;
        static struct gtp_c_ambr ambr;
        static struct gtp_c_bearer_qos qos;
        static uint8_t octet;
        switch (ie.kind) {
        case 1: kinds += gtp_c_imsi(value, len, &imsi); break;
        case 72: kinds += gtp_c_ambr(value, len, &ambr); break;
        case 73: kinds += gtp_c_ebi(value, len, &octet); break;
        case 80: kinds += gtp_c_bearer_qos(value, len, &qos); break;
        case 87: kinds += gtp_c_fteid(value, len, &fteid); break;
        case 93: kinds += walk(value, len, 1); break;
        case 99: kinds += gtp_c_pdn_type(value, len, &octet); break;
        }
    }
    return kinds;
}
static uint32_t session(const uint8_t *b, int values) {
    return gtp_c_gtpv2_head(b, 107, &message) ? 0 : walk(b + message.ies_from, message.ies_len, values);
}
static uint32_t plain_session(const uint8_t *b) {
    struct gtp_c_ie ie;
    uint32_t kinds = 0;
    if (plain_gtpv2_head(b, 107, &message)) return 0;
    for (size_t from = 0; plain_ie_at(b + message.ies_from, message.ies_len, from, &ie) == GTP_C_OK; from = ie.to) kinds += ie.kind;
    return kinds;
}

static void fill(void) {
    static const uint8_t whole[107] =
        "\x48\x20\0\x67\0\0\0\0\0\0\1\0\1\0\x08\0\0\x01\x01\x21\x43\x65\x87\xf9\x52\0\1\0\6\x57\0\x09\0\x8a\0\0\x10\0\xc6\x33\x64\1"
        "\x47\0\x09\0\x08\x69\x6e\x74\x65\x72\x6e\x65\x74\x63\0\1\0\3\x48\0\x08\0\0\0\xc3\x50\0\1\x86\xa0\x5d\0\x1f\0\x49\0\1\0\5"
        "\x50\0\x16\0\x24\x09";
    for (int k = 0; k < 64; k++) {
        memcpy(ip[k], "\x45\0\0\x1c\0\0\0\0\x40\x11\0\0\xcb\0\x71\x09\x0a\x2d\0\x02\x13\xc4\x27\x10\0\x08\0\0", 28);
        ip[k][15] = (uint8_t)k;
        memcpy(gpdu[k], "\x30\xff\0\x1c\0\0\0\x11", 8);
        memcpy(gpdu[k] + 8, ip[k], 28);
        memcpy(long_gpdu[k], "\x34\xff\0\x24\0\0\0\x11\0\0\0\x85\1\0\7\0", 16);
        memcpy(long_gpdu[k] + 16, ip[k], 28);
        memcpy(request[k], whole, 107);
        gpdu[k][7] = long_gpdu[k][7] = request[k][10] = (uint8_t)k;
    }
    for (uint8_t k = 0; k < 16; k++) { /* the last one fits: remote address, protocol, remote port */
        filters[k] = (struct gtp_c_tft_filter){.bearer = 1 + k / 4, .id = k, .direction = 3, .precedence = k, .count = 3,
            .components = {{0xcb007100, 0xffffff00, 0x10}, {17, 0, 0x30}, {k < 15 ? 1u + k : 5060u, 0, 0x50}}};
    }
    gtp_c_policer_new(1000, &bucket);
    plain_bucket = bucket;
}

static double now(void) {
    struct timespec t;
    clock_gettime(CLOCK_MONOTONIC, &t);
    return (double)t.tv_sec * 1e9 + (double)t.tv_nsec;
}

int main(int argc, char **argv) {
    int runs = argc > 1 ? atoi(argv[1]) : 90;
    long calls = argc > 2 ? atol(argv[2]) : 2000000;
    const char *only = argc > 3 ? argv[3] : "", *side = argc > 4 ? argv[4] : "";
    fill();
#define TIMED(least, call) do { \
    double begun = now(); \
    at = 0; \
    for (long k = 0; k < calls; k++) { i = (unsigned)k & 63; sum += (call); } \
    double each = (now() - begun) / (double)calls; \
    if (each < (least)) (least) = each; \
    gtp_c_policer_new(1000, &bucket); \
    plain_bucket = bucket; \
} while (0)
#define BOTH(name, call, plain_call) do { \
    if (*only && strcmp(name, only)) break; \
    double least = 1e18, plain = 1e18; \
    for (int r = 0; r < runs; r++) { \
        if (strcmp(side, "C")) TIMED(least, call); \
        if (strcmp(side, "export")) TIMED(plain, plain_call); \
    } \
    if (*side) printf("%-36s %7.2f\n", name, *side == 'C' ? plain : least); \
    else printf("%-36s %7.2f %7.2f %5.2f\n", name, least, plain, least / plain); \
} while (0)
#define ALONE(name, call) do { \
    if ((*only && strcmp(name, only)) || !strcmp(side, "C")) break; \
    double least = 1e18; \
    for (int r = 0; r < runs; r++) TIMED(least, call); \
    printf("%-36s %7.2f\n", name, least); \
} while (0)
    if (!*side) printf("%-36s %7s %7s %5s\n", "nanoseconds", "export", "C", "ratio");
    BOTH("G-PDU head read", gtp_c_gtpu_read(gpdu[i], 36, &tunnel), plain_gtpu_read(gpdu[i], 36, &tunnel));
    BOTH("G-PDU with extension header", gtp_c_gtpu_read(long_gpdu[i], 44, &tunnel), plain_gtpu_read(long_gpdu[i], 44, &tunnel));
    BOTH("G-PDU head written", gtp_c_gpdu_head(i, 28, out, 8, &needed), plain_gpdu_head(i, 28, out, 8, &needed));
    BOTH("GTPv2-C head", gtp_c_gtpv2_head(request[i], 107, &message), plain_gtpv2_head(request[i], 107, &message));
    BOTH("cursor, head and 7 elements", session(request[i], 0), plain_session(request[i]));
    ALONE("the same with values", session(request[i], 1));
    BOTH("IPv4", gtp_c_ip4_read(ip[i], 28, &packet), plain_ip4_read(ip[i], 28, &packet));
    BOTH("choice, 1 filter", gtp_c_tft_choose(filters + 15, 1, 1, ip[i], 28, &bearer),
         plain_tft_choose(filters + 15, 1, 1, ip[i], 28, &bearer));
    BOTH("choice, 16 filters", gtp_c_tft_choose(filters, 16, 1, ip[i], 28, &bearer),
         plain_tft_choose(filters, 16, 1, ip[i], 28, &bearer));
    BOTH("policer", gtp_c_policer_ask(&bucket, at++, 100), plain_policer_ask(&plain_bucket, at++, 100));
    return 0;
}
