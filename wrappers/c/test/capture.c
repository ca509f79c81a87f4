/* What stands in a capture of IPv4 packets (pcap, link type 101), by libgtp_c: capture FILE. Each packet lies at the end of
 * memory that may be read. */
#define _GNU_SOURCE
#include "../gtp_c.h"
#include "octets.h"

static uint32_t number(const uint8_t *b, int big) {
    return big ? (uint32_t)b[0] << 24 | (uint32_t)b[1] << 16 | (uint32_t)b[2] << 8 | b[3]
               : (uint32_t)b[3] << 24 | (uint32_t)b[2] << 16 | (uint32_t)b[1] << 8 | b[0];
}

static void elements(const uint8_t *octets, size_t len) {
    struct gtp_c_ie ie;
    for (size_t at = 0; gtp_c_ie_at(octets, len, at, &ie) == GTP_C_OK; at = ie.to) {
        printf(" %u.%u+%zu", ie.kind, ie.instance, ie.to - ie.from);
        if (ie.kind == 93) { printf(" ["); elements(octets + ie.from, ie.to - ie.from); printf(" ]"); }
    }
}

static void packet(const uint8_t *octets, size_t len) {
    struct gtp_c_ip4_head ip;
    struct gtp_c_gtpu_head tunnel;
    struct gtp_c_gtpv2_head message;
    uint32_t code = gtp_c_ip4_read(octets, len, &ip);
    if (code) { printf("no packet %u\n", code); return; }
    printf("packet %u octets, protocol %u, %#x to %#x, ports %u %u\n", ip.total_len, ip.protocol, ip.source, ip.destination,
           ip.has_ports ? ip.source_port : 0, ip.has_ports ? ip.destination_port : 0);
    if (ip.protocol != 17 || ip.total_len < 28) return;
    const uint8_t *inner = octets + 28;
    size_t n = ip.total_len - 28u;
    if (ip.destination_port == 2152) {
        code = gtp_c_gtpu_read(inner, n, &tunnel);
        if (code) { printf("  GTP-U refused %u\n", code); return; }
        printf("  GTP-U %u, TEID %u: ", tunnel.kind, tunnel.teid);
        packet(inner + tunnel.body_from, tunnel.body_len);
    } else if (ip.destination_port == 2123) {
        code = gtp_c_gtpv2_head(inner, n, &message);
        if (code) { printf("  GTPv2-C refused %u\n", code); return; }
        printf("  GTPv2-C %u, TEID %u, number %u:", message.kind, message.has_teid ? message.teid : 0, message.seq);
        elements(inner + message.ies_from, message.ies_len);
        printf("\n");
    }
}

int main(int argc, char **argv) {
    uint8_t head[24];
    FILE *file = argc > 1 ? fopen(argv[1], "rb") : NULL;
    if (!file || fread(head, 1, 24, file) < 24) { fprintf(stderr, "usage: capture FILE\n"); return 2; }
    int big = head[0] == 0xa1;
    while (fread(head, 1, 16, file) == 16) {
        uint32_t len = number(head + 8, big);
        if (len > 262144) return 2;
        struct octets o = octets_of(len);
        if (fread(o.at, 1, len, file) < len) return 2;
        packet(o.at, o.len);
        octets_free(o);
    }
    fclose(file);
    return 0;
}
