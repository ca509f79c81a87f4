/* Who attached, with which bearers, and which filter each packet fits, from a capture of IPv4 packets (pcap, link type
 * 101): attached CAPTURE. Messages are GTPv2-C at UDP port 2123; a packet goes up in a G-PDU at port 2152, and else down. */
#include <gtp_c.h>
#include <stdio.h>
#include <string.h>

static struct gtp_c_tft_filter filters[31]; /* those of the dedicated bearer */
static size_t filter_count;

static void address(const char *what, uint32_t a) { printf("%s%u.%u.%u.%u", what, a >> 24, a >> 16 & 255, a >> 8 & 255, a & 255); }

static void template_read(const uint8_t *octets, size_t len) {
    struct gtp_c_tft_filter entries[15], made[31];
    size_t entry_count, made_count;
    uint8_t operation;
    uint32_t code = gtp_c_tft_read(octets, len, 0, &operation, entries, 15, &entry_count);
    if (!code) code = gtp_c_tft_apply(filters, filter_count, operation, entries, entry_count, made, 31, &made_count);
    if (code) { printf(", template refused: %u", code); return; }
    memcpy(filters, made, (filter_count = made_count) * sizeof *filters);
    printf(", %zu filters", filter_count);
}

static void elements(const uint8_t *octets, size_t len, int in_context) {
    struct gtp_c_ie ie;
    for (size_t at = 0; gtp_c_ie_at(octets, len, at, &ie) == GTP_C_OK; at = ie.to) {
        const uint8_t *value = octets + ie.from;
        size_t n = ie.to - ie.from;
        struct gtp_c_imsi imsi;
        struct gtp_c_fteid fteid;
        struct gtp_c_ambr ambr;
        struct gtp_c_bearer_qos qos;
        uint32_t paa;
        uint8_t ebi;
        if (ie.kind == 1 && !gtp_c_imsi(value, n, &imsi)) printf(", IMSI %.*s", imsi.count, (const char *)imsi.digits);
        if (ie.kind == 72 && !gtp_c_ambr(value, n, &ambr)) printf(", AMBR %u and %u kbps", ambr.up, ambr.down);
        if (ie.kind == 73 && in_context && !gtp_c_ebi(value, n, &ebi)) printf("\n    bearer %u", ebi);
        if (ie.kind == 79 && !gtp_c_paa(value, n, &paa)) address(", address ", paa);
        if (ie.kind == 80 && !gtp_c_bearer_qos(value, n, &qos)) printf(", QCI %u", qos.qci);
        if (ie.kind == 84) template_read(value, n);
        if (ie.kind == 87 && !gtp_c_fteid(value, n, &fteid)) address(", F-TEID at ", fteid.address), printf(" %#x", fteid.teid);
        if (ie.kind == 93) elements(value, n, 1);
    }
}

static void packet(const uint8_t *octets, size_t len, int up) {
    struct gtp_c_ip4_head ip;
    uint8_t fits, fitting = 0;
    if (gtp_c_ip4_read(octets, len, &ip)) { puts("no IPv4"); return; }
    address(up ? "up   " : "down ", ip.source);
    address(" to ", ip.destination);
    printf(", protocol %u", ip.protocol);
    if (ip.has_ports) printf(", ports %u and %u", ip.source_port, ip.destination_port);
    for (size_t i = 0; i < filter_count; i++)
        if (!gtp_c_tft_fits(&filters[i], (uint32_t)up, octets, len, &fits) && fits)
            printf("%s %u", fitting++ ? "," : ": fits filter", filters[i].id);
    puts(fitting ? "" : ": fits no filter");
}

int main(int argc, char **argv) {
    static uint8_t record[65536];
    FILE *capture = argc > 1 ? fopen(argv[1], "rb") : NULL;
    if (!capture || fread(record, 1, 24, capture) < 24) { fprintf(stderr, "usage: attached CAPTURE\n"); return 2; }
    int low = record[0] == 0xa1 ? 11 : 8; /* where the lowest octet of a record's length stands */
    while (fread(record, 1, 16, capture) == 16) {
        size_t len = record[low] | (size_t)record[low == 8 ? 9 : 10] << 8;
        struct gtp_c_ip4_head ip;
        struct gtp_c_gtpu_head tunnel;
        struct gtp_c_gtpv2_head message;
        if (fread(record, 1, len, capture) < len || gtp_c_ip4_read(record, len, &ip) || ip.total_len < 28) continue;
        const uint8_t *inner = record + 28, *end = record + ip.total_len;
        if (ip.protocol == 17 && ip.destination_port == 2123 && !gtp_c_gtpv2_head(inner, (size_t)(end - inner), &message)) {
            printf("message %u", message.kind);
            elements(inner + message.ies_from, message.ies_len, 0);
            puts("");
        } else if (ip.protocol == 17 && ip.destination_port == 2152 && !gtp_c_gtpu_read(inner, (size_t)(end - inner), &tunnel)) {
            packet(inner + tunnel.body_from, tunnel.body_len, 1);
        } else packet(record, len, 0);
    }
    return 0;
}
