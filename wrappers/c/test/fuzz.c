/* libFuzzer: each export that reads, against plain C, on octets that end at a page that may not be read. The archive has no
 * sanitizer in it, so it is the page, and not the sanitizer, that catches a read past the end. Where a folder is named by
 * GTP_C_ACCEPTED, each accepted message is written there, for a second opinion. */
#define _GNU_SOURCE
#include "plain.h"
#include "octets.h"

static void expect(int holds) { if (!holds) abort(); }

static void keep(const char *kind, const uint8_t *octets, size_t len) {
    static unsigned count;
    const char *folder = getenv("GTP_C_ACCEPTED");
    char name[4096];
    if (!folder || count >= 2000) return;
    snprintf(name, sizeof name, "%s/%s-%u", folder, kind, count++);
    FILE *file = fopen(name, "wb");
    if (!file) return;
    fwrite(octets, 1, len, file);
    fclose(file);
}

/* each value's reader, whatever it says of these octets */
static void values(const uint8_t *b, size_t n) {
    struct gtp_c_imsi imsi; struct gtp_c_cause cause; struct gtp_c_ambr ambr; struct gtp_c_bearer_qos qos; struct gtp_c_fteid fteid;
    uint8_t octet; uint32_t address;
    if (!gtp_c_imsi(b, n, &imsi)) expect(imsi.count >= 6 && imsi.count <= 15);
    if (!gtp_c_cause(b, n, &cause)) expect(cause.offending_instance < 16 && cause.has_offending < 2);
    if (!gtp_c_ambr(b, n, &ambr)) expect(n >= 8);
    if (!gtp_c_bearer_qos(b, n, &qos)) expect(n >= 22 && !(qos.mbr_up >> 40) && !(qos.gbr_down >> 40));
    if (!gtp_c_fteid(b, n, &fteid)) expect(n >= 9 && fteid.interface < 64);
    if (!gtp_c_ebi(b, n, &octet)) expect(octet < 16 && (!octet || octet >= 5));
    if (!gtp_c_pdn_type(b, n, &octet)) expect(octet >= 1 && octet <= 3);
    if (!gtp_c_paa(b, n, &address)) expect(n >= 5);
    gtp_c_recovery(b, n, &octet);
    gtp_c_rat_type(b, n, &octet);
}

static void gtpv2(const uint8_t *b, size_t n) {
    struct gtp_c_gtpv2_head head, plain;
    struct gtp_c_gtpv2_fault fault;
    struct gtp_c_ie ie, plain_ie;
    memset(&head, 0, sizeof head); memset(&plain, 0, sizeof plain);
    uint32_t code = gtp_c_gtpv2_head(b, n, &head), whole = gtp_c_gtpv2_check(b, n, &fault);
    expect(code == plain_gtpv2_head(b, n, &plain) && !memcmp(&head, &plain, sizeof head));
    if (code) { expect(code == whole); return; }
    const uint8_t *octets = b + head.ies_from;
    size_t at = 0;
    for (;; at = ie.to) {
        memset(&ie, 0, sizeof ie); memset(&plain_ie, 0, sizeof plain_ie);
        code = gtp_c_ie_at(octets, head.ies_len, at, &ie);
        expect(code == plain_ie_at(octets, head.ies_len, at, &plain_ie) && !memcmp(&ie, &plain_ie, sizeof ie));
        if (code) break;
        values(octets + ie.from, ie.to - ie.from);
    }
    expect((code == GTP_C_END) == (whole != GTP_C_LENGTH));
    if (!whole) keep("gtpv2", b, head.ies_from + head.ies_len);
    if (whole != GTP_C_MISSING && whole != GTP_C_INCORRECT) return;
    uint8_t out[22];
    size_t needed;
    code = gtp_c_gtpv2_refusal(b, n, whole, fault.kind, fault.instance, out, sizeof out, &needed);
    expect(code == GTP_C_NO_REPLY || (code == GTP_C_OK && (needed == 22 || needed == 18) && out[1] == b[1] + 1));
}

static void filters(const uint8_t *b, size_t n, size_t cut) {
    struct gtp_c_tft_filter entries[15], made[15];
    struct gtp_c_policer policer;
    uint8_t operation, bearer = 0, plain = 0, fits;
    size_t count, made_count;
    const uint8_t *packet = b + cut;
    uint32_t code = gtp_c_tft_read(b, cut, 3, &operation, entries, 15, &count);
    if (!code && operation != 5) {
        for (size_t i = 0; i < count; i++) gtp_c_tft_fits(&entries[i], 1, packet, n - cut, &fits);
        code = gtp_c_tft_choose(entries, count, cut & 1, packet, n - cut, &bearer);
        expect(code == plain_tft_choose(entries, count, cut & 1, packet, n - cut, &plain) && bearer == plain);
    }
    if (!code) gtp_c_tft_apply(entries, count, operation, entries, count, made, 15, &made_count);
    if (n < sizeof policer + 12) return;
    uint64_t at;
    uint32_t octets;
    memcpy(&policer, b, sizeof policer); memcpy(&at, b + sizeof policer, 8); memcpy(&octets, b + sizeof policer + 8, 4);
    if (b[0] & 1) { policer.rate &= 0xffff; policer.level &= 0xffffff; policer.last &= 0xffffffff; at &= 0xffffffff; }
    struct gtp_c_policer same = policer;
    code = gtp_c_policer_ask(&policer, at, octets);
    expect(code == plain_policer_ask(&same, at, octets) && !memcmp(&policer, &same, sizeof same));
}

int LLVMFuzzerTestOneInput(const uint8_t *data, size_t n) {
    static struct octets page;
    struct gtp_c_gtpu_head head, plain;
    struct gtp_c_ip4_head ip, plain_ip;
    if (!page.at) page = octets_of(65536);
    if (n > page.len) return 0;
    uint8_t *b = page.at + page.len - n;
    if (n) memcpy(b, data, n);
    memset(&head, 0, sizeof head); memset(&plain, 0, sizeof plain);
    uint32_t code = gtp_c_gtpu_read(b, n, &head);
    expect(code == plain_gtpu_read(b, n, &plain) && !memcmp(&head, &plain, sizeof head));
    if (!code) keep("gtpu", b, head.body_from + head.body_len);
    memset(&ip, 0, sizeof ip); memset(&plain_ip, 0, sizeof plain_ip);
    code = gtp_c_ip4_read(b, n, &ip);
    expect(code == plain_ip4_read(b, n, &plain_ip) && !memcmp(&ip, &plain_ip, sizeof ip));
    if (!code) keep("ip4", b, ip.total_len);
    gtpv2(b, n);
    values(b, n);
    filters(b, n, n ? data[0] % n : 0);
    return 0;
}
