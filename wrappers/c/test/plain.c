/* Plain C, with the same answers: each call in a unit of its own, so that it is a call too. G-PDUs are read as the kernel's
 * gtp1u_udp_encap_recv does, and extension headers walked. */
#include "plain.h"
#include <string.h>

static uint16_t be16(const uint8_t *p) { return (uint16_t)(p[0] << 8 | p[1]); }
static uint32_t be32(const uint8_t *p) { return (uint32_t)p[0] << 24 | (uint32_t)p[1] << 16 | (uint32_t)p[2] << 8 | p[3]; }

uint32_t plain_gtpu_read(const uint8_t *b, size_t n, struct gtp_c_gtpu_head *h) {
    if (n < 8) return GTP_C_SHORT;
    if (b[0] >> 5 != 1) return GTP_C_VERSION;
    if (!(b[0] & 0x10)) return GTP_C_NOT_GTP;
    size_t len = be16(b + 2), at = 8, end = 8 + len;
    uint8_t has_seq = 0;
    uint16_t seq = 0;
    if (end > n) return GTP_C_LENGTH;
    if (b[0] & 7) {
        if (len < 4) return GTP_C_LENGTH;
        if (b[0] & 2) { has_seq = 1; seq = be16(b + 8); }
        at = 12;
        if (b[0] & 4)
            for (uint8_t next = b[11]; next; next = b[at - 1]) {
                if (at >= end || b[at] == 0 || at + 4u * b[at] > end) return GTP_C_EXTENSION;
                at += 4u * b[at];
            }
    }
    if (b[1] != 1 && b[1] != 2 && b[1] != 26 && b[1] < 254) return GTP_C_KIND;
    *h = (struct gtp_c_gtpu_head){at, end - at, be32(b + 4), seq, has_seq, b[1]};
    return GTP_C_OK;
}

uint32_t plain_gpdu_head(uint32_t teid, size_t payload_len, uint8_t *out, size_t room, size_t *needed) {
    *needed = 8;
    if (payload_len > 65535) return GTP_C_TOO_LONG;
    if (room < 8) return GTP_C_NO_ROOM;
    out[0] = 0x30; out[1] = 255; out[2] = (uint8_t)(payload_len >> 8); out[3] = (uint8_t)payload_len;
    out[4] = (uint8_t)(teid >> 24); out[5] = (uint8_t)(teid >> 16); out[6] = (uint8_t)(teid >> 8); out[7] = (uint8_t)teid;
    return GTP_C_OK;
}

uint32_t plain_gtpv2_head(const uint8_t *b, size_t n, struct gtp_c_gtpv2_head *h) {
    if (n < 8) return GTP_C_SHORT;
    if (b[0] >> 5 != 2) return GTP_C_VERSION;
    if (b[0] & 0x10) return GTP_C_PIGGYBACK;
    size_t end = 4 + (size_t)be16(b + 2), from = b[0] & 8 ? 12 : 8;
    if (end > n || end < from) return GTP_C_LENGTH;
    switch (b[1]) {
    case 1: case 2: case 32: case 33: case 34: case 35: case 36: case 37: case 95: case 96: case 97: case 98: case 99:
    case 100: case 170: case 171: case 176: case 177: break;
    default: return GTP_C_KIND;
    }
    h->kind = b[1]; h->has_teid = from == 12; h->teid = from == 12 ? be32(b + 4) : 0;
    h->seq = (uint32_t)b[from - 4] << 16 | be16(b + from - 3);
    h->ies_from = from; h->ies_len = end - from;
    return GTP_C_OK;
}

uint32_t plain_ie_at(const uint8_t *b, size_t n, size_t at, struct gtp_c_ie *ie) {
    if (at >= n) return GTP_C_END;
    if (n - at < 4) return GTP_C_SHORT;
    size_t len = be16(b + at + 1);
    if (n - at - 4 < len) return GTP_C_LENGTH;
    *ie = (struct gtp_c_ie){at + 4, at + 4 + len, b[at], b[at + 3] & 15};
    return GTP_C_OK;
}

uint32_t plain_ip4_read(const uint8_t *b, size_t n, struct gtp_c_ip4_head *h) {
    if (n < 20) return GTP_C_SHORT;
    if (b[0] >> 4 != 4) return GTP_C_VERSION;
    size_t header = 4u * (b[0] & 15), total = be16(b + 2);
    if (header < 20 || n < header) return GTP_C_HEADER;
    if (total < header || n < total) return GTP_C_TOTAL;
    h->source = be32(b + 12); h->destination = be32(b + 16); h->protocol = b[9]; h->tos = b[1];
    h->total_len = (uint16_t)total; h->fragment_offset = be16(b + 6) & 0x1fff;
    h->has_ports = h->has_spi = 0; h->source_port = h->destination_port = 0; h->spi = 0;
    if (h->fragment_offset) return GTP_C_OK;
    size_t len = total - header;
    if ((b[9] == 6 || b[9] == 17 || b[9] == 132) && len >= 4) {
        h->has_ports = 1; h->source_port = be16(b + header); h->destination_port = be16(b + header + 2);
    } else if (b[9] == 50 && len >= 4) { h->has_spi = 1; h->spi = be32(b + header); }
    else if (b[9] == 51 && len >= 8) { h->has_spi = 1; h->spi = be32(b + header + 4); }
    return GTP_C_OK;
}

uint32_t plain_tft_choose(const struct gtp_c_tft_filter *f, size_t count, uint32_t has_default, const uint8_t *b, size_t n,
                          uint8_t *bearer) {
    struct gtp_c_ip4_head h;
    if (count > 176) return GTP_C_TOO_MANY;
    uint32_t bad = plain_ip4_read(b, n, &h);
    if (bad) return bad;
    const struct gtp_c_tft_filter *best = NULL;
    for (size_t i = 0; i < count; i++, f++) {
        if (f->direction == 2 || f->direction > 3) continue;
        if (best && (f->precedence > best->precedence || (f->precedence == best->precedence
            && (f->bearer > best->bearer || (f->bearer == best->bearer && f->id >= best->id))))) continue;
        int fits = 1;
        for (unsigned k = 0; k < (f->count < 9 ? f->count : 9) && fits; k++) {
            const struct gtp_c_tft_component *c = &f->components[k];
            switch (c->kind) {
            case 0x10: fits = !((h.source ^ c->first) & c->second); break;
            case 0x11: fits = !((h.destination ^ c->first) & c->second); break;
            case 0x30: fits = h.protocol == c->first; break;
            case 0x40: fits = h.has_ports && h.destination_port == c->first; break;
            case 0x41: fits = h.has_ports && h.destination_port >= c->first && h.destination_port <= c->second && c->second < 65536; break;
            case 0x50: fits = h.has_ports && h.source_port == c->first; break;
            case 0x51: fits = h.has_ports && h.source_port >= c->first && h.source_port <= c->second && c->second < 65536; break;
            case 0x60: fits = h.has_spi && h.spi == c->first; break;
            case 0x70: fits = c->first < 256 && c->second < 256 && !((h.tos ^ c->first) & c->second); break;
            default: fits = 0;
            }
        }
        if (fits) best = f;
    }
    if (!best && !has_default) return GTP_C_NO_BEARER;
    *bearer = best ? best->bearer : 0;
    return GTP_C_OK;
}

uint32_t plain_policer_ask(struct gtp_c_policer *p, uint64_t at, uint32_t octets) {
    uint64_t burst = p->rate ? p->rate * 100000 > 24000000 ? p->rate * 100000 : 24000000 : 0, cost = (uint64_t)8000 * octets;
    if (at >> 50 || at < p->last || p->rate >> 40 || p->level > burst) return GTP_C_RANGE;
    unsigned __int128 level = p->level + (unsigned __int128)p->rate * (at - p->last);
    p->level = level > burst ? burst : (uint64_t)level;
    p->last = at;
    if (cost > p->level) return GTP_C_POLICED;
    p->level -= cost;
    return GTP_C_OK;
}
