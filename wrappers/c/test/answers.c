/* Answers each line of a table of calls that the exports know, and compares with the answer that is given there:
 *     answers CALLS ANSWERS
 * The lines are those of crates/check_calls. It prints how many lines of each kind it answered and how many differ, and
 * ends with 1 where one does. Octets end at a page that may not be read: a call that reads past them faults. */
#define _GNU_SOURCE
#include "../gtp_c.h"
#include "octets.h"
#include <stdio.h>
#include <stdlib.h>
#include <string.h>

static const char *names[] = {
    [GTP_C_SHORT] = "Short", [GTP_C_VERSION] = "Version", [GTP_C_NOT_GTP] = "NotGtp", [GTP_C_LENGTH] = "Length",
    [GTP_C_EXTENSION] = "Extension", [GTP_C_KIND] = "Kind", [GTP_C_PIGGYBACK] = "Piggyback",
    [GTP_C_HEADER] = "Header", [GTP_C_TOTAL] = "Total", [GTP_C_MISSING] = "Missing",
    [GTP_C_INCORRECT] = "Incorrect", [GTP_C_PARAMETERS] = "Parameters", [GTP_C_OPERATION] = "Operation",
    [GTP_C_COMPONENT] = "Component", [GTP_C_REPEATED_ID] = "RepeatedId", [GTP_C_TRAILING] = "Trailing",
    [GTP_C_NO_SUCH_ID] = "NoSuchId", [GTP_C_ID_TAKEN] = "IdTaken", [GTP_C_EMPTY] = "Empty",
};
static char answer[400000];
static size_t end;
#define SAY(...) (end += (size_t)sprintf(answer + end, __VA_ARGS__))

static void say_octets(const uint8_t *octets, size_t len) {
    if (!len) SAY("-");
    for (size_t i = 0; i < len; i++) SAY("%02x", octets[i]);
}
static void say_fault(uint32_t code) { SAY("err %s", code < sizeof names / sizeof *names && names[code] ? names[code] : "?"); }

static void gtpu(struct octets o) {
    struct gtp_c_gtpu_head head;
    uint32_t code = gtp_c_gtpu_read(o.at, o.len, &head);
    if (code) { say_fault(code); return; }
    SAY("ok %u %u ", head.kind, head.teid);
    if (head.has_seq) SAY("%u ", head.seq); else SAY("- ");
    say_octets(o.at + head.body_from, head.body_len);
}

static void ip(struct octets o) {
    struct gtp_c_ip4_head head;
    uint32_t code = gtp_c_ip4_read(o.at, o.len, &head);
    if (code) { say_fault(code); return; }
    SAY("ok %u %u %u %u %u ", head.tos, head.protocol, head.source, head.destination, head.fragment_offset);
    if (head.has_ports) SAY("%u,%u ", head.source_port, head.destination_port); else SAY("- ");
    if (head.has_spi) SAY("%u ", head.spi); else SAY("- ");
    SAY("%u", head.total_len);
}

/* The elements of some octets, by the cursor; the code that ends them. */
static uint32_t elements(const uint8_t *octets, size_t len, int says) {
    struct gtp_c_ie ie;
    uint32_t code;
    for (size_t at = 0; !(code = gtp_c_ie_at(octets, len, at, &ie)); at = ie.to)
        if (says) { SAY(" %u.%u.", ie.kind, ie.instance); say_octets(octets + ie.from, ie.to - ie.from); }
    return code;
}

static void ies(struct octets o) {
    SAY("ok");
    uint32_t code = elements(o.at, o.len, 1);
    if (code != GTP_C_END) { end = 0; say_fault(code); }
}

/* A whole message: its first fault with the element, and the reply; the elements by the cursor end alike. */
static void gtpv2(struct octets o) {
    struct gtp_c_gtpv2_fault fault = {0, 0};
    struct gtp_c_gtpv2_head head;
    uint32_t code = gtp_c_gtpv2_check(o.at, o.len, &fault), first = gtp_c_gtpv2_head(o.at, o.len, &head);
    if (!first) first = elements(o.at + head.ies_from, head.ies_len, 0);
    if ((first == GTP_C_END) != (code == GTP_C_OK || code == GTP_C_MISSING || code == GTP_C_INCORRECT)) SAY("elements ");
    if (!code) { SAY("ok"); return; }
    say_fault(code);
    if (code == GTP_C_MISSING || code == GTP_C_INCORRECT) SAY(" %u %u", fault.kind, fault.instance);
    struct octets room = octets_of(64);
    size_t needed = 99;
    uint32_t none = gtp_c_gtpv2_refusal(o.at, o.len, code, fault.kind, fault.instance, NULL, 0, &needed);
    if (none == GTP_C_NO_ROOM) {
        octets_free(room);
        room = octets_of(needed);
        if (gtp_c_gtpv2_refusal(o.at, o.len, code, fault.kind, fault.instance, room.at, room.len, &needed)) SAY(" refused");
    }
    SAY(" ");
    say_octets(room.at, none == GTP_C_NO_ROOM ? needed : 0);
    octets_free(room);
}

/* 0 where the exports know no such element. */
static int value(unsigned kind, struct octets o) {
    uint32_t code;
    switch (kind) {
    case 1: { struct gtp_c_imsi v; if (!(code = gtp_c_imsi(o.at, o.len, &v))) SAY("Imsi(%.*s)", v.count, (char *)v.digits); break; }
    case 2: { struct gtp_c_cause v;
        if (!(code = gtp_c_cause(o.at, o.len, &v))) {
            SAY("Cause(CauseIe { cause: %u, offending: ", v.cause);
            if (v.has_offending) SAY("Some((%u, %u)) })", v.offending_kind, v.offending_instance); else SAY("None })");
        }
        break; }
    case 3: { uint8_t v; if (!(code = gtp_c_recovery(o.at, o.len, &v))) SAY("Recovery(%u)", v); break; }
    case 72: { struct gtp_c_ambr v; if (!(code = gtp_c_ambr(o.at, o.len, &v))) SAY("Ambr(%u, %u)", v.up, v.down); break; }
    case 73: { uint8_t v; if (!(code = gtp_c_ebi(o.at, o.len, &v))) SAY("Ebi(%u)", v); break; }
    case 79: { uint32_t v; if (!(code = gtp_c_paa(o.at, o.len, &v))) SAY("Paa(%u)", v); break; }
    case 80: { struct gtp_c_bearer_qos v;
        if (!(code = gtp_c_bearer_qos(o.at, o.len, &v)))
            SAY("Qos(QosIe { arp: %u, qci: %u, mbr_up: %lu, mbr_down: %lu, gbr_up: %lu, gbr_down: %lu })", v.arp, v.qci,
                v.mbr_up, v.mbr_down, v.gbr_up, v.gbr_down);
        break; }
    case 82: { uint8_t v; if (!(code = gtp_c_rat_type(o.at, o.len, &v))) SAY("Rat(%u)", v); break; }
    case 87: { struct gtp_c_fteid v;
        if (!(code = gtp_c_fteid(o.at, o.len, &v)))
            SAY("Fteid(Fteid { interface: %u, teid: %u, addr: %u })", v.interface, v.teid, v.address);
        break; }
    case 99: { uint8_t v; if (!(code = gtp_c_pdn_type(o.at, o.len, &v))) SAY("Pdn(%u)", v); break; }
    default: return 0;
    }
    if (code) SAY("none");
    return 1;
}

/* The filter's text, as a template has it. */
static void say_filter(const struct gtp_c_tft_filter *f) {
    uint8_t text[128];
    size_t n = 3;
    for (unsigned i = 0; i < f->count; i++) {
        const struct gtp_c_tft_component *c = &f->components[i];
        int size = c->kind == 0x10 || c->kind == 0x11 ? 8 : c->kind == 0x30 ? 1 : c->kind == 0x60 || (c->kind & 0x0f) == 1 ? 4 : 2;
        int half = c->kind == 0x60 ? 4 : c->kind == 0x70 ? 1 : c->kind == 0x40 || c->kind == 0x50 ? 2 : size > 1 ? size / 2 : 1;
        text[n++] = c->kind;
        for (int k = 0; k < half; k++) text[n++] = (uint8_t)(c->first >> 8 * (half - 1 - k));
        for (int k = half; k < size; k++) text[n++] = (uint8_t)(c->second >> 8 * (size - 1 - k));
    }
    text[0] = (uint8_t)(16 * f->direction + f->id);
    text[1] = f->precedence;
    text[2] = (uint8_t)(n - 3);
    say_octets(text, n);
}

/* A template read into just as much room as it needs. */
static uint32_t template_of(struct octets o, uint8_t bearer, uint8_t *operation, struct gtp_c_tft_filter *entries, size_t *count) {
    uint32_t code = gtp_c_tft_read(o.at, o.len, bearer, operation, NULL, 0, count);
    return code == GTP_C_NO_ROOM && *count <= 15 ? gtp_c_tft_read(o.at, o.len, bearer, operation, entries, *count, count) : code;
}

static void tft(struct octets o) {
    struct gtp_c_tft_filter entries[15];
    uint8_t operation;
    size_t count;
    uint32_t code = template_of(o, 0, &operation, entries, &count);
    if (code) { say_fault(code); return; }
    SAY("ok %02x", (unsigned)(32 * operation + count));
    for (size_t i = 0; i < count; i++)
        if (operation == 5) SAY("%02x", entries[i].id); else say_filter(&entries[i]);
}

/* The filters behind templates, joined by commas; what each answered is said where `says`. */
static size_t filters_of(char *templates, uint8_t bearer, struct gtp_c_tft_filter *filters, int says) {
    struct gtp_c_tft_filter entries[15], made[31];
    size_t count = 0, more, made_count;
    uint8_t operation;
    for (char *save, *text = strtok_r(templates, ",", &save); text; text = strtok_r(NULL, ",", &save)) {
        struct octets o = octets_from(text);
        uint32_t code = template_of(o, bearer, &operation, entries, &more);
        if (!code) {
            code = gtp_c_tft_apply(filters, count, operation, entries, more, NULL, 0, &made_count);
            if (code == GTP_C_NO_ROOM)
                code = gtp_c_tft_apply(filters, count, operation, entries, more, made, made_count, &made_count);
            if (!code) memcpy(filters, made, (count = made_count) * sizeof *filters);
        }
        if (says) SAY("%s ", code ? names[code] : "ok");
        octets_free(o);
    }
    return count;
}

static void apply(char *templates) {
    struct gtp_c_tft_filter filters[31];
    size_t count = filters_of(templates, 0, filters, 1);
    SAY("=");
    for (size_t i = 0; i < count; i++) { SAY(" "); say_filter(&filters[i]); }
}

static void match(char *rest) {
    char *save, *way = strtok_r(rest, " ", &save), *templates = strtok_r(NULL, " ", &save), *packet = strtok_r(NULL, " ", &save);
    struct gtp_c_tft_filter filters[31];
    size_t count = filters_of(templates, 0, filters, 0);
    struct octets o = octets_from(packet);
    struct gtp_c_ip4_head head;
    uint32_t bad = gtp_c_ip4_read(o.at, o.len, &head);
    if (bad) say_fault(bad); else SAY("fits ");
    for (size_t i = 0; i < count; i++) {
        uint8_t fits = 9;
        uint32_t code = gtp_c_tft_fits(&filters[i], !strcmp(way, "up"), o.at, o.len, &fits);
        if (code != bad) SAY(" differs");
        if (!code) SAY("%u", fits);
    }
    octets_free(o);
}

static void choose(char *rest) {
    char *save, *packet = strtok_r(rest, " ", &save), *word;
    struct gtp_c_tft_filter filters[400];
    size_t count = 0;
    unsigned has_default = 0;
    while ((word = strtok_r(NULL, " ", &save))) {
        uint8_t bearer = (uint8_t)atoi(word);
        char *templates = strtok_r(NULL, " ", &save);
        size_t more = !templates || !strcmp(templates, ".") ? 0 : filters_of(templates, bearer, filters + count, 0);
        if (!more && !bearer) has_default = 1;
        count += more;
    }
    struct octets o = octets_from(packet);
    uint8_t bearer;
    uint32_t code = gtp_c_tft_choose(filters, count, has_default, o.at, o.len, &bearer);
    if (!code) SAY("%u", bearer); else if (code == GTP_C_NO_BEARER) SAY("none"); else say_fault(code);
    octets_free(o);
}

static void asks(struct gtp_c_policer *policer, char *rest, const char *between) {
    while (*rest) {
        uint64_t at = strtoull(rest, &rest, 10);
        uint32_t code = gtp_c_policer_ask(policer, at, (uint32_t)strtoull(rest, &rest, 10));
        SAY("%s%s", code == GTP_C_OK ? "1" : code == GTP_C_POLICED ? "0" : "range", between);
    }
}

static void police(char *rest) {
    struct gtp_c_policer policer;
    if (gtp_c_policer_new(strtoull(rest, &rest, 10), &policer)) { SAY("range"); return; }
    asks(&policer, rest, "");
}

static void bucket(char *rest) {
    struct gtp_c_policer policer;
    policer.rate = strtoull(rest, &rest, 10);
    policer.level = strtoull(rest, &rest, 10);
    policer.last = strtoull(rest, &rest, 10);
    struct gtp_c_policer same = policer;
    if (gtp_c_policer_ask(&same, policer.last, 0) == GTP_C_RANGE) { SAY("none"); return; }
    asks(&policer, rest, " ");
    SAY("%lu %lu %lu", policer.rate, policer.level, policer.last);
}

/* One bearer's record: the rows of its pieces, and the open one. 0 where the line has more than that. */
static int book(char *rest) {
    struct gtp_c_piece piece;
    unsigned long life = 0, ebi = 0, qci = 0;
    int begun = 0;
    memset(&piece, 0, sizeof piece);
    for (char *save, *step = strtok_r(rest, " ", &save); step; step = strtok_r(NULL, " ", &save)) {
        unsigned long of, a = 0, b = 0;
        char what;
        const char *why = NULL;
        if (sscanf(step, "%c.%lu.%lu.%lu", &what, &of, &a, &b) < 2) return 0;
        if (what == 's') {
            if (begun++ || of > (unsigned long)1 << 61) return 0;
            life = of; ebi = a; qci = b;
            continue;
        }
        if (!begun || of != life) return 0;
        if (what == 'u' || what == 'd') {
            uint32_t code = gtp_c_piece_count(&piece, what == 'u', (uint32_t)a, b);
            if (code == GTP_C_RANGE) SAY("range ");
            if (code != GTP_C_FULL) continue;
            why = "Volume";
        } else if (what == 'v' || what == 'q') why = what == 'v' ? "Volume" : "Qos";
        else return 0;
        SAY("%lu.%lu.%lu.%lu.%lu.%lu.%lu.%lu.", life, ebi, qci, piece.seq, piece.up_octets, piece.down_octets,
            piece.up_packets, piece.down_packets);
        if (piece.up_packets || piece.down_packets) SAY("%lu.%lu.%s ", piece.first, piece.last, why); else SAY("-.-.%s ", why);
        if (gtp_c_piece_next(&piece)) SAY("range ");
    }
    if (!begun) return 0;
    SAY("= %lu.%lu.%lu.%lu.%lu.%lu.%lu.%lu", life, ebi, qci, piece.seq, piece.up_octets, piece.down_octets,
        piece.up_packets, piece.down_packets);
    return 1;
}

/* Writes by a call into no room, then into just enough. */
#define WRITES(call, ...) do { \
    size_t needed = 0; \
    uint32_t code = call(__VA_ARGS__, NULL, 0, &needed); \
    struct octets out = octets_of(needed); \
    if (code != GTP_C_NO_ROOM || call(__VA_ARGS__, out.at, out.len, &needed)) SAY("code %u ", code); \
    else say_octets(out.at, needed); \
    octets_free(out); \
} while (0)

static void send(char *rest) {
    unsigned long a = 0, b = 0, c = 0;
    char what[8] = "", text[200000] = "";
    sscanf(rest, "%7s %lu %lu %lu", what, &a, &b, &c);
    if (!strcmp(what, "echo")) WRITES(gtp_c_echo_request, (uint16_t)a);
    else if (!strcmp(what, "answer")) WRITES(gtp_c_echo_response, (uint16_t)a);
    else if (!strcmp(what, "error")) WRITES(gtp_c_error_indication, (uint16_t)a, (uint32_t)b, (uint32_t)c);
    else if (!strcmp(what, "end")) WRITES(gtp_c_end_marker, (uint32_t)a);
    else {
        sscanf(rest, "%*s %*u %199999s", text);
        struct octets o = octets_from(text);
        WRITES(gtp_c_gpdu_head, (uint32_t)a, o.len);
        if (o.len) say_octets(o.at, o.len);
        octets_free(o);
    }
}

/* 0 where the exports don't know the call. */
static int answered(char *call) {
    char *rest = strchr(call, ' ');
    if (!rest) return 0;
    *rest++ = 0;
    struct octets o = {NULL, 0, NULL, 0};
    int known = 1;
    end = 0;
    answer[0] = 0;
    if (!strcmp(call, "gtpu")) gtpu(o = octets_from(rest));
    else if (!strcmp(call, "gtpv2")) gtpv2(o = octets_from(rest));
    else if (!strcmp(call, "ies")) ies(o = octets_from(rest));
    else if (!strcmp(call, "ip")) ip(o = octets_from(rest));
    else if (!strcmp(call, "tft")) tft(o = octets_from(rest));
    else if (!strcmp(call, "value")) {
        unsigned kind = (unsigned)strtoul(rest, &rest, 10);
        known = *rest == ' ' && value(kind, o = octets_from(rest + 1));
    } else if (!strcmp(call, "apply")) apply(rest);
    else if (!strcmp(call, "match")) match(rest);
    else if (!strcmp(call, "choose")) choose(rest);
    else if (!strcmp(call, "police")) police(rest);
    else if (!strcmp(call, "bucket")) bucket(rest);
    else if (!strcmp(call, "book")) known = book(rest);
    else if (!strcmp(call, "send")) send(rest);
    else known = 0;
    octets_free(o);
    return known;
}

int main(int argc, char **argv) {
    FILE *calls = argc > 2 ? fopen(argv[1], "r") : NULL, *answers = argc > 2 ? fopen(argv[2], "r") : NULL;
    if (!calls || !answers) { fprintf(stderr, "usage: answers CALLS ANSWERS\n"); return 2; }
    char *call = NULL, *given = NULL, kinds[32][16];
    size_t call_room = 0, given_room = 0, kind_count = 0;
    unsigned done[32] = {0}, differ = 0;
    while (getline(&call, &call_room, calls) > 0 && getline(&given, &given_room, answers) > 0) {
        call[strcspn(call, "\n")] = 0;
        given[strcspn(given, "\n")] = 0;
        if (!strcmp(given, "no call")) continue;
        char *whole = strdup(call);
        if (answered(call)) {
            /* a whole message isn't written again */
            if (!strcmp(call, "gtpv2") && !strncmp(given, "ok ", 3)) given[2] = 0;
            size_t k = 0;
            while (k < kind_count && strcmp(kinds[k], call)) k++;
            if (k == kind_count) { snprintf(kinds[k], 16, "%s", call); kind_count++; }
            done[k]++;
            if (strcmp(answer, given)) { differ++; printf("%.300s: %.200s, not %.200s\n", whole, answer, given); }
        }
        free(whole);
    }
    for (size_t k = 0; k < kind_count; k++) printf("%s %u\n", kinds[k], done[k]);
    printf("differ %u\n", differ);
    free(call); free(given); fclose(calls); fclose(answers);
    return differ != 0;
}
