/* Refuses each allocation of libgtp_c_memory in turn: refused. The call then answers GTP_C_NO_MEMORY, or what it answers
 * without one, writes nothing, and keeps no block. It says how many were refused, and ends with 1 where one went wrong. */
#include "../gtp_c.h"
#include <stdio.h>
#include <stdlib.h>
#include <string.h>

struct block { uint8_t given; void *at; };
struct block rattle_alloc(size_t size, size_t align);
struct block rattle_realloc(void *at, size_t old, size_t size, size_t align);
void rattle_dealloc(void *at, size_t size, size_t align);

static long left = -1, taken, held; /* left: allocations that are granted still, -1 for no end */
static char nothing;

static int granted(void) {
    taken++;
    if (!left) return 0;
    if (left > 0) left--;
    return 1;
}
struct block rattle_alloc(size_t size, size_t align) {
    void *at = granted() ? malloc(size ? size : align) : NULL;
    held += at != NULL;
    return (struct block){at != NULL, at ? at : &nothing};
}
struct block rattle_realloc(void *at, size_t old, size_t size, size_t align) {
    void *now = granted() ? realloc(at, size ? size : align) : NULL;
    (void)old;
    return (struct block){now != NULL, now ? now : &nothing};
}
void rattle_dealloc(void *at, size_t size, size_t align) {
    (void)size;
    (void)align;
    held--;
    free(at);
}

static unsigned wrong;
static void expect(int holds, const char *what, long at) {
    if (!holds) { wrong++; printf("%s, allocation %ld refused: wrong\n", what, at); }
}

/* a Create Session Request, and a template with three filters */
static const uint8_t request[] =
    "\x48\x20\0\x67\0\0\0\0\0\0\1\0\1\0\x08\0\0\x01\x01\x21\x43\x65\x87\xf9\x52\0\1\0\6\x57\0\x09\0\x8a\0\0\x10\0\xc6\x33\x64\1"
    "\x47\0\x09\0\x08\x69\x6e\x74\x65\x72\x6e\x65\x74\x63\0\1\0\3\x48\0\x08\0\0\0\xc3\x50\0\1\x86\xa0\x5d\0\x1f\0\x49\0\1\0\5"
    "\x50\0\x16\0\x24\x09\0\0\0\0\0\0\0\0\0\0\0\0\0\0\0\0\0\0\0\0";
static const uint8_t template[] = "\x23\x30\x09\x02\x30\x11\x31\x0a\x03\x50\x13\xc4\x12\x0b\x09\x10\xcb\0\x71\x09\xff\xff\xff\xff";

static uint32_t check(struct gtp_c_gtpv2_fault *fault) { return gtp_c_gtpv2_check(request, 107, fault); }
static uint32_t read_template(uint8_t *operation, struct gtp_c_tft_filter *entries, size_t *needed) {
    return gtp_c_tft_read(template, sizeof template - 1, 3, operation, entries, 15, needed);
}

int main(void) {
    struct gtp_c_gtpv2_fault fault = {7, 7};
    struct gtp_c_tft_filter entries[15], same[15];
    uint8_t operation = 9;
    size_t needed = 0;
    expect(check(&fault) == GTP_C_OK, "message", -1);
    long of_message = taken;
    taken = 0;
    expect(read_template(&operation, entries, &needed) == GTP_C_OK && operation == 1 && needed == 3, "template", -1);
    long of_template = taken;
    for (long at = 0; at < of_message; at++) {
        left = at;
        fault = (struct gtp_c_gtpv2_fault){7, 7};
        expect(check(&fault) == GTP_C_NO_MEMORY && fault.kind == 7 && fault.instance == 7 && !held, "message", at);
    }
    memset(same, 0x5a, sizeof same);
    for (long at = 0; at < of_template; at++) {
        left = at;
        operation = 9;
        memcpy(entries, same, sizeof same);
        expect(read_template(&operation, entries, &needed) == GTP_C_NO_MEMORY && operation == 9 && !needed
               && !memcmp(entries, same, sizeof same) && !held, "template", at);
    }
    left = 0; /* what is wrong with a head, or with a first octet, is told without memory */
    expect(gtp_c_gtpv2_check(request, 7, &fault) == GTP_C_SHORT, "head", 0);
    expect(gtp_c_tft_read((const uint8_t *)"\x20", 1, 0, &operation, entries, 15, &needed) == GTP_C_OPERATION, "first octet", 0);
    expect(of_message > 0 && of_template > 0, "count", 0);
    printf("%ld allocations of a message and %ld of a template refused, %u wrong\n", of_message, of_template, wrong);
    return wrong != 0;
}
