/* Octets that end at a page that may not be read or written, so that a call that passes their end faults. */
#include <stddef.h>
#include <stdint.h>
#include <stdio.h>
#include <stdlib.h>
#include <string.h>
#include <sys/mman.h>

struct octets { uint8_t *at; size_t len; uint8_t *map; size_t mapped; };

static inline struct octets octets_of(size_t len) {
    size_t body = (len + 4095) / 4096 * 4096;
    struct octets o = {NULL, len, NULL, body + 4096};
    if (!len) return o; /* NULL where there are none */
    o.map = mmap(NULL, o.mapped, PROT_READ | PROT_WRITE, MAP_PRIVATE | MAP_ANONYMOUS, -1, 0);
    if (o.map == MAP_FAILED || mprotect(o.map + body, 4096, PROT_NONE)) { perror("mmap"); exit(2); }
    o.at = o.map + body - len;
    return o;
}
static inline void octets_free(struct octets o) { if (o.map) munmap(o.map, o.mapped); }

/* Those of hexadecimal digits; `-` is none. */
static inline struct octets octets_from(const char *hex) {
    size_t len = strcmp(hex, "-") ? strlen(hex) / 2 : 0;
    struct octets o = octets_of(len);
    for (size_t i = 0; i < len; i++) { unsigned v = 0; sscanf(hex + 2 * i, "%2x", &v); o.at[i] = (uint8_t)v; }
    return o;
}
