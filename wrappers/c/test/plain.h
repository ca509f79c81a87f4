/* The same readers as a C programmer writes them: what speed is measured against, and what the fuzzer compares with. */
#include "../gtp_c.h"

uint32_t plain_gtpu_read(const uint8_t *bytes, size_t len, struct gtp_c_gtpu_head *head);
uint32_t plain_gpdu_head(uint32_t teid, size_t payload_len, uint8_t *out, size_t room, size_t *needed);
uint32_t plain_gtpv2_head(const uint8_t *bytes, size_t len, struct gtp_c_gtpv2_head *head);
uint32_t plain_ie_at(const uint8_t *octets, size_t len, size_t at, struct gtp_c_ie *ie);
uint32_t plain_ip4_read(const uint8_t *bytes, size_t len, struct gtp_c_ip4_head *head);
uint32_t plain_tft_choose(const struct gtp_c_tft_filter *filters, size_t count, uint32_t has_default,
                          const uint8_t *packet, size_t len, uint8_t *bearer);
uint32_t plain_policer_ask(struct gtp_c_policer *policer, uint64_t at, uint32_t octets);
