/* What the driver defines, and what the library exports. */
#include <stddef.h>
#include <stdint.h>

void bench_mark(uint32_t event, uint64_t count, uint64_t sum);

int32_t bench_run(const uint8_t *words, size_t words_len, const uint32_t *ends, size_t ends_len,
                  const uint8_t *haystack, size_t haystack_len, uint32_t unit, uint32_t mode,
                  uint32_t filter, uint32_t builds, uint32_t rounds);
