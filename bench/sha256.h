/* SHA-256 (FIPS 180-4), over bytes that come in pieces. */
#include <stddef.h>
#include <stdint.h>

enum { SHA256_BLOCK = 64, SHA256_DIGEST = 32 };

typedef struct {
    uint32_t state[8];
    uint64_t bytes;
    uint8_t kept[SHA256_BLOCK];
} Sha256;

void sha256_begin(Sha256 *hash);
void sha256_take(Sha256 *hash, const uint8_t *data, size_t len);
void sha256_end(Sha256 *hash, uint8_t out[SHA256_DIGEST]);
