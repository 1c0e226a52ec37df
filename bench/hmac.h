/* HMAC with SHA-1 (RFC 2104, FIPS 180-4) over a salt of 20 bytes, as the hashed names of known_hosts have it. */
#include <stddef.h>
#include <stdint.h>

enum { SALT = 20, DIGEST = 20 };

void hmac_sha1(const uint8_t salt[SALT], const uint8_t *data, size_t len, uint8_t out[DIGEST]);
