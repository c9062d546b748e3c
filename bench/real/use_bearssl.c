/* Raises a number as RSA does to check a signature, hashes its input by SHA-256, enciphers it by AES-CBC, and then by ChaCha20
   with Poly1305: portable parts of BearSSL, as one that sends a file uses them one after the other. */
#include "layer.h"
#include "bearssl.h"
#include <string.h>

static br_sha256_context sha;
static br_aes_big_cbcenc_keys aes;
static unsigned char modulus[128], exponent[3] = {1, 0, 1}, signature[128], text[ROOM];

static void put_hex(const unsigned char *bytes, int count)
{
    char line[65];
    for (int k = 0; k < count; k++) {
        line[2 * k] = "0123456789abcdef"[bytes[k] >> 4];
        line[2 * k + 1] = "0123456789abcdef"[bytes[k] & 15];
    }
    line[2 * count] = '\n';
    put_bytes(line, 2 * count + 1);
}

static int raise_signature(void)
{
    br_rsa_public_key key = {modulus, sizeof modulus, exponent, sizeof exponent};
    for (int k = 0; k < 128; k++) {
        modulus[k] = 193 + 37 * k;
        signature[k] = 11 + 91 * k;
    }
    modulus[127] |= 1;
    int done = br_rsa_i15_public(signature, sizeof signature, &key);
    put_hex(signature, 32);
    return done;
}

int main(void)
{
    unsigned count = read_input() & ~15u;
    unsigned char sum[32], start[16] = {0}, tag[16];
    int done = raise_signature();
    br_sha256_init(&sha);
    br_sha256_update(&sha, input, count);
    br_sha256_out(&sha, sum);
    put_hex(sum, 32);
    memcpy(text, input, count);
    br_aes_big_cbcenc_init(&aes, signature, 32);
    br_aes_big_cbcenc_run(&aes, start, text, count);
    put_hex(start, 16);
    br_poly1305_ctmul_run(signature, sum, text, count, sum, 32, tag, br_chacha20_ct_run, 1);
    put_hex(tag, 16);
    return done ? 0 : 1;
}
