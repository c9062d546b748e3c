/* Enciphers its input by AES and by ChaCha, and hashes what came of each by SHA-256 and by MD5: parts of libtomcrypt. */
#include "layer.h"
#include "tomcrypt.h"

static symmetric_key aes;
static chacha_state chacha;
static hash_state sha, md;
static unsigned char cipher[ROOM + 16];

static void put_hex(const unsigned char *bytes, int count)
{
    char line[65];
    for (int k = 0; k < count; k++) {
        line[2 * k] = "0123456789abcdef"[bytes[k] >> 4];
        line[2 * k + 1] = "0123456789abcdef"[bytes[k] & 15];
    }
    line[2 * count] = '\n';
    put_bytes(line, 2 * count + 1);
}

static void chain(unsigned count)
{
    unsigned char block[16] = {0};
    for (unsigned at = 0; at < count; at += 16) {
        for (int k = 0; k < 16; k++)
            block[k] ^= input[at + k];
        rijndael_ecb_encrypt(block, block, &aes);
        memcpy(cipher + at, block, 16);
    }
}

static int unchained(unsigned count)
{
    unsigned char block[16], last[16] = {0};
    int right = 1;
    for (unsigned at = 0; at < count; at += 16) {
        rijndael_ecb_decrypt(cipher + at, block, &aes);
        for (int k = 0; k < 16; k++)
            right &= (unsigned char)(block[k] ^ last[k]) == (unsigned char)input[at + k];
        memcpy(last, cipher + at, 16);
    }
    return right;
}

int main(void)
{
    unsigned count = read_input() & ~15u;
    unsigned char key[32], sum[32];
    for (int k = 0; k < 32; k++)
        key[k] = 7 * k + 1;
    rijndael_setup(key, 32, 0, &aes);
    chain(count);
    int right = unchained(count);
    sha256_init(&sha);
    sha256_process(&sha, cipher, count);
    sha256_done(&sha, sum);
    put_hex(sum, 32);
    chacha_setup(&chacha, key, 32, 20);
    chacha_ivctr32(&chacha, key, 12, 1);
    chacha_crypt(&chacha, (unsigned char *)input, count, cipher);
    md5_init(&md);
    md5_process(&md, cipher, count);
    md5_done(&md, sum);
    put_hex(sum, 16);
    return right ? 0 : 1;
}
