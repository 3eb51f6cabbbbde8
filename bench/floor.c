// The least work that any service must do for a load of anchored reads, by OpenSSL: two
// HMAC-SHA-256 a request.
//
//     floor FRAMES [oneshot]
//
// FRAMES is a stream of request frames: be32 length, then the payload, whose last 32 bytes are the
// tag of all before them under the channel's key, 32 bytes of value 1. For each frame the tag is
// checked, and the tag of a reply of 63 bytes is computed. The key's HMAC state is made once and
// used again; with `oneshot` each tag is one call of HMAC(). Prints the frames, the frames per
// second, the microseconds of processor time for each, and a sum of the replies' tags, so that none
// can be left out.
#define OPENSSL_API_COMPAT 0x10100000L
#include <openssl/crypto.h>
#include <openssl/evp.h>
#include <openssl/hmac.h>
#include <stdint.h>
#include <stdio.h>
#include <stdlib.h>
#include <string.h>
#include <time.h>

enum { TAG = 32, REPLY = 63, LONGEST = 65536, AT_ONCE = 1 << 16 };

static unsigned char key[32];
static HMAC_CTX *kept;
static int one_shot;

static void fail(const char *why) {
    fprintf(stderr, "floor: %s\n", why);
    exit(1);
}

static void tag_of(const unsigned char *text, size_t len, unsigned char tag[TAG]) {
    unsigned int out = 0;
    if (one_shot) {
        if (!HMAC(EVP_sha256(), key, sizeof key, text, len, tag, &out)) fail("no tag");
    } else if (!HMAC_Init_ex(kept, NULL, 0, NULL, NULL) || !HMAC_Update(kept, text, len) ||
               !HMAC_Final(kept, tag, &out)) {
        fail("no tag");
    }
    if (out != TAG) fail("a tag of another length");
}

static double seconds(void) {
    struct timespec now;
    clock_gettime(CLOCK_MONOTONIC, &now);
    return (double)now.tv_sec + 1e-9 * (double)now.tv_nsec;
}

// 1, or 0 where the input has ended before the first byte.
static int read_all(FILE *in, unsigned char *into, size_t len) {
    size_t got = fread(into, 1, len, in);
    if (got == 0 && feof(in)) return 0;
    if (got != len) fail("input ends inside a frame");
    return 1;
}

// A grant of a Read: the request's channel and sequence number, and bytes that are always alike.
static void reply_to(const unsigned char *payload, unsigned char reply[REPLY]) {
    memset(reply, 0, REPLY);
    reply[0] = 4;
    memcpy(reply + 1, payload + 1, 12);
    memcpy(reply + REPLY - 5, "hello", 5);
}

int main(int argc, char **argv) {
    if (argc < 2 || argc > 3 || (argc == 3 && strcmp(argv[2], "oneshot") != 0)) {
        fail("usage: floor FRAMES [oneshot]");
    }
    one_shot = argc == 3;
    memset(key, 1, sizeof key);
    kept = HMAC_CTX_new();
    if (!kept || !HMAC_Init_ex(kept, key, sizeof key, EVP_sha256(), NULL)) fail("no state");
    FILE *in = fopen(argv[1], "rb");
    if (!in) fail("the frames can't be opened");
    setvbuf(in, NULL, _IOFBF, AT_ONCE);

    static unsigned char head[4], payload[LONGEST], reply[REPLY], tag[TAG];
    unsigned long frames = 0;
    unsigned char sum = 0;
    clock_t used = clock();
    double start = seconds();
    while (read_all(in, head, sizeof head)) {
        uint32_t len = (uint32_t)head[0] << 24 | (uint32_t)head[1] << 16 | (uint32_t)head[2] << 8 | head[3];
        if (len > LONGEST || len < 13 + TAG) fail("a frame of another length");
        if (!read_all(in, payload, len)) fail("input ends inside a frame");
        tag_of(payload, len - TAG, tag);
        if (CRYPTO_memcmp(tag, payload + len - TAG, TAG) != 0) fail("a tag differs");
        reply_to(payload, reply);
        tag_of(reply, REPLY, tag);
        sum ^= tag[0];
        frames++;
    }
    double took = seconds() - start;
    double each = (double)(clock() - used) * 1e6 / CLOCKS_PER_SEC / (double)frames;
    printf("%lu frames, %.0f per second, %.2f us each, sum %u\n", frames, (double)frames / took, each, sum);
    fclose(in);
    HMAC_CTX_free(kept);
    return 0;
}
