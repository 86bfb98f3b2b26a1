/* Times our hashes beside OpenSSL's: nanoseconds for a message of 65 bytes, MB/s at 16 KiB.
   OpenSSL reads its processor capabilities once, from the environment variable OPENSSL_ia32cap, so each of its two
   variants is measured by a child of this program, in turn with ours; the best of the rounds counts. */
#include <openssl/evp.h>
#include <openssl/sha.h>
#include <stdint.h>
#include <stdio.h>
#include <stdlib.h>
#include <string.h>
#include <time.h>

struct place {
    uint8_t bytes[32];
};

/* crates/chashes_c: a Rattle slice is a pointer and then a length */
uint8_t rundapiyo_sha256(const uint8_t *message, size_t length, struct place *out);
uint8_t rundapiyo_sha3_256(const uint8_t *message, size_t length, struct place *out);

enum { SHORT = 65, LONG = 16384, SHORT_TURNS = 40000, LONG_TURNS = 300, ROUNDS = 7 };

static uint8_t message[LONG];
static EVP_MD_CTX *context;
static const EVP_MD *sha3;

static void ours_sha256(size_t n, struct place *out) { rundapiyo_sha256(message, n, out); }
static void ours_sha3(size_t n, struct place *out) { rundapiyo_sha3_256(message, n, out); }
static void openssl_sha256(size_t n, struct place *out) { SHA256(message, n, out->bytes); }

static void openssl_sha3(size_t n, struct place *out) {
    EVP_DigestInit_ex(context, sha3, NULL);
    EVP_DigestUpdate(context, message, n);
    EVP_DigestFinal_ex(context, out->bytes, NULL);
}

typedef void (*hash)(size_t, struct place *);

static double seconds(hash h, size_t n, int turns) {
    struct timespec from, to;
    struct place out;
    clock_gettime(CLOCK_MONOTONIC, &from);
    for (int i = 0; i < turns; i++) {
        h(n, &out);
        message[0] = out.bytes[0];
    }
    clock_gettime(CLOCK_MONOTONIC, &to);
    return (double)(to.tv_sec - from.tv_sec) + 1e-9 * (double)(to.tv_nsec - from.tv_nsec);
}

/* nanoseconds for a short message, MB/s for a long one, of SHA-256 and then SHA3-256 */
static void measure(hash h2, hash h3, double *row) {
    hash both[2] = {h2, h3};
    for (int i = 0; i < 2; i++) {
        row[2 * i] = 1e9 * seconds(both[i], SHORT, SHORT_TURNS) / SHORT_TURNS;
        row[2 * i + 1] = 1e-6 * LONG * LONG_TURNS / seconds(both[i], LONG, LONG_TURNS);
    }
}

static void keep_best(double *best, const double *row) {
    for (int i = 0; i < 4; i++) {
        int better = i % 2 == 0 ? row[i] < best[i] || best[i] == 0 : row[i] > best[i];
        if (better) best[i] = row[i];
    }
}

static int child(const char *self, const char *environment, double *row) {
    char command[4096];
    snprintf(command, sizeof command, "%s %s openssl", environment, self);
    FILE *f = popen(command, "r");
    int got = f ? fscanf(f, "%lf %lf %lf %lf", row, row + 1, row + 2, row + 3) : 0;
    if (f) pclose(f);
    return got == 4;
}

static int agree(void) {
    struct place a, b;
    for (size_t n = 0; n <= 600; n++) {
        ours_sha256(n, &a);
        openssl_sha256(n, &b);
        if (memcmp(&a, &b, sizeof a) != 0) return 0;
        ours_sha3(n, &a);
        openssl_sha3(n, &b);
        if (memcmp(&a, &b, sizeof a) != 0) return 0;
    }
    return 1;
}

static void line(const char *name, const double *r) {
    printf("%-34s %8.0f ns %8.0f MB/s   %8.0f ns %8.0f MB/s\n", name, r[0], r[1], r[2], r[3]);
}

static void ratio(const char *name, const double *ours, const double *theirs) {
    printf("%-34s %8.2f    %8.2f        %8.2f    %8.2f\n", name, theirs[0] / ours[0], ours[1] / theirs[1], theirs[2] / ours[2],
           ours[3] / theirs[3]);
}

int main(int argc, char **argv) {
    double row[4], ours[4] = {0}, with[4] = {0}, without[4] = {0};
    for (size_t i = 0; i < LONG; i++) message[i] = (uint8_t)(131 * i + 17);
    context = EVP_MD_CTX_new();
    sha3 = EVP_MD_fetch(NULL, "SHA3-256", NULL);
    if (argc > 1) {
        measure(openssl_sha256, openssl_sha3, row);
        printf("%f %f %f %f\n", row[0], row[1], row[2], row[3]);
        return 0;
    }
    if (!agree()) {
        puts("the digests differ from OpenSSL's");
        return 1;
    }
    for (int i = 0; i < ROUNDS; i++) {
        measure(ours_sha256, ours_sha3, row);
        keep_best(ours, row);
        if (!child(argv[0], "", row)) return 1;
        keep_best(with, row);
        if (!child(argv[0], "OPENSSL_ia32cap=:~0x20000000", row)) return 1;
        keep_best(without, row);
    }
    printf("%-34s %-24s   %-24s\n", "", "SHA-256, 65 B and 16 KiB", "SHA3-256, 65 B and 16 KiB");
    line("ours", ours);
    line("OpenSSL, with hardware SHA", with);
    line("OpenSSL, without hardware SHA", without);
    ratio("ours / OpenSSL with hardware SHA", ours, with);
    ratio("ours / OpenSSL without it", ours, without);
    return 0;
}
