/* Times the reading of certificates by OpenSSL, by `decode` of asn1_x690_decode and, with WITH_RUST, by the Rust crate
 * `asn1`, in one process.
 *
 * usage: compare_certificates MODULE FILE ROUNDS
 *
 * MODULE has the types. FILE has certificates in DER, each after its length in four octets, most significant first. The
 * readers read all of them in turn, ROUNDS times, and the fastest time of each is printed: nanoseconds per certificate.
 * With ROUNDS 0 OpenSSL alone reads each once, with -1 decode alone and with -2 the Rust crate alone, for a counter of
 * instructions. */
#include <openssl/x509.h>
#include <stdbool.h>
#include <stdio.h>
#include <stdlib.h>
#include <time.h>

size_t read_certificates(const unsigned char *module, size_t module_count, const unsigned char *octets, size_t octet_count);
#ifdef WITH_RUST
bool read_by_asn1(const unsigned char *octets, size_t octet_count);
#endif

static unsigned char module[1 << 16], octets[1 << 22];
static size_t at[4096], count, module_size, size;

static size_t by_openssl(void) {
    size_t read = 0;
    for (size_t i = 0; i < count; i++) {
        const unsigned char *next = octets + at[i];
        X509 *certificate = d2i_X509(NULL, &next, (long)(at[i + 1] - 4 - at[i]));
        read += certificate != NULL;
        X509_free(certificate);
    }
    return read;
}

static size_t by_decode(void) {
    return read_certificates(module, module_size, octets, size);
}

#ifdef WITH_RUST
static size_t by_rust(void) {
    size_t read = 0;
    for (size_t i = 0; i < count; i++)
        read += read_by_asn1(octets + at[i], at[i + 1] - 4 - at[i]);
    return read;
}
#endif

static double best(size_t (*reader)(void), long rounds) {
    double least = 1e18;
    for (long round = 0; round < rounds; round++) {
        struct timespec from, until;
        clock_gettime(CLOCK_MONOTONIC, &from);
        if (reader() != count) exit(2);
        clock_gettime(CLOCK_MONOTONIC, &until);
        double took = (until.tv_sec - from.tv_sec) * 1e9 + (until.tv_nsec - from.tv_nsec);
        if (took < least) least = took;
    }
    return least / count;
}

int main(int argc, char **argv) {
    FILE *text = argc == 4 ? fopen(argv[1], "rb") : NULL, *file = text ? fopen(argv[2], "rb") : NULL;
    if (!file) return 1;
    module_size = fread(module, 1, sizeof module, text);
    size = fread(octets, 1, sizeof octets, file);
    for (size_t from = 0; from + 4 <= size && count < 4095;) {
        size_t length = (size_t)octets[from] << 24 | octets[from + 1] << 16 | octets[from + 2] << 8 | octets[from + 3];
        at[count++] = from + 4;
        from += 4 + length;
        at[count] = from + 4;
    }
    long rounds = atol(argv[3]);
#ifdef WITH_RUST
    if (rounds == -2) return by_rust() != count;
#endif
    if (rounds <= 0) return (rounds ? by_decode() : by_openssl()) != count;
    printf("%zu certificates, nanoseconds a certificate: OpenSSL %.0f, decode %.0f", count, best(by_openssl, rounds),
           best(by_decode, rounds));
#ifdef WITH_RUST
    printf(", asn1 %.0f", best(by_rust, rounds));
#endif
    printf("\n");
    return 0;
}
