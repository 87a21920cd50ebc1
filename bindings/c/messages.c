/* Reads a certificate by the names of a module, and a message by PER, with asn1_messages.h.
 *
 * usage: messages Certificates.asn1 CERTIFICATE.der
 */
#include "asn1_messages.h"
#include <stdio.h>
#include <stdlib.h>
#include <string.h>

static int failed(const char *what, asn1m_octets *error) {
    fprintf(stderr, "%s: %s\n", what, error->at ? (char *)error->at : "failed");
    asn1m_octets_free(error);
    return 1;
}

static char *file(const char *path, size_t *count) {
    FILE *in = fopen(path, "rb");
    char *text = malloc(1 << 20);
    *count = in && text ? fread(text, 1, 1 << 20, in) : 0;
    if (in) fclose(in);
    return text;
}

static void show(const asn1m_message *message, const char *path) {
    asn1m_octets text;
    if (asn1m_get_text(message, path, &text) == ASN1M_DONE) printf("%s = %s\n", path, (char *)text.at);
    else printf("%s is absent\n", path);
    asn1m_octets_free(&text);
}

/* Prints the value of a type whose DER a message has at a path. */
static int show_inner(const asn1m_schema *schema, const char *type, const asn1m_message *outer, const char *path) {
    asn1m_codec *codec = NULL;
    asn1m_message *message = NULL;
    asn1m_octets der, error, text;
    int code = asn1m_get_octets(outer, path, &der);
    if (!code) code = asn1m_codec_new(schema, type, ASN1M_DER, 0, &codec, &error);
    if (!code) code = asn1m_decode(codec, der.at, der.count, &message, &error);
    if (!code) code = asn1m_get_text(message, "", &text);
    if (!code) {
        printf("%s %s\n", type, (char *)text.at);
        asn1m_octets_free(&text);
    }
    asn1m_octets_free(&der);
    asn1m_codec_free(codec);
    asn1m_message_free(message);
    return code;
}

static int certificate(const char *module, size_t module_count, const char *der, size_t der_count) {
    static const char subject[] = "tbsCertificate.subject.rdnSequence", extensions[] = "tbsCertificate.extensions";
    asn1m_schema *schema;
    asn1m_codec *codec;
    asn1m_message *message;
    asn1m_octets error, again, id;
    char path[80];
    size_t count = 0, i;
    int64_t version = -1;
    if (asn1m_schema_parse(module, module_count, &schema, &error)) return failed("the module", &error);
    if (asn1m_codec_new(schema, "Certificate", ASN1M_DER, 0, &codec, &error)) return failed("the type", &error);
    if (asn1m_decode(codec, (const uint8_t *)der, der_count, &message, &error)) return failed("the certificate", &error);
    if (asn1m_get_i64(message, "tbsCertificate.version", &version) != ASN1M_DONE) return 1;
    if (asn1m_get_i64(message, "tbsCertificate.validity", &version) != ASN1M_ABSENT) return 1;
    printf("version %d\n", (int)version + 1);
    show(message, "tbsCertificate.validity");
    show(message, "tbsCertificate.issuerUniqueID");
    if (asn1m_get_count(message, subject, &count)) return 1;
    for (i = 0; i < count; i++) {
        snprintf(path, sizeof path, "%s[%d][0].value", subject, (int)i);
        if (show_inner(schema, "DirectoryString", message, path)) return 1;
    }
    if (asn1m_get_count(message, extensions, &count)) return 1;
    for (i = 0; i < count; i++) {
        snprintf(path, sizeof path, "%s[%d].extnID", extensions, (int)i);
        if (asn1m_get_text(message, path, &id)) return 1;
        snprintf(path, sizeof path, "%s[%d].extnValue", extensions, (int)i);
        /* RFC 5280 4.2.1.3 and 4.2.1.9 */
        if (!strcmp((char *)id.at, "{ 2 5 29 15 }") && show_inner(schema, "KeyUsage", message, path)) return 1;
        if (!strcmp((char *)id.at, "{ 2 5 29 19 }") && show_inner(schema, "BasicConstraints", message, path)) return 1;
        asn1m_octets_free(&id);
    }
    if (asn1m_encode(codec, message, &again) || again.count != der_count || memcmp(again.at, der, der_count)) return failed("again", &again);
    asn1m_octets_free(&again);
    asn1m_schema_free(schema);
    asn1m_codec_free(codec);
    asn1m_message_free(message);
    return 0;
}

static int points(void) {
    static const char module[] =
        "Points DEFINITIONS AUTOMATIC TAGS ::= BEGIN\n"
        "  Point ::= SEQUENCE { x INTEGER (0..255), y INTEGER (0..255), label OCTET STRING OPTIONAL, far INTEGER OPTIONAL }\n"
        "END";
    static const char json[] = "{\"x\": 3, \"y\": 200, \"label\": \"0A0B\", \"far\": -9000000000}";
    asn1m_schema *schema;
    asn1m_codec *codec;
    asn1m_message *message;
    asn1m_octets error, octets, text;
    int64_t number = 0;
    size_t i;
    if (asn1m_schema_parse(module, sizeof module - 1, &schema, &error)) return failed("the module", &error);
    if (asn1m_codec_new(schema, "Points.Point", ASN1M_UPER, 10, &codec, &error)) return failed("the type", &error);
    if (asn1m_encode_json(codec, json, strlen(json), &octets)) return failed("JSON", &octets);
    for (i = 0; i < octets.count; i++) printf("%02X", octets.at[i]);
    if (asn1m_decode_to_json(codec, octets.at, octets.count, &text)) return failed("octets", &text);
    printf("\n%s", (char *)text.at);
    asn1m_octets_free(&text);
    if (asn1m_decode(codec, octets.at, octets.count, &message, &error)) return failed("octets", &error);
    if (asn1m_get_i64(message, "far", &number) || number != -9000000000 || asn1m_get_octets(message, "label", &text)) return 1;
    printf("%d octets in the label, %lld is far\n", (int)text.count, (long long)number);
    asn1m_octets_free(&text);
    asn1m_message_free(message);
    if (asn1m_decode(codec, octets.at, octets.count - 1, &message, &error) != ASN1M_INVALID) return 1;
    printf("%s\n", (char *)error.at);
    asn1m_octets_free(&error);
    asn1m_octets_free(&octets);
    asn1m_codec_free(codec);
    if (asn1m_codec_new(schema, "Line", ASN1M_UPER, 0, &codec, &error) != ASN1M_INVALID) return 1;
    printf("%s\n", (char *)error.at);
    asn1m_octets_free(&error);
    asn1m_schema_free(schema);
    if (asn1m_schema_parse("A DEFINITIONS ::=", 17, &schema, &error) != ASN1M_INVALID) return 1;
    printf("%s\n", (char *)error.at);
    asn1m_octets_free(&error);
    asn1m_schema_free(schema);
    asn1m_codec_free(NULL);
    asn1m_message_free(NULL);
    return 0;
}

int main(int argc, char **argv) {
    size_t module_count, der_count;
    char *module, *der;
    int status;
    if (argc != 3) return 2;
    module = file(argv[1], &module_count);
    der = file(argv[2], &der_count);
    status = certificate(module, module_count, der, der_count) || points();
    free(module);
    free(der);
    return status;
}
