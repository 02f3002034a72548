/*
 * What is measured over a page: the library's signing and its peers. A peer from a package is there where its WITH_ is defined.
 */
#include "bench.h"

#include "../include/cotelark.h"

#include <string.h>

#ifdef WITH_GF_COMPLETE
#include <gf_complete.h>
#endif
#ifdef WITH_XXHASH
#include <xxhash.h>
#endif
#ifdef WITH_ZLIB
#include <zlib.h>
#endif
#ifdef WITH_OPENSSL
#define OPENSSL_SUPPRESS_DEPRECATED
#include <openssl/evp.h>
#include <openssl/sha.h>
#endif

static uint64_t packed(const uint16_t s[4])
{
    uint64_t all;
    memcpy(&all, s, sizeof all);
    return all;
}

static uint64_t library(const struct page *page)
{
    uint16_t s[4];
    need(cotelark_sign(page->n, page->bytes, page->length, s) == 0, "cotelark_sign");
    return packed(s);
}

static uint64_t tables(const struct page *page)
{
    uint16_t s[4];
    tables_sign(page->n, page->bytes, page->length, s);
    return packed(s);
}

static uint64_t long_tables(const struct page *page)
{
    uint16_t s[4];
    long_tables_sign(page->n, page->bytes, page->length, s);
    return packed(s);
}

static uint64_t horner(const struct page *page)
{
    uint16_t s[4];
    horner_sign(page->n, page->bytes, page->length, s);
    return packed(s);
}

static uint64_t copy(const struct page *page)
{
    memcpy(page->beside, page->bytes, page->length);
    return page->beside[page->length - 1];
}

/* The least that reading a page costs: an exclusive or of its words. */
static uint64_t exclusive_or(const struct page *page)
{
    uint64_t sum = 0;
    for (size_t at = 0; at + sizeof sum <= page->length; at += sizeof sum) {
        uint64_t word;
        memcpy(&word, page->bytes + at, sizeof word);
        sum ^= word;
    }
    return sum;
}

#ifdef WITH_GF_COMPLETE
/*
 * One product of a page by a constant, added to an accumulator; gf-complete has the same field. It stands for a signature by Horner's rule
 * over blocks, which would need one such product for each component, and then the signatures of what the accumulators hold.
 */
static gf_t field;
static _Alignas(64) uint8_t accumulator[LARGEST_PAGE];

static uint64_t region(const struct page *page)
{
    field.multiply_region.w32(&field, (void *)page->bytes, accumulator, 0x1234, (int)page->length, 1);
    return accumulator[page->length - 1];
}
#endif

#ifdef WITH_XXHASH
static uint64_t xxh3(const struct page *page)
{
    return XXH3_64bits(page->bytes, page->length);
}
uint64_t (*const page_hash)(const struct page *page) = xxh3;
#else
uint64_t (*const page_hash)(const struct page *page) = NULL;
#endif

#ifdef WITH_ZLIB
static uint64_t crc(const struct page *page)
{
    return crc32(0, page->bytes, (uInt)page->length);
}
#endif

#ifdef WITH_OPENSSL
/* OpenSSL's interface, with everything made beforehand that can be. */
static EVP_MD *sha1_kind;
static EVP_MD_CTX *sha1_context;

static uint64_t sha1(const struct page *page)
{
    uint8_t digest[SHA_DIGEST_LENGTH];
    EVP_DigestInit_ex2(sha1_context, sha1_kind, NULL);
    EVP_DigestUpdate(sha1_context, page->bytes, page->length);
    EVP_DigestFinal_ex(sha1_context, digest, NULL);
    return digest[0];
}

/* The interface that OpenSSL has deprecated, which costs less a call. */
static uint64_t old_sha1(const struct page *page)
{
    SHA_CTX context;
    uint8_t digest[SHA_DIGEST_LENGTH];
    SHA1_Init(&context);
    SHA1_Update(&context, page->bytes, page->length);
    SHA1_Final(digest, &context);
    return digest[0];
}
#endif

const struct candidate candidates[] = {
    {"cotelark", 1, library},
    {"cotelark", 2, library},
    {"cotelark", 4, library},
    {"logarithm tables", 1, tables},
    {"logarithm tables", 2, tables},
    {"logarithm tables", 4, tables},
    {"long logarithm tables", 1, long_tables},
    {"long logarithm tables", 2, long_tables},
    {"long logarithm tables", 4, long_tables},
    {"Horner's rule", 1, horner},
    {"Horner's rule", 2, horner},
    {"Horner's rule", 4, horner},
#ifdef WITH_GF_COMPLETE
    {"gf-complete region", 0, region},
#endif
#ifdef WITH_XXHASH
    {"XXH3", 0, xxh3},
#endif
#ifdef WITH_ZLIB
    {"zlib crc32", 0, crc},
#endif
#ifdef WITH_OPENSSL
    {"OpenSSL SHA-1", 0, sha1},
    {"OpenSSL SHA-1, old calls", 0, old_sha1},
#endif
    {"memcpy", 0, copy},
    {"exclusive or", 0, exclusive_or},
};
const size_t candidate_count = COUNT(candidates);

void peers_prepare(void)
{
    tables_prepare();
#ifdef WITH_GF_COMPLETE
    need(gf_init_easy(&field, 16) == 1, "gf_init_easy");
#endif
#ifdef WITH_OPENSSL
    sha1_kind = EVP_MD_fetch(NULL, "SHA1", NULL);
    sha1_context = EVP_MD_CTX_new();
    need(sha1_kind != NULL && sha1_context != NULL, "EVP_MD_fetch");
#endif
}
