/* The limit: Intel HEX as a plain loop writes it, with no check and no span. The benchmark measures
 * the library beside it. */
#include <stddef.h>
#include <stdint.h>
#include <string.h>

/* The bytes of a record. */
#define RECORD 32

/* The digit pairs of 0 to 255. */
static const char PAIRS[512 + 1] =
    "000102030405060708090A0B0C0D0E0F101112131415161718191A1B1C1D1E1F"
    "202122232425262728292A2B2C2D2E2F303132333435363738393A3B3C3D3E3F"
    "404142434445464748494A4B4C4D4E4F505152535455565758595A5B5C5D5E5F"
    "606162636465666768696A6B6C6D6E6F707172737475767778797A7B7C7D7E7F"
    "808182838485868788898A8B8C8D8E8F909192939495969798999A9B9C9D9E9F"
    "A0A1A2A3A4A5A6A7A8A9AAABACADAEAFB0B1B2B3B4B5B6B7B8B9BABBBCBDBEBF"
    "C0C1C2C3C4C5C6C7C8C9CACBCCCDCECFD0D1D2D3D4D5D6D7D8D9DADBDCDDDEDF"
    "E0E1E2E3E4E5E6E7E8E9EAEBECEDEEEFF0F1F2F3F4F5F6F7F8F9FAFBFCFDFEFF";

static uint8_t *pair(uint8_t *out, uint8_t byte) {
    memcpy(out, PAIRS + 2 * byte, 2);
    return out + 2;
}

/* One data record and its newline. */
static uint8_t *record(uint8_t *out, const uint8_t *bytes, size_t len, size_t address) {
    uint8_t high = (uint8_t)(address >> 8), low = (uint8_t)address;
    uint8_t sum = (uint8_t)(len + high + low);
    *out++ = ':';
    out = pair(out, (uint8_t)len);
    out = pair(out, high);
    out = pair(out, low);
    out = pair(out, 0);
    for (size_t i = 0; i < len; i++) {
        out = pair(out, bytes[i]);
        sum = (uint8_t)(sum + bytes[i]);
    }
    out = pair(out, (uint8_t)-sum);
    *out++ = '\n';
    return out;
}

/* Writes the records of at most 65,536 bytes from address 0 on and the end record. `out` must have
 * room for them. Returns their length. */
size_t limit_intelhex(const uint8_t *image, size_t len, uint8_t *out) {
    static const char END[] = ":00000001FF";
    uint8_t *at = out;
    for (size_t i = 0; i < len; i += RECORD)
        at = record(at, image + i, len - i < RECORD ? len - i : RECORD, i);
    memcpy(at, END, sizeof END - 1);
    return (size_t)(at + sizeof END - 1 - out);
}
