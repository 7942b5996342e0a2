/* Riceshoal: image exporters whose every function is proved to meet its contract.
 *
 * An image is `image_len` bytes and a length in bits. Bit 0 is the top bit of byte 0, and every bit
 * at or past `bits` reads as zero. A call returns 0 and stores the length of the text in `*value`;
 * the text stands at the front of `out`, no zero byte is added, and the other bytes of `out`
 * are as they were. Or it returns the number of a refusal, stores the value that goes with it in
 * `*value`, and leaves `out` as it was:
 *
 *   1  bits is above 16777216 or above 8 times image_len               value 0
 *   2  an option is outside its range                                  value 0
 *   3  more than 4096 spans, or arrays of spans that differ in length  value 4096
 *      else: a present offset plus its size is above 16777216          value: the first one's place
 *   4  bits is 0 (format_c_array and format_mif alone)                 value 0
 *   5  a record's address is above 65535 (format_intelhex alone)       value 0
 *   6  a text is above 1048576 bytes or not ASCII (format_annotated)   value 0
 *   7  a span that is shown has no place in its text, or no offset
 *      but a size (format_annotated)                                   value: the first one's place
 *   8  the text is longer than the output buffer                       value: the length needed
 *
 * To learn the length of a text before there is a buffer for it, call with an out_len of 0: where
 * none of 1 to 7 applies, the length is stored, with 8, or with 0 where the text is empty.
 *
 * A string is bytes and their number, at most 256, and is copied as it is; it need not end with a
 * zero byte. A longer one is refusal 2.
 *
 * Spans are arrays of one length, at most 4096: span k is sizes[k] bits from bit offsets[k] on,
 * and places are counted from 0. An offset of 4294967295 is absent. A span may lie past the image's
 * end.
 *
 * The refusals are checked in this order; below, each function names those that it can return. No
 * pointer may be null, also where its length is 0, and `out`, `value` and `padded` may overlap
 * neither each other nor the image, a string, a text or the spans. Bytes past a length that is lent
 * are neither read nor written.
 */
#ifndef RICESHOAL_H
#define RICESHOAL_H

#include <stddef.h>
#include <stdint.h>

#ifdef __cplusplus
extern "C" {
#endif

/* The image's bytes, the last one filled with zeros. *padded, which is always stored, is 1 where a
 * text was written and bits is not a multiple of 8, else 0.
 * Refusals 1 and 8. */
uint32_t riceshoal_format_binary(const uint8_t *image, size_t image_len, size_t bits,
                                 uint8_t *out, size_t out_len, uint64_t *value, uint8_t *padded);

/* The image's bits as digits 0 to 9 and a to v, the last one filled with zeros.
 * bits_per_digit: 1 to 5. 1 gives the Rust's binstr, 4 its hexstr.
 * Refusals 1, 2 and 8. */
uint32_t riceshoal_format_str(const uint8_t *image, size_t image_len, size_t bits,
                              size_t bits_per_digit, uint8_t *out, size_t out_len, uint64_t *value);

/* The file that Verilog's $readmemb reads: a line for each word, in binary. A last line may have
 * fewer bits; read as a number, they are the word's low ones.
 * width: the bits of a word, 1 to 4096.
 * Refusals 1, 2 and 8. */
uint32_t riceshoal_format_readmemb(const uint8_t *image, size_t image_len, size_t bits,
                                   size_t width, uint8_t *out, size_t out_len, uint64_t *value);

/* The file that Verilog's $readmemh reads: as that of $readmemb, in hexadecimal. A line whose
 * number of bits is not a multiple of 4 starts with the short digit.
 * width: the bits of a word, 1 to 4096.
 * Refusals 1, 2 and 8. */
uint32_t riceshoal_format_readmemh(const uint8_t *image, size_t image_len, size_t bits,
                                   size_t width, uint8_t *out, size_t out_len, uint64_t *value);

/* The image's bytes as numbers with the separator between two of them, and a newline after the
 * separator behind each 16th. The last byte is filled with zeros.
 * radix: 10, or 16 for 0x and two digits.
 * Refusals 1, 2 and 8. */
uint32_t riceshoal_format_separator(const uint8_t *image, size_t image_len, size_t bits,
                                    size_t radix, const uint8_t *separator, size_t separator_len,
                                    uint8_t *out, size_t out_len, uint64_t *value);

/* A definition in C, `const unsigned char data[] = {` to `};`, of the image's bytes: 16 on a line,
 * with the address in a comment before each line. The last byte is filled with zeros.
 * radix: 10 or 16, as for the separator list.
 * Refusals 1, 2, 4 and 8. */
uint32_t riceshoal_format_c_array(const uint8_t *image, size_t image_len, size_t bits,
                                  size_t radix, uint8_t *out, size_t out_len, uint64_t *value);

/* The image's bits as digits in groups, the last group filled with zeros; `before` and `after`
 * stand around them. Between two groups stands `between`, or `between2` after every
 * groups_per_group2 groups. An empty `between2` is never used.
 * base: 2, 4, 8, 16 or 32. digits_per_group: 1 to 64. groups_per_group2: 1 to 65535, or 0 too where
 * `between2` is empty.
 * Refusals 1, 2 and 8. */
uint32_t riceshoal_format_list(const uint8_t *image, size_t image_len, size_t bits,
                               size_t base, size_t digits_per_group, size_t groups_per_group2,
                               const uint8_t *before, size_t before_len,
                               const uint8_t *after, size_t after_len,
                               const uint8_t *between, size_t between_len,
                               const uint8_t *between2, size_t between2_len,
                               uint8_t *out, size_t out_len, uint64_t *value);

/* A memory initialization file of width 8: the image's bytes, each on a line with its address, both
 * in hexadecimal. The last byte is filled with zeros.
 * Refusals 1, 4 and 8. */
uint32_t riceshoal_format_mif(const uint8_t *image, size_t image_len, size_t bits,
                              uint8_t *out, size_t out_len, uint64_t *value);

/* An image file of Logisim, v2.0 raw: the image's chunks in hexadecimal, each with a space behind
 * it, and a newline where (bits so far / 8) mod 16 is 0. A last chunk may have fewer bits; read as
 * a number, they are the low ones.
 * bits_per_chunk: 1 to 4096.
 * Refusals 1, 2 and 8. */
uint32_t riceshoal_format_logisim(const uint8_t *image, size_t image_len, size_t bits,
                                  size_t bits_per_chunk,
                                  uint8_t *out, size_t out_len, uint64_t *value);

/* A dump: lines with the address, the digits and the characters of some bytes. There are as many
 * lines as the image's whole bytes need, but at least one, so that bits of a last part of a byte
 * that would start the next line are not shown.
 * digit_bits: 1 or 4. byte_bits: 8. bytes_per_line: 1 to 64. 1, 8, 8 gives the Rust's bindump and
 * 4, 8, 16 its hexdump.
 * Refusals 1, 2 and 8. */
uint32_t riceshoal_format_dump(const uint8_t *image, size_t image_len, size_t bits,
                               size_t digit_bits, size_t byte_bits, size_t bytes_per_line,
                               uint8_t *out, size_t out_len, uint64_t *value);

/* Intel HEX: data records of at most 32 bytes, each with a newline behind it, and the end record
 * without one. Spans are taken by offset, equal offsets as lent, absent ones skipped. A span that
 * starts where the block before it ends joins that block, any other one opens the next; blocks of
 * size 0 are dropped. Each block is cut into bytes from its own start; a last one that is not whole
 * takes the bits behind it. An address is a bit offset divided by address_unit, rounded down.
 * address_unit: 1 to 64.
 * Refusals 1, 2, 3, 5 and 8. */
uint32_t riceshoal_format_intelhex(const uint8_t *image, size_t image_len, size_t bits,
                                   const uint32_t *offsets, size_t offsets_len,
                                   const uint32_t *sizes, size_t sizes_len, size_t address_unit,
                                   uint8_t *out, size_t out_len, uint64_t *value);

/* An annotated listing: for each span its offset in bytes and bits, its address addrs[k], its bits
 * as digits in groups, and the bytes starts[k] to ends[k] - 1 of its text, the firmware's where
 * files[k] is 0 and the protocol's where it is 1. A start of 18446744073709551615 is no location. A
 * digit with a bit past the image's end is a point. Spans are taken by offset, absent ones first,
 * equal ones as lent. The texts are ASCII of at most 1048576 bytes each.
 * base: 2, 4, 8, 16 or 32. addr_base, that of the offsets and addresses: 2 to 36. digits_per_group:
 * 1 to 64. display_labels: 0 or 1; with 0 spans of size 0 are hidden, but those with an offset
 * still count for the columns' widths.
 * Refusals 1, 2, 3, 6, 7 and 8: 7 for a span that is shown and has a file above 1, no location, a
 * start after its end, an end past its text, or an absent offset and a size that is not 0. */
uint32_t riceshoal_format_annotated(const uint8_t *image, size_t image_len, size_t bits,
                                    const uint32_t *offsets, size_t offsets_len,
                                    const uint32_t *sizes, size_t sizes_len,
                                    const uint64_t *addrs, size_t addrs_len,
                                    const uint8_t *files, size_t files_len,
                                    const uint64_t *starts, size_t starts_len,
                                    const uint64_t *ends, size_t ends_len,
                                    const uint8_t *firmware, size_t firmware_len,
                                    const uint8_t *protocol, size_t protocol_len,
                                    size_t base, size_t addr_base, size_t digits_per_group,
                                    uint8_t display_labels,
                                    uint8_t *out, size_t out_len, uint64_t *value);

#ifdef __cplusplus
}
#endif

#endif
