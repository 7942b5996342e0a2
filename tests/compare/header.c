/* Calls each function as include/riceshoal.h declares it and checks the answer, so that the header
 * cannot say something else than the library does. Prints what was wrong and returns 1, or 0. */
#include <stdio.h>
#include <string.h>

#include "riceshoal.h"

/* A string and its length, and the output buffer with what stands after it. */
#define STRING(text) (const uint8_t *)(text), strlen(text)
#define OUT out, sizeof out, &value

/* The bits 10110 in a byte whose spare bits are set, and a byte more. */
static const uint8_t image[2] = {0xb7, 0xff};
/* The images of document 01's table. */
static const uint8_t bytes[2] = {0x12, 0x0f};
static const uint8_t digits[2] = {0xab, 0xcf};
/* One span for HEX. */
static const uint32_t offsets[1] = {0};
static const uint32_t sizes[1] = {12};
/* Two spans for the listing: one whose last digit is past the image, and a label without offset. */
static const uint32_t places[2] = {4, 4294967295};
static const uint32_t lengths[2] = {12, 0};
static const uint64_t addrs[2] = {18446744073709551615u, 7};
static const uint8_t files[2] = {1, 0};
static const uint64_t starts[2] = {1, 0};
static const uint64_t ends[2] = {4, 3};
static uint8_t out[192];
static uint64_t value;
static uint8_t padded;
static int wrong;

static void expect(const char *name, uint32_t number, const char *text)
{
    size_t length = strlen(text);
    if (number != 0 || value != length || memcmp(out, text, length) != 0) {
        printf("header: %s returned %u with %llu\n", name, (unsigned)number,
               (unsigned long long)value);
        wrong = 1;
    }
}

int main(void)
{
    expect("riceshoal_format_binary", riceshoal_format_binary(image, 2, 5, OUT, &padded), "\xb0");
    if (padded != 1) {
        printf("header: riceshoal_format_binary stored %d in padded\n", padded);
        wrong = 1;
    }
    expect("riceshoal_format_str", riceshoal_format_str(image, 2, 5, 4, OUT), "b0");
    expect("riceshoal_format_readmemb", riceshoal_format_readmemb(image, 2, 5, 3, OUT),
           "101\n10\n");
    expect("riceshoal_format_readmemh", riceshoal_format_readmemh(image, 2, 5, 5, OUT), "16\n");
    expect("riceshoal_format_separator",
           riceshoal_format_separator(bytes, 2, 16, 10, STRING(" + "), OUT), "18 + 15");
    expect("riceshoal_format_c_array", riceshoal_format_c_array(bytes, 2, 16, 16, OUT),
           "const unsigned char data[] = {\n\t/* 0x0 */ 0x12, 0x0f\n};");
    expect("riceshoal_format_list",
           riceshoal_format_list(digits, 2, 12, 16, 2, 0, STRING("["), STRING("]"), STRING(","),
                                 STRING(""), OUT),
           "[ab,c0]");
    expect("riceshoal_format_list",
           riceshoal_format_list(image, 2, 5, 2, 1, 3, STRING("<"), STRING(">"), STRING(","),
                                 STRING(";\n"), OUT),
           "<1,0,1;\n1,0>");
    expect("riceshoal_format_mif", riceshoal_format_mif(bytes, 2, 8, OUT),
           "DEPTH = 1;\nWIDTH = 8;\nADDRESS_RADIX = HEX;\nDATA_RADIX = HEX;\n\n"
           "CONTENT\nBEGIN\n 0: 12;\nEND;");
    expect("riceshoal_format_logisim", riceshoal_format_logisim(bytes, 2, 8, 4, OUT),
           "v2.0 raw\n1 \n2 ");
    expect("riceshoal_format_dump", riceshoal_format_dump(bytes, 2, 0, 4, 8, 16, OUT),
           " 0 | .. .. .. ..  .. .. .. ..  .. .. .. ..  .. .. .. .. | ................ |\n");
    expect("riceshoal_format_intelhex",
           riceshoal_format_intelhex(digits, 2, 12, offsets, 1, sizes, 1, 8, OUT),
           ":02000000ABC093\n:00000001FF");
    expect("riceshoal_format_annotated",
           riceshoal_format_annotated(bytes, 2, 12, places, 2, lengths, 2, addrs, 2, files, 2,
                                      starts, 2, ends, 2, STRING("a:\n"), STRING("\tnop\n"), 16,
                                      10, 2, 1, OUT),
           " outp |       addr (base 10) | data (base 16)\n\n"
           " --:- |                    7 |     ; a:\n\n"
           "  0:4 | 18446744073709551615 | 20 . ; nop\n");
    return wrong;
}
