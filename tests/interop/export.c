/* Exports one image. The arguments are a format and the option that it has, if any:
 *
 *   intelhex | mif | readmemb WIDTH | readmemh WIDTH | c_array RADIX | logisim BITS_PER_CHUNK
 *
 * Standard input is a job as document 01 lays it out for the bench program: five 32-bit numbers,
 * the low byte first (bit length, place of the image, number of spans, place of their table,
 * address unit), and what they point to. A row of the table is an offset and a size. Only Intel HEX
 * takes the spans and the unit. Prints the text and nothing more, or what was wrong to stderr and
 * returns 1. */
#include <stdio.h>
#include <stdlib.h>
#include <string.h>

#include "riceshoal.h"

#define SPANS 4096

/* A format with one option. */
typedef uint32_t format_with_option(const uint8_t *image, size_t image_len, size_t bits,
                                    size_t option, uint8_t *out, size_t out_len, uint64_t *value);

static const struct {
    const char *name;
    format_with_option *function;
} FORMATS[] = {
    {"readmemb", riceshoal_format_readmemb},
    {"readmemh", riceshoal_format_readmemh},
    {"c_array", riceshoal_format_c_array},
    {"logisim", riceshoal_format_logisim},
};

static uint8_t job[1 << 20];
static uint32_t offsets[SPANS];
static uint32_t sizes[SPANS];
static size_t bits, image, count, unit;
static const char *format;
static size_t option;

static uint32_t number(size_t at)
{
    return job[at] | job[at + 1] << 8 | job[at + 2] << 16 | (uint32_t)job[at + 3] << 24;
}

static int failed(const char *why, unsigned long long number)
{
    fprintf(stderr, "%s %llu\n", why, number);
    return 1;
}

/* Reads the job; 0 where that went well. */
static int read_job(void)
{
    size_t len = fread(job, 1, sizeof job, stdin);
    if (len < 20 || len == sizeof job)
        return failed("a job of bytes:", len);
    size_t table = number(12);
    bits = number(0), image = number(4), count = number(8), unit = number(16);
    if (count > SPANS || image + (bits + 7) / 8 > len || table + 8 * count > len)
        return failed("a job that does not fit, with spans:", count);
    for (size_t i = 0; i < count; i++) {
        offsets[i] = number(table + 8 * i);
        sizes[i] = number(table + 8 * i + 4);
    }
    return 0;
}

/* The call of the library; 0xffffffff for a format that there is not. */
static uint32_t export(uint8_t *out, size_t room, uint64_t *value)
{
    const uint8_t *bytes = job + image;
    size_t len = (bits + 7) / 8;
    if (strcmp(format, "intelhex") == 0)
        return riceshoal_format_intelhex(bytes, len, bits, offsets, count, sizes, count, unit, out,
                                         room, value);
    if (strcmp(format, "mif") == 0)
        return riceshoal_format_mif(bytes, len, bits, out, room, value);
    for (size_t i = 0; i < sizeof FORMATS / sizeof FORMATS[0]; i++)
        if (strcmp(format, FORMATS[i].name) == 0)
            return FORMATS[i].function(bytes, len, bits, option, out, room, value);
    return 0xffffffff;
}

int main(int argc, char **argv)
{
    if (argc < 2 || argc > 3)
        return failed("arguments:", argc - 1);
    format = argv[1];
    option = argc == 3 ? strtoul(argv[2], NULL, 10) : 0;
    if (read_job() != 0)
        return 1;

    /* The length first, in a room of none, where only an empty text fits; then the text. */
    uint8_t none;
    uint64_t room, value;
    uint32_t answer = export(&none, 0, &room);
    if (answer != (room == 0 ? 0 : 8))
        return failed("answer with no room:", answer);
    uint8_t *out = malloc(room + 1);
    if (out == NULL)
        return failed("no memory for a text of bytes:", room);
    answer = export(out, room, &value);
    if (answer != 0 || value != room)
        return failed("answer:", answer);
    return fwrite(out, 1, room, stdout) != room;
}
