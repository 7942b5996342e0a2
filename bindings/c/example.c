/* Exports a file as text and prints it:
 *
 *   example [FILE [FORMAT]]
 *
 * FORMAT is hex, which is Intel HEX, c_array or mif; where it is not given, hex. Without FILE it
 * exports three bytes of its own. A refusal is printed to stderr with its number and its words, and
 * the program returns 1. To build it, from the root of the repository:
 *
 *   cc -I include bindings/c/example.c crates/capi/out/libcapi.a -o example
 */
#include <stdio.h>
#include <stdlib.h>
#include <string.h>

#include "riceshoal.h"

/* One byte more than an image may have, so that the library sees one that is too long. */
#define ROOM (16777216 / 8 + 1)

static const uint8_t BUILT_IN[3] = {0x12, 0x34, 0x56};

/* What a refusal says, by its number. 2, 3, 6 and 7 are not returned for a file as it is exported
 * here. */
static const char *const REFUSALS[9] = {
    "",
    "the image is longer than 2097152 bytes",
    "an option is outside its range",
    "the spans are too many, or one ends too late",
    "the image is empty",
    "an address is above 65535",
    "a source text is too long or not ASCII",
    "a span has no place in its source text",
    "the text is longer than the output buffer",
};

/* An export of all bytes of an image. */
typedef uint32_t exporter(const uint8_t *image, size_t len, uint8_t *out, size_t out_len,
                          uint64_t *value);

/* One span that holds the image, and addresses in bytes. */
static uint32_t hex(const uint8_t *image, size_t len, uint8_t *out, size_t out_len,
                    uint64_t *value)
{
    const uint32_t offsets[1] = {0};
    const uint32_t sizes[1] = {(uint32_t)(8 * len)};
    return riceshoal_format_intelhex(image, len, 8 * len, offsets, 1, sizes, 1, 8, out, out_len,
                                     value);
}

static uint32_t c_array(const uint8_t *image, size_t len, uint8_t *out, size_t out_len,
                        uint64_t *value)
{
    return riceshoal_format_c_array(image, len, 8 * len, 16, out, out_len, value);
}

static uint32_t mif(const uint8_t *image, size_t len, uint8_t *out, size_t out_len,
                    uint64_t *value)
{
    return riceshoal_format_mif(image, len, 8 * len, out, out_len, value);
}

/* The export of that name; NULL where there is none. */
static exporter *find(const char *name)
{
    if (strcmp(name, "hex") == 0)
        return hex;
    if (strcmp(name, "c_array") == 0)
        return c_array;
    if (strcmp(name, "mif") == 0)
        return mif;
    return NULL;
}

static int failed(const char *what, const char *why)
{
    fprintf(stderr, "example: %s: %s\n", what, why);
    return 2;
}

static int refused(uint32_t number)
{
    fprintf(stderr, "refused %u: %s\n", (unsigned)number, REFUSALS[number]);
    return 1;
}

/* Prints the text and a newline. Returns what the program returns. */
static int print(exporter *export_image, const uint8_t *image, size_t len)
{
    /* No room: 8 with the length of the text, which is never empty here, or another refusal. */
    uint8_t none;
    uint64_t value;
    uint32_t number = export_image(image, len, &none, 0, &value);
    if (number != 8)
        return refused(number);
    size_t room = (size_t)value;
    uint8_t *out = (uint8_t *)malloc(room);
    if (out == NULL)
        return failed("text", "no memory");
    number = export_image(image, len, out, room, &value);
    int result = number == 0 ? 0 : refused(number);
    if (number == 0 && (fwrite(out, 1, (size_t)value, stdout) != value || putchar('\n') == EOF))
        result = failed("text", "cannot be written");
    free(out);
    return result;
}

static int print_file(exporter *export_image, const char *path)
{
    FILE *file = fopen(path, "rb");
    if (file == NULL)
        return failed(path, "cannot be opened");
    uint8_t *image = (uint8_t *)malloc(ROOM);
    if (image == NULL)
        return failed(path, "no memory");
    size_t len = fread(image, 1, ROOM, file);
    int bad = ferror(file);
    fclose(file);
    int result = bad ? failed(path, "cannot be read") : print(export_image, image, len);
    free(image);
    return result;
}

int main(int argc, char **argv)
{
    exporter *export_image = argc > 2 ? find(argv[2]) : hex;
    if (argc > 3 || export_image == NULL)
        return failed("usage", "example [FILE [hex | c_array | mif]]");
    if (argc > 1)
        return print_file(export_image, argv[1]);
    return print(export_image, BUILT_IN, sizeof BUILT_IN);
}
