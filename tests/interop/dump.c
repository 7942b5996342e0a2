/* Writes the bytes of the array that the file TEXT declares to standard output. The array's name
 * and type are those of the text. */
#include <stdio.h>

#include TEXT

_Static_assert(_Generic(&data[0], const unsigned char *: 1, default: 0), "the type of a byte");

int main(void)
{
    return fwrite(data, 1, sizeof data, stdout) != sizeof data;
}
