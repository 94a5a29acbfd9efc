/* What the fscanf of a C library does with formats and inputs: for tools/libcs.py.
 *
 * It reads lines of two words in hexadecimal digits, the format and the input; the second may be empty. For each it
 * writes a line: what fscanf returns, how many bytes it has consumed, and what each destination holds then, in
 * hexadecimal digits. Each byte of a destination was 0xA5 before.
 */
/* for fmemopen; by _GNU_SOURCE later versions of glibc read as C23, in which %i takes 0b */
#define _POSIX_C_SOURCE 200809L
#include <stdio.h>
#include <stdlib.h>
#include <string.h>

enum { COUNT = 8, SIZE = 64, LONGEST = 1024 };

#define TEXT_OF(name) #name
#define VALUE_OF(name) TEXT_OF(name)

static unsigned char places[COUNT][SIZE];

static int value_of(char digit)
{
    return digit <= '9' ? digit - '0' : digit - 'a' + 10;
}

static size_t bytes_of(const char *digits, size_t count, char *to)
{
    size_t length = count / 2 < LONGEST ? count / 2 : LONGEST - 1;
    for (size_t at = 0; at < length; at++)
        to[at] = (char) (value_of(digits[2 * at]) * 16 + value_of(digits[2 * at + 1]));
    to[length] = 0;
    return length;
}

static void try_one(const char *format, char *input, size_t length)
{
    FILE *from = length ? fmemopen(input, length, "r") : fopen("/dev/null", "r");
    if (!from)
        exit(3);
    memset(places, 0xA5, sizeof places);
    int got = fscanf(from, format, places[0], places[1], places[2], places[3], places[4], places[5], places[6], places[7]);
    printf("%d %ld", got, length ? ftell(from) : 0);
    for (int place = 0; place < COUNT; place++) {
        putchar(' ');
        for (int at = 0; at < SIZE; at++)
            printf("%02x", places[place][at]);
    }
    putchar('\n');
    fclose(from);
}

int main(int count, char **words)
{
    static char line[4 * LONGEST + 4], format[LONGEST], input[LONGEST];
    if (count > 1 && !strcmp(words[1], "--version")) {
#ifdef __GLIBC__
        puts("glibc " VALUE_OF(__GLIBC__) "." VALUE_OF(__GLIBC_MINOR__));
#endif
        return 0;
    }
    while (fgets(line, sizeof line, stdin)) {
        size_t first = strcspn(line, " "), second = strcspn(line + first + 1, "\n");
        bytes_of(line, first, format);
        try_one(format, input, bytes_of(line + first + 1, second, input));
    }
    return 0;
}
