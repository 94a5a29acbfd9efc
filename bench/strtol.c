/* Reads the text by strtol as two numbers with a comma between them, as one does by hand, so many times, and prints the sum of the
   numbers, as `sf_timed sscan TEXT COUNT` does. A number that an int can't hold doesn't match. */
#include <errno.h>
#include <limits.h>
#include <stdio.h>
#include <stdlib.h>

static int number(const char *text, char **end, int *n) {
    long value;
    errno = 0;
    value = strtol(text, end, 10);
    if (*end == text || errno || value < INT_MIN || value > INT_MAX) return 0;
    *n = (int)value;
    return 1;
}

int main(int argc, char **argv) {
    int left, right;
    long sum = 0, count;
    char *end;
    if (argc < 3) return 2;
    for (count = atol(argv[2]); count > 0; count--)
        if (number(argv[1], &end, &left) && *end == ',' && number(end + 1, &end, &right)) sum += (long)left + right;
    printf("%ld\n", sum);
    return 0;
}
