/* Scans the text by sscanf as `%d,%d`, so many times, and prints the sum of the numbers, as `sf_timed sscan TEXT COUNT` does. */
#include <stdio.h>
#include <stdlib.h>

int main(int argc, char **argv) {
    int left, right;
    long sum = 0, count;
    if (argc < 3) return 2;
    for (count = atol(argv[2]); count > 0; count--)
        if (sscanf(argv[1], "%d,%d", &left, &right) == 2) sum += left + right;
    printf("%ld\n", sum);
    return 0;
}
