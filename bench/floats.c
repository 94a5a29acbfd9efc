/* Scans records of two doubles from standard input as `%lf,%lf`, and prints each by the format that it is given, as `sf scan --print` does. */
#include <stdio.h>

int main(int argc, char **argv) {
    double left, right;
    if (argc < 2) return 2;
    while (scanf("%lf,%lf", &left, &right) == 2) {
        printf(argv[1], left, right);
        putchar('\n');
    }
    return 0;
}
