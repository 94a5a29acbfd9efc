/* Copies the records of standard input with fscanf and fprintf, as `sf copy '%d,%s\n' '%11d,%20s%*1[\n]'` does. */
#include <stdio.h>

int main(void) {
    char text[21];
    int number;
    while (fscanf(stdin, "%11d,%20s%*1[\n]", &number, text) == 2) fprintf(stdout, "%d,%s\n", number, text);
    return ferror(stdin) || fflush(stdout);
}
