// The same classes of bytes by the C library: strtoul on numbers of 18 digits, isspace, and a table of members.
#include <ctype.h>
#include <stdio.h>
#include <stdlib.h>
#include <string.h>

enum { BLOCK = 65536 };

int main(int argc, char **argv)
{
    static char block[BLOCK + 1];
    static unsigned char member[256];
    unsigned long sum = 0;
    if (argc != 3) return 2;
    long blocks = atol(argv[2]) * 16;
    memset(block, strcmp(argv[1], "digits") ? 'q' : '7', BLOCK);
    for (int c = 'a'; c <= 'z'; c++) member[c] = 1;
    if (!strcmp(argv[1], "digits"))
        for (int i = 18; i < BLOCK; i += 19) block[i] = ' ';
    for (long n = 0; n < blocks; n++) {
        volatile char *v = block;
        if (!strcmp(argv[1], "digits")) {
            char *at = block, *end;
            while (at < block + BLOCK - 19) { sum += strtoul(at, &end, 10); at = end; }
        } else if (!strcmp(argv[1], "text")) {
            for (int i = 0; i < BLOCK; i++) sum += !isspace((unsigned char)v[i]);
        } else {
            for (int i = 0; i < BLOCK; i++) sum += member[(unsigned char)v[i]];
        }
    }
    printf("%lu\n", sum);
    return 0;
}
