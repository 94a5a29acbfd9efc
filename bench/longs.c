/* What bench/run-long times beside `sf scan %s`. Without a word: scans words and prints them between quotes, with scanf and
   printf. With one: reads and writes standard input in blocks as `sf` does, and looks at none of it. */
#include <stdio.h>
#include <unistd.h>

static char text[1 << 20], block[16384];

static int copied(void) {
    ssize_t got;
    while ((got = read(0, block, sizeof block)) > 0) {
        if (write(1, block, (size_t)got) != got) return 1;
    }
    return got < 0;
}

int main(int count, char **words) {
    (void)words;
    if (count > 1) return copied();
    while (scanf("%1048575s", text) == 1) printf("\"%s\"\n", text);
    return ferror(stdin) || fflush(stdout);
}
