/* Prints ten million lines of two numbers with fprintf to a buffered stream. */
#include <stdint.h>
#include <stdio.h>

int main(void) {
    static char buffer[65536];
    setvbuf(stdout, buffer, _IOFBF, sizeof buffer);
    uint32_t seed = 12345;
    for (uint32_t line = 0; line < 10000000; line++) {
        seed = seed * 1664525u + 1013904223u;
        int first = (int)(seed / 2) - 1073741824;
        int second = (int)(seed / 4096);
        if (fprintf(stdout, "%d,%d\n", first, second) < 0) return 1;
    }
    return fflush(stdout) ? 1 : 0;
}
