// The same with a plain array: its count is set to 0, two numbers are written with their slot and kind, and one is looked up.
#include <stdint.h>
#include <stdio.h>
#include <stdlib.h>

enum kind { I8, I16, I32, I64, U8, U16, U32, U64 };

struct number {
    uint8_t slot;
    uint8_t kind;
    uint64_t bits;
};

static struct number numbers[32];
static size_t count;

// Nothing that is in memory is known from before here, and all of it has to be written by then.
#define BARRIER() __asm__ volatile("" ::: "memory")

int main(int argc, char **argv)
{
    uint64_t sum = 0;
    if (argc != 2) return 2;
    for (long millions = atol(argv[1]); 0 < millions; millions--) {
        for (uint64_t n = 0; n < 1000000; n++) {
            count = 0;
            numbers[count++] = (struct number){1, U64, n};
            numbers[count++] = (struct number){2, U64, ~n};
            BARRIER();
            for (size_t i = 0; i < count; i++) {
                if (numbers[i].slot == 1 + n % 2) {
                    if (numbers[i].kind == U64) sum += numbers[i].bits;
                    break;
                }
            }
        }
    }
    printf("%lu\n", sum);
    return 0;
}
