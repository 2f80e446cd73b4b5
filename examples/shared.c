/* A program that carries data for both machines: a table of squares, of which the linked file holds one copy.

   Programs share what a load of each has in the same bytes and the same length. So the data are in a section of their own, which
   the linker puts into a load of its own where its address is far from all others', as by

   gcc -static -o PROGRAM shared.c start.S -Wl,-e,ape_start -Wl,--section-start=shared=0x10000000

   The address is a multiple of 16384, so there is nothing before the data in the first granule of either machine, and so is the
   size, so that neither machine's last granule is longer than the other's. The bytes have to be the same for both: numbers of a
   fixed size, no addresses, and zeros where a structure has room. */
#include <stdint.h>
#include <stdio.h>
#include <stdlib.h>

#define GRANULE 16384 /* of AArch64; that of x86-64 is 4096 */
#define COUNT 49664   /* of 4 bytes: twelve granules and an eighth */

#define SQUARE(n) (uint32_t)(n) * (n)
#define R1(n) SQUARE(n), SQUARE(n + 1), SQUARE(n + 2), SQUARE(n + 3)
#define R2(n) R1(n), R1(n + 4), R1(n + 8), R1(n + 12)
#define R3(n) R2(n), R2(n + 16), R2(n + 32), R2(n + 48)
#define R4(n) R3(n), R3(n + 64), R3(n + 128), R3(n + 192)
#define R5(n) R4(n), R4(n + 256), R4(n + 512), R4(n + 768)
#define R6(n) R5(n), R5(n + 1024), R5(n + 2048), R5(n + 3072)
#define R7(n) R6(n), R6(n + 4096), R6(n + 8192), R6(n + 12288)

/* The type is aligned, so its size is rounded up: the squares have zeros behind them up to thirteen granules, 212992 bytes. */
struct squares {
    uint32_t of[COUNT];
} __attribute__((aligned(GRANULE)));

__attribute__((section("shared"))) static const struct squares squares = {
    {R7(0), R7(16384), R7(32768), R4(49152), R4(49408)}};

int main(int count, char **arguments)
{
    for (int i = 1; i < count; i++) {
        unsigned long n = strtoul(arguments[i], NULL, 10);
        printf("%lu %lu\n", n, n < COUNT ? (unsigned long)squares.of[n] : 0);
    }
    return 0;
}
