/* Times Arb's rigorous inverse (arb_mat_inv, 80 bits) of the matrices of standard input, whose entries are in units of 2^-40. A line has
   the size and the microseconds. */
#include <stdio.h>
#include <time.h>
#include <arb_mat.h>

static double now(void)
{
    struct timespec t;
    clock_gettime(CLOCK_MONOTONIC, &t);
    return t.tv_sec * 1e6 + t.tv_nsec / 1e3;
}

int main(void)
{
    long size, count;
    while (scanf("%ld %ld", &size, &count) == 2 && size > 0) {
        arb_mat_t a, inverse;
        arb_mat_init(a, size, size);
        arb_mat_init(inverse, size, size);
        fmpz_t value;
        fmpz_init(value);
        for (long k = 0; k < count; k++) {
            long row, col;
            char text[64];
            if (scanf("%ld %ld %63s", &row, &col, text) != 3 || fmpz_set_str(value, text, 10) != 0)
                return 1;
            arb_set_fmpz(arb_mat_entry(a, row, col), value);
            arb_mul_2exp_si(arb_mat_entry(a, row, col), arb_mat_entry(a, row, col), -40);
        }
        double start = now();
        int found = arb_mat_inv(inverse, a, 80);
        printf("%ld %.0f%s\n", size, now() - start, found ? "" : " no inverse");
        fmpz_clear(value);
        arb_mat_clear(inverse);
        arb_mat_clear(a);
    }
    flint_cleanup();
    return 0;
}
