/* The same numbers and work as crates/number_bench, over GMP's rationals. */
#include <gmp.h>
#include <stdint.h>
#include <stdio.h>
#include <stdlib.h>
#include <time.h>

enum { PAIRS = 1024, RUNS = 25 };

static uint64_t next(uint64_t state) {
    uint64_t a = state ^ (state << 13);
    uint64_t b = a ^ (a >> 7);
    return b ^ (b << 17);
}

static void number(mpq_t to, int kind, uint64_t n, uint64_t d) {
    mpz_t size, under;
    mpz_inits(size, under, NULL);
    mpz_set_ui(under, 1);
    if (kind == 0) mpz_set_ui(size, n % 1000000);
    if (kind == 1) mpz_set_ui(size, n % 1000000000), mpz_set_ui(under, 1000000);
    if (kind == 2) mpz_set_ui(size, n >> 14), mpz_set_ui(under, (d >> 14) + 1);
    if (kind == 3) mpz_set_ui(size, n), mpz_mul_2exp(size, size, 36), mpz_set_ui(under, d % 63 + 1);
    if (n % 3 == 0) mpz_neg(size, size);
    mpq_set_num(to, size);
    mpq_set_den(to, under);
    mpq_canonicalize(to);
    mpz_clears(size, under, NULL);
}

static void numbers(mpq_t *list, int kind, uint64_t seed) {
    uint64_t state = seed;
    for (int i = 0; i < PAIRS; i++) {
        uint64_t n = next(state), d = next(n);
        state = d;
        mpq_init(list[i]);
        number(list[i], kind, n, d);
    }
}

static double now(void) {
    struct timespec at;
    clock_gettime(CLOCK_MONOTONIC, &at);
    return at.tv_sec * 1e9 + at.tv_nsec;
}

static mpq_t xs[PAIRS], ys[PAIRS];
static volatile uint64_t kept;

static double once(int work, int turns, mpq_t to) {
    double start = now();
    uint64_t all = 0;
    for (int turn = 0; turn < turns; turn++)
        for (int i = 0; i < PAIRS; i++) {
            if (work == 0) mpq_add(to, xs[i], ys[i]);
            if (work == 1) mpq_mul(to, xs[i], ys[i]);
            if (work == 2) all = next(all ^ (mpq_cmp(xs[i], ys[i]) < 0));
            else all ^= mpz_getlimbn(mpq_numref(to), 0);
        }
    kept = all;
    return (now() - start) * 10 / ((double)turns * PAIRS);
}

/* The least time of a few runs, in tenths of nanoseconds for one. */
static double timed(int work, int turns, mpq_t to) {
    double least = once(work, turns, to);
    for (int run = 1; run < RUNS; run++) {
        double spent = once(work, turns, to);
        if (spent < least) least = spent;
    }
    return least;
}

int main(int argc, char **argv) {
    static const char *names[] = {"whole", "decimal", "middle", "long"};
    int turns = argc > 1 ? atoi(argv[1]) : 1;
    mpq_t to;
    mpq_init(to);
    for (int kind = 0; kind < 4; kind++) {
        numbers(xs, kind, 88172645463325252u);
        numbers(ys, kind, 1181783497276652981u);
        double sum = timed(0, turns, to), product = timed(1, turns, to), comparison = timed(2, turns, to);
        printf("%s %.0f %.0f %.0f\n", names[kind], sum, product, comparison);
    }
    return 0;
}
