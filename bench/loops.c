/* Plain loops over 2^20 numbers, of 64 bits or of 32, to compare the program's statements with: `loops NAME` prints nanoseconds an
   element, and `loops run PROGRAM` how many nanoseconds a program takes, which reads its script on standard input. Both are of
   the processor's time, which other work on the machine lengthens less than that on the wall. Built by bench/elements and bench/reductions. */
#include <stdint.h>
#include <stdio.h>
#include <stdlib.h>
#include <string.h>
#include <sys/resource.h>
#include <sys/wait.h>
#include <time.h>
#include <unistd.h>

enum { COUNT = 1 << 20, ROUNDS = 40 };

enum { SIDE = 1024, SMALL = 256 };

static int64_t x[COUNT], y[COUNT], z[COUNT];
static volatile int64_t kept;

static void add(void) { for (int i = 0; i < COUNT; i++) z[i] = (int32_t)(x[i] + y[i]); }
static void times(void) { for (int i = 0; i < COUNT; i++) z[i] = (int32_t)(x[i] * y[i]); }
static void copy(void) { memcpy(z, x, sizeof z); }
static void broadcast(void) { for (int j = 0; j < SIDE; j++) for (int i = 0; i < SIDE; i++) z[SIDE * j + i] = (int32_t)(x[SIDE * j + i] + y[i]); }
static void fill(void) { for (int i = 0; i < COUNT; i++) x[i] = 7; }
static void add_one(void) { for (int i = 0; i < COUNT; i++) x[i] = (int32_t)(x[i] + 1); }
static void times_three(void) { for (int i = 0; i < COUNT; i++) x[i] = (int32_t)(x[i] * 3); }
static void assign(void) { for (int i = 0; i < COUNT; i++) x[i] = (int32_t)y[i]; }
static void add_stride(void) { for (int i = 0; i < COUNT; i += 2) x[i] = (int32_t)(x[i] + 1); }
static void compound(void) { for (int i = 0; i < COUNT; i++) z[i] = (int32_t)((int32_t)(x[i] * 3) - y[i]) >> 1; }
static void greater(void) { for (int i = 0; i < COUNT; i++) z[i] = x[i] > y[i]; }
static void every_second(void) { for (int i = 0; i < COUNT / 2; i++) z[i] = x[2 * i]; }

/* Sums, extremes, prefixes and products of numbers of 32 bits; the planes are SIDE by SIDE, the matrices SMALL by SMALL. */
static int32_t n[COUNT], m[COUNT];
static void sum(void) { int64_t s = 0; for (int i = 0; i < COUNT; i++) s += n[i]; kept = (int32_t)s; }
static void rows(void) {
    for (int j = 0; j < SIDE; j++) { int64_t s = 0; for (int i = 0; i < SIDE; i++) s += n[SIDE * j + i]; z[j] = (int32_t)s; }
}
static void columns(void) {
    memset(z, 0, SIDE * sizeof *z);
    for (int j = 0; j < SIDE; j++) for (int i = 0; i < SIDE; i++) z[i] += n[SIDE * j + i];
    for (int i = 0; i < SIDE; i++) z[i] = (int32_t)z[i];
}
static void maximum_ind(void) { int best = 0; for (int i = 1; i < COUNT; i++) if (n[i] > n[best]) best = i; kept = best; }
static void cumusumover(void) { int64_t s = 0; for (int i = 0; i < COUNT; i++) { s += n[i]; z[i] = (int32_t)s; } }
static void inner(void) {
    for (int j = 0; j < SIDE; j++) { int64_t s = 0; for (int i = 0; i < SIDE; i++) s += (int64_t)n[SIDE * j + i] * m[i]; z[j] = (int32_t)s; }
}
static void outer(void) { for (int j = 0; j < SIDE; j++) for (int i = 0; i < SIDE; i++) z[SIDE * j + i] = (int32_t)((int64_t)n[i] * m[j]); }
static void matmult(void) {
    memset(z, 0, SMALL * SMALL * sizeof *z);
    for (int h = 0; h < SMALL; h++) for (int t = 0; t < SMALL; t++) for (int w = 0; w < SMALL; w++)
        z[SMALL * h + w] += (int64_t)n[SMALL * h + t] * m[SMALL * t + w];
    for (int i = 0; i < SMALL * SMALL; i++) z[i] = (int32_t)z[i];
}

/* Prints what a program takes, and answers its exit status. */
static int run(const char *program) {
    pid_t child = fork();
    if (child == 0) {
        if (freopen("/dev/null", "w", stdout)) execl(program, program, (char *)0);
        _exit(127);
    }
    int status = 127;
    struct rusage used;
    if (child < 0 || wait4(child, &status, 0, &used) < 0) return 127;
    long long seconds = used.ru_utime.tv_sec + used.ru_stime.tv_sec, micros = used.ru_utime.tv_usec + used.ru_stime.tv_usec;
    printf("%lld\n", (seconds * 1000000 + micros) * 1000);
    return WIFEXITED(status) ? WEXITSTATUS(status) : 127;
}

int main(int argc, char **argv) {
    if (argc == 3 && !strcmp(argv[1], "run")) return run(argv[2]);
    struct { const char *name; void (*run)(void); int count; } loops[] = {
        {"add", add, COUNT}, {"times", times, COUNT}, {"copy", copy, COUNT}, {"broadcast", broadcast, COUNT}, {"fill", fill, COUNT},
        {"add_one", add_one, COUNT}, {"times_three", times_three, COUNT},
        {"assign", assign, COUNT}, {"add_stride", add_stride, COUNT / 2}, {"compound", compound, COUNT},
        {"greater", greater, COUNT}, {"every_second", every_second, COUNT / 2},
        {"sum", sum, COUNT}, {"sumover", sum, COUNT}, {"sumover_rows", rows, COUNT}, {"sumover_turned", columns, COUNT},
        {"maximum_ind", maximum_ind, COUNT}, {"cumusumover", cumusumover, COUNT},
        {"inner", inner, COUNT}, {"outer", outer, COUNT}, {"matmult", matmult, SMALL * SMALL * SMALL},
    };
    for (int i = 0; i < COUNT; i++) x[i] = y[i] = n[i] = m[i] = i;
    for (unsigned k = 0; k < sizeof loops / sizeof *loops; k++) {
        if (argc != 2 || strcmp(argv[1], loops[k].name)) continue;
        struct timespec from, to;
        clock_gettime(CLOCK_PROCESS_CPUTIME_ID, &from);
        for (int r = 0; r < ROUNDS; r++) loops[k].run();
        clock_gettime(CLOCK_PROCESS_CPUTIME_ID, &to);
        double time = (to.tv_sec - from.tv_sec) * 1e9 + (to.tv_nsec - from.tv_nsec);
        printf("%.2f\n", time / ROUNDS / loops[k].count);
        return z[COUNT / 3] == 42;
    }
    return 2;
}
