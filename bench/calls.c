/* Plain C loops beside the lines of `pdl_bench`: `calls TYPE WORD..` prints lines as that program does, over the same numbers, so
   that the last column tells whether both did the same work. Built and run by bench/calls. */
#include <inttypes.h>
#include <stdio.h>
#include <string.h>
#include <time.h>

enum { BLOCK = 512, BLOCKS = 2000, COUNT = 1 << 20, SIDE = 1024, RUNS = 9 };

/* Operators over numbers of 64 bits in the range of a type, whose results are wrapped to it. */
static int64_t a[BLOCK], b[BLOCK], into[BLOCK];

#define EACH(NAME, T, VALUE) \
    static void NAME##_##T(void) { for (int i = 0; i < BLOCK; i++) { int64_t x = a[i], y = b[i]; into[i] = (VALUE); } }

/* The rest has the divisor's sign. The least number of 64 bits by -1 doesn't come up. */
static inline int64_t rest(int64_t x, int64_t y) { int64_t r = x % y; return r != 0 && (r ^ y) < 0 ? r + y : r; }

#define OPERATORS(T) \
    EACH(add, T, (T)(x + y)) EACH(sub, T, (T)(x - y)) EACH(mul, T, (T)((uint64_t)x * (uint64_t)y)) \
    EACH(div, T, (T)(x / y)) EACH(rem, T, (T)rest(x, y)) \
    EACH(shl, T, (uint64_t)y < 8 * sizeof(T) ? (T)((uint64_t)x << y) : 0) \
    EACH(shr, T, (uint64_t)y < 8 * sizeof(T) ? x >> y : x < 0 ? -1 : 0) \
    EACH(lt, T, x < y) EACH(le, T, x <= y) EACH(gt, T, x > y) EACH(ge, T, x >= y) EACH(eq, T, x == y) EACH(ne, T, x != y) \
    EACH(and, T, x & y) EACH(or, T, x | y) EACH(xor, T, x ^ y)

/* Blocks of a window over elements of the type, which are widened to 64 bits. */
static int64_t block[BLOCK];

#define WINDOWS(T) \
    static T kept_##T[COUNT]; \
    static void in_order_##T(int first) { for (int j = 0; j < BLOCK; j++) block[j] = kept_##T[first + j]; } \
    static void stepped_##T(int first) { for (int j = 0; j < BLOCK; j++) block[j] = kept_##T[2 * (first + j)]; } \
    static void turned_##T(int first) { \
        const T *from = kept_##T + first / SIDE + SIDE * (first % SIDE); \
        for (int j = 0; j < BLOCK; j++) block[j] = from[SIDE * j]; \
    } \
    static void stretched_##T(int first) { for (int j = 0; j < BLOCK; j++) block[j] = kept_##T[first / SIDE]; } \
    static void rows_of_3_##T(int first) { \
        const T *row = kept_##T + first / 3 * 4; \
        for (int j = 0, k = first % 3; j < BLOCK; j++) { block[j] = row[k]; if (++k == 3) { k = 0; row += 4; } } \
    }

struct operation { const char *name; void (*work)(void); };
struct window { const char *name; void (*read)(int); int count; };

#define LINE(NAME, T) {#NAME, NAME##_##T}
#define TYPE(T) \
    OPERATORS(T) WINDOWS(T) \
    static const struct operation operations_##T[] = { \
        LINE(add, T), LINE(sub, T), LINE(mul, T), LINE(div, T), LINE(rem, T), LINE(shl, T), LINE(shr, T), LINE(lt, T), \
        LINE(le, T), LINE(gt, T), LINE(ge, T), LINE(eq, T), LINE(ne, T), LINE(and, T), LINE(or, T), LINE(xor, T), {0} }; \
    static const struct window windows_##T[] = { {"in_order", in_order_##T, COUNT}, {"stepped", stepped_##T, COUNT / 2}, \
        {"turned", turned_##T, COUNT}, {"stretched", stretched_##T, COUNT}, {"rows_of_3", rows_of_3_##T, COUNT / 4 * 3}, {0} }; \
    static void fill_##T(void) { \
        for (int64_t i = 0; i < COUNT; i++) kept_##T[i] = (T)(i * 7919 + 1); \
        for (int64_t i = 0; i < BLOCK; i++) { a[i] = (T)(i * 7919 + 1); b[i] = (T)(i * 2 + 1); } \
    }

TYPE(int8_t)
TYPE(uint8_t)
TYPE(int16_t)
TYPE(uint16_t)
TYPE(int32_t)
TYPE(uint32_t)
TYPE(int64_t)

static const struct type { const char *name; void (*fill)(void); const struct operation *operations; const struct window *windows; } types[] = {
    {"sbyte", fill_int8_t, operations_int8_t, windows_int8_t},
    {"byte", fill_uint8_t, operations_uint8_t, windows_uint8_t},
    {"short", fill_int16_t, operations_int16_t, windows_int16_t},
    {"ushort", fill_uint16_t, operations_uint16_t, windows_uint16_t},
    {"long", fill_int32_t, operations_int32_t, windows_int32_t},
    {"ulong", fill_uint32_t, operations_uint32_t, windows_uint32_t},
    {"longlong", fill_int64_t, operations_int64_t, windows_int64_t},
};

static uint64_t now(void) {
    struct timespec at;
    clock_gettime(CLOCK_MONOTONIC, &at);
    return (uint64_t)at.tv_sec * 1000000000 + (uint64_t)at.tv_nsec;
}

static void report(const char *name, int count, uint64_t least, uint64_t sum) {
    printf("%-28s %8d %9.2f ns  %016" PRIx64 "\n", name, count, (double)least / count, sum);
}

static void time_operation(const struct operation *operation) {
    uint64_t least = UINT64_MAX, sum = 0;
    for (int run = 0; run < RUNS; run++) {
        uint64_t start = now();
        for (int i = 0; i < BLOCKS; i++) operation->work();
        uint64_t taken = now() - start;
        least = taken < least ? taken : least;
    }
    for (int i = 0; i < BLOCK; i++) sum += (uint64_t)into[i];
    report(operation->name, BLOCK * BLOCKS, least, sum);
}

static void time_window(const struct window *window) {
    uint64_t least = UINT64_MAX, sum = 0;
    for (int run = 0; run < RUNS; run++) {
        uint64_t start = now();
        sum = 0;
        for (int i = 0; i < window->count / BLOCK; i++) { window->read(i * BLOCK); sum += (uint64_t)block[BLOCK - 1]; }
        uint64_t taken = now() - start;
        least = taken < least ? taken : least;
    }
    report(window->name, window->count, least, sum);
}

int main(int argc, char **argv) {
    const struct type *type = 0;
    for (unsigned i = 0; argc > 1 && i < sizeof types / sizeof *types; i++) if (!strcmp(argv[1], types[i].name)) type = &types[i];
    if (!type) return 2;
    type->fill();
    for (int i = 2; i < argc; i++) {
        for (const struct operation *it = type->operations; it->name; it++) if (!strcmp(argv[i], it->name)) time_operation(it);
        for (const struct window *it = type->windows; it->name; it++) if (!strcmp(argv[i], it->name)) time_window(it);
    }
    return 0;
}
