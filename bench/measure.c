/* Times calls of the engine's parts beside plain C, in this process and on this machine. It proves nothing.
 *
 * build and run: sh bench/measure.sh
 */
#include <stdbool.h>
#include <stddef.h>
#include <stdint.h>
#include <stdio.h>
#include <time.h>

/* Which of the numbers are below another one, a bit for each. A slice crosses as a pointer and a length. */
typedef void compare_below(const int64_t *values, size_t len, int64_t right, uint64_t *into, size_t words);

/* The exports of hy_measured. */
compare_below hy_compare_below;
int64_t hy_chain_rounds(uint32_t rounds);
int64_t hy_first_hits(uint32_t rounds);
int64_t hy_plain_hits(uint32_t rounds);
int64_t hy_chunk_scans(uint32_t rounds);
int64_t hy_chunk_finds(uint32_t rounds);
int64_t hy_chunk_updates(uint32_t rounds);

/* plain.c, as each compiler makes it. */
compare_below plain_below_by_cc;
#ifdef BY_CLANG
compare_below plain_below_by_clang;
#endif

enum { NUMBERS = 1024, WORDS = NUMBERS / 64, ROUNDS = 400, TURNS = 1500 };

static double seconds(void)
{
    struct timespec now;
    clock_gettime(CLOCK_MONOTONIC, &now);
    return (double)now.tv_sec + (double)now.tv_nsec / 1e9;
}

/* What a call takes in the fastest turn, so that a machine that is shared tells little, and a sum of what the calls wrote. */
static double least(compare_below *compare, uint64_t *sum)
{
    static int64_t values[NUMBERS];
    static uint64_t words[WORDS];
    for (int i = 0; i < NUMBERS; i++)
        values[i] = (int64_t)i * 7919 % 1009;
    double least = 1e9;
    for (int turn = 0; turn < TURNS; turn++) {
        double start = seconds();
        for (int round = 0; round < ROUNDS; round++) {
            compare(values, NUMBERS, round * 7 % 1009, words, WORDS);
            *sum += words[round % WORDS];
        }
        double spent = seconds() - start;
        if (spent < least)
            least = spent;
    }
    return least / ROUNDS * 1e9;
}

static void measure_plain(const char *compiler, compare_below *plain, uint64_t sum)
{
    uint64_t of_plain = 0;
    double spent = least(plain, &of_plain);
    printf("compare, 1024 numbers: a plain loop in C by %s %.0f ns%s\n", compiler, spent, sum == of_plain ? "" : ", AND THEY DIFFER");
}

static void measure_compare(void)
{
    uint64_t sum = 0;
    printf("compare, 1024 numbers: %.0f ns\n", least(hy_compare_below, &sum));
    measure_plain("cc -O2", plain_below_by_cc, sum);
#ifdef BY_CLANG
    measure_plain("clang -O3 -march=x86-64-v2", plain_below_by_clang, sum);
#endif
}

static void measure_chain(void)
{
    uint32_t rounds = 2000000;
    double start = seconds();
    int64_t balance = hy_chain_rounds(rounds);
    double spent = seconds() - start;
    printf("chain of 4: pushed, seen and popped in %.0f ns%s\n", spent / rounds * 1e9, balance == 10 ? "" : ", AND THE BALANCE IS WRONG");
}

static void measure_hits(void)
{
    uint32_t rounds = 200000;
    double start = seconds();
    int64_t ours = hy_first_hits(rounds);
    double of_ours = seconds() - start;
    start = seconds();
    int64_t plain = hy_plain_hits(rounds);
    double of_plain = seconds() - start;
    printf("first hit, 100 records: tree %.0f ns, plain list %.0f ns%s\n", of_ours / rounds * 1e9, of_plain / rounds * 1e9,
           ours == plain && ours >= 0 ? "" : ", AND THEY DIFFER");
}

/* The table of the chunks: its rows, and the balance of each, which beside_sqlite.py has too. */
enum { TABLE_ROWS = 65536, LIMIT = 504 };

static int64_t balance_of(uint32_t id)
{
    return (int64_t)(id * 7919 % 1009);
}

/* The processor's time of this process, which other work on the machine adds little to. */
static double busy(void)
{
    struct timespec spent;
    clock_gettime(CLOCK_PROCESS_CPUTIME_ID, &spent);
    return (double)spent.tv_sec + (double)spent.tv_nsec / 1e9;
}

/* The seconds that a call takes with so many rounds, beyond what it takes with none, and what it answers. */
static double beyond_none(int64_t call(uint32_t rounds), uint32_t rounds, int64_t *answer)
{
    double start = busy();
    call(0);
    double of_none = busy() - start;
    start = busy();
    *answer = call(rounds);
    return busy() - start - of_none;
}

static void measure_scans(void)
{
    uint32_t rounds = 200;
    int64_t expected = 0, sum;
    for (uint32_t id = 0; id < TABLE_ROWS; id++)
        expected += balance_of(id) > LIMIT ? balance_of(id) : 0;
    double spent = beyond_none(hy_chunk_scans, rounds, &sum);
    printf("sum with a condition over 65,536 rows in 64 chunks: %.0f us%s\n", spent / rounds * 1e6,
           sum == expected * rounds ? "" : ", AND THE SUM IS WRONG");
}

static void measure_finds(void)
{
    uint32_t rounds = 50000;
    int64_t expected = 0, sum;
    for (uint32_t round = 0; round < rounds; round++)
        expected += balance_of(round * 7919 % TABLE_ROWS);
    double spent = beyond_none(hy_chunk_finds, rounds, &sum);
    printf("look-up by key over 64 chunks of 1,024 rows: %.0f ns%s\n", spent / rounds * 1e9,
           sum == expected ? "" : ", AND THE SUM IS WRONG");
}

/* The seconds that so many updates take. The old reader sees the first balance, and a new one the last. */
static double of_updates(uint32_t rounds)
{
    double start = busy();
    int64_t seen = hy_chunk_updates(rounds);
    double spent = busy() - start;
    if (seen != balance_of(1) * (INT64_C(1) << 32) + rounds - 1)
        printf("%u updates, AND WHAT IS SEEN IS WRONG\n", rounds);
    return spent;
}

static void measure_updates(void)
{
    double first = of_updates(100000);
    double most = of_updates(900000);
    double all = of_updates(1000000);
    printf("update of one row beside an old reader, pruned before and after: %.0f ns, the first tenth of 1,000,000 %.0f ns, the last %.0f ns\n",
           all / 1e6 * 1e9, first / 1e5 * 1e9, (all - most) / 1e5 * 1e9);
}

int main(void)
{
    measure_compare();
    measure_chain();
    measure_hits();
    measure_scans();
    measure_finds();
    measure_updates();
    return 0;
}
