/* The library of an earlier commit and this one in one process, linked by `versions`. Reads the edits of each mix, as `bench edits` prints them.
 * Prints a row for each thing measured, in each round: its name, before and after, with tabs between. Times are in nanoseconds: of edits and
 * soundness tests the processor time, in which the two take turns by slices of work, and of clearings the median of 1,000. The last rows are bytes;
 * with COPIES, the only row is what a clearing copies, in tables. Both libraries have to give the same answers, and tables that agree as far as the
 * shorter one goes. */
#define _GNU_SOURCE
#include "version.h"
#include <stdio.h>
#include <stdlib.h>
#include <string.h>
#include <time.h>
#include <ucontext.h>

extern const struct version earlier, now;

enum { ROUNDS = 9, EDITS = 10000, TESTS = 2000, SLICE = 200, CLEARINGS = 1000, ROOM = 8192 };

/* Tables that are measured: after the edits of each mix, fresh, with a full chain, and with one that a weak link holds. */
enum { MIXES = 4, FRESH = MIXES, CHAIN, HELD, TABLES };

/* Memory for a table of either version. */
typedef union {
    unsigned char bytes[ROOM];
    uint64_t aligned;
} memory;

static struct mix {
    char name[64];
    struct edit edits[EDITS];
} mixes[MIXES];

/* What one version works on. */
static struct side {
    const struct version *version;
    memory tables[TABLES], work;
} sides[2] = {{.version = &earlier}, {.version = &now}};

/* Clears exit 0 of step 0. */
static const struct edit clearing = {.call = 3};
static const char clearing_line[] = "H*30000A";

static void expect(int holds, const char *what)
{
    if (!holds) {
        fprintf(stderr, "%s\n", what);
        exit(1);
    }
}

static void read_mixes(void)
{
    static const char *forms[] = {"H*%1hu%3hu%1hu%1hu%3huA", "H*%1hu%3hu%1hu%3hu%1huA", "H*%1hu%3hu%1huA"};
    char line[64];
    for (int m = 0; m < MIXES; m++) {
        expect(fgets(mixes[m].name, sizeof mixes[m].name, stdin) != NULL, "too few mixes");
        mixes[m].name[strcspn(mixes[m].name, "\n")] = 0;
        for (int i = 0; i < EDITS; i++) {
            struct edit *e = &mixes[m].edits[i];
            expect(fgets(line, sizeof line, stdin) != NULL, "too few edits");
            expect(line[2] >= '1' && line[2] <= '3', "not an edit");
            int numbers = sscanf(line, forms[line[2] - '1'], &e->call, &e->a, &e->b, &e->c, &e->d);
            expect(numbers == (line[2] == '3' ? 3 : 5), "not an edit");
        }
    }
}

/* Both sides work on a copy of this table of theirs. */
static void copy(int table)
{
    for (int s = 0; s < 2; s++)
        sides[s].work = sides[s].tables[table];
}

/* Keeps what both sides have worked on as this table of theirs, and holds the two to each other as far as the shorter one goes. */
static void keep(int table)
{
    size_t shorter = earlier.bytes < now.bytes ? earlier.bytes : now.bytes;
    expect(memcmp(&sides[0].work, &sides[1].work, shorter) == 0, "the two libraries differ in a table");
    for (int s = 0; s < 2; s++)
        sides[s].tables[table] = sides[s].work;
}

/* Makes an edit on both sides, which have to accept it with one answer. */
static void both_edit(struct edit edit)
{
    struct answer answers[2];
    for (int s = 0; s < 2; s++)
        answers[s] = sides[s].version->edit(&sides[s].work, edit);
    expect(answers[0].refusal == 0, "an edit was refused");
    expect(memcmp(&answers[0], &answers[1], sizeof *answers) == 0, "the two libraries differ in an answer");
}

/* Makes all tables, which have to agree after each edit. */
static void make_tables(void)
{
    for (int s = 0; s < 2; s++) {
        expect(sides[s].version->fits(), "a library and its header have different editions");
        expect(sides[s].version->bytes <= ROOM, "a table has too many bytes");
        expect(sides[s].version->fresh(&sides[s].work).refusal == 0, "a fresh table was refused");
    }
    keep(FRESH);
    for (int m = 0; m < MIXES; m++) {
        copy(FRESH);
        for (int i = 0; i < EDITS; i++) {
            both_edit(mixes[m].edits[i]);
            keep(m);
        }
    }
    copy(FRESH);
    for (uint16_t step = 0; step < 127; step++)
        both_edit((struct edit){1, step, 0, 1, 0});
    keep(CHAIN);
    both_edit((struct edit){2, 0, 0, 0, 1});
    keep(HELD);
}

static double nanoseconds(clockid_t clock)
{
    struct timespec time;
    clock_gettime(clock, &time);
    return time.tv_sec * 1e9 + time.tv_nsec;
}

/* The side whose turn it is: first and second change places from slice to slice. */
static int turn(int slice, int place)
{
    return (slice + place) % 2;
}

/* Prints a row of times, each of so many runs. */
static void print_times(const char *name, const char *of, const double times[2], int runs)
{
    printf("%s%s\t%.1f\t%.1f\n", name, of, times[0] / runs, times[1] / runs);
}

static void time_edits(int m)
{
    double times[2] = {0, 0};
    copy(FRESH);
    for (int i = 0; i < EDITS; i += SLICE)
        for (int place = 0; place < 2; place++) {
            int s = turn(i / SLICE, place);
            double start = nanoseconds(CLOCK_PROCESS_CPUTIME_ID);
            for (int j = i; j < i + SLICE; j++)
                sides[s].version->edit(&sides[s].work, mixes[m].edits[j]);
            times[s] += nanoseconds(CLOCK_PROCESS_CPUTIME_ID) - start;
        }
    print_times("edit, ", mixes[m].name, times, EDITS);
}

static void time_tests(int table, const char *name)
{
    double times[2] = {0, 0};
    int sound = 0;
    copy(table);
    for (int i = 0; i < TESTS; i += SLICE)
        for (int place = 0; place < 2; place++) {
            int s = turn(i / SLICE, place);
            double start = nanoseconds(CLOCK_PROCESS_CPUTIME_ID);
            for (int j = i; j < i + SLICE; j++)
                sound += sides[s].version->is_sound(&sides[s].work);
            times[s] += nanoseconds(CLOCK_PROCESS_CPUTIME_ID) - start;
        }
    expect(sound == 2 * TESTS, "a table is not sound");
    print_times("soundness test, ", name, times, TESTS);
}

static int order(const void *a, const void *b)
{
    double x = *(const double *)a, y = *(const double *)b;
    return (x > y) - (x < y);
}

static void time_clearings(void)
{
    static double times[2][CLEARINGS];
    double medians[2];
    for (int i = 0; i < CLEARINGS; i++) {
        copy(CHAIN);
        for (int place = 0; place < 2; place++) {
            int s = turn(i, place);
            double start = nanoseconds(CLOCK_MONOTONIC);
            struct answer answer = sides[s].version->edit(&sides[s].work, clearing);
            times[s][i] = nanoseconds(CLOCK_MONOTONIC) - start;
            expect(answer.second == 127, "a clearing did not free 127 steps");
        }
    }
    for (int s = 0; s < 2; s++) {
        qsort(times[s], CLEARINGS, sizeof *times[s], order);
        medians[s] = times[s][CLEARINGS / 2];
    }
    print_times("clearing that frees 127 steps", "", medians, 1);
}

#ifdef COPIES
static size_t copied;

void *__real_memcpy(void *to, const void *from, size_t bytes);

/* The linker puts this in the place of memcpy. */
void *__wrap_memcpy(void *to, const void *from, size_t bytes)
{
    copied += bytes;
    return __real_memcpy(to, from, bytes);
}

static double copies(struct side *side)
{
    copied = 0;
    side->version->edit(&side->work, clearing);
    return (double)copied / side->version->bytes;
}
#endif

/* A clearing on a painted stack of its own, by a key line or not. */
static unsigned char stack[1 << 18];
static ucontext_t here, there;
static const unsigned char *top;
static struct side *called;
static int by_line;

static void enter(void)
{
    top = __builtin_frame_address(0);
    if (by_line)
        called->version->key_line(&called->work, clearing_line);
    else
        called->version->edit(&called->work, clearing);
}

/* The bytes of stack that a clearing of a side's table takes, with the table. */
static size_t stack_bytes(struct side *side, int table, int line)
{
    memset(stack, 0xA5, sizeof stack);
    copy(table);
    called = side;
    by_line = line;
    getcontext(&there);
    there.uc_stack.ss_sp = stack;
    there.uc_stack.ss_size = sizeof stack;
    there.uc_link = &here;
    makecontext(&there, enter, 0);
    swapcontext(&here, &there);
    const unsigned char *lowest = stack;
    while (*lowest == 0xA5)
        lowest++;
    return top - lowest + side->version->bytes;
}

/* The deeper of a clearing that frees 127 steps and one that takes them back. */
static void print_stack(const char *name, int line)
{
    size_t bytes[2];
    for (int s = 0; s < 2; s++) {
        size_t freed = stack_bytes(&sides[s], CHAIN, line), held = stack_bytes(&sides[s], HELD, line);
        bytes[s] = freed > held ? freed : held;
    }
    printf("bytes of stack with the table, %s\t%zu\t%zu\n", name, bytes[0], bytes[1]);
}

int main(void)
{
    read_mixes();
    make_tables();
#ifdef COPIES
    copy(CHAIN);
    printf("copies of a table in such a clearing\t%.2f\t%.2f\n", copies(&sides[0]), copies(&sides[1]));
    return 0;
#endif
    for (int round = 0; round < ROUNDS; round++) {
        for (int m = 0; m < MIXES; m++)
            time_edits(m);
        time_tests(FRESH, "fresh");
        for (int m = 0; m < MIXES; m++)
            time_tests(m, mixes[m].name);
        time_tests(CHAIN, "chain of 127 steps");
        time_clearings();
    }
    printf("bytes of a table\t%zu\t%zu\n", earlier.bytes, now.bytes);
    print_stack("clearing", 0);
    print_stack("key line", 1);
    return 0;
}
