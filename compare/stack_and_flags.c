/* How much stack each call of include/sigvanyor.h takes, and which floating-point flags it raises:
 * both measured, on tables and candidates of several sizes, and held to what the header says. */
#define _POSIX_C_SOURCE 200809L
#include "sigvanyor.h"
#include <fenv.h>
#include <pthread.h>
#include <stdio.h>
#include <stdlib.h>
#include <string.h>
#include <sys/wait.h>
#include <unistd.h>

static int wrong = 0;

/* ---- what the calls are given, and their outputs */

enum { ACTIONS = SIGVANYOR_MAX_ACTIONS, MOST = SIGVANYOR_MAX_STRATEGIES, CELLS = SIGVANYOR_MAX_CELLS, STRIKES = 200 };

static size_t counts[SIGVANYOR_MAX_PLAYERS], players, cells, rows, columns;
static double payoffs[CELLS], u1[ACTIONS * ACTIONS], u2[ACTIONS * ACTIONS], weights[ACTIONS * ACTIONS];
static double p1[ACTIONS], p2[ACTIONS], tolerance;
static sigvanyor_claim claim;
static const size_t profile[SIGVANYOR_MAX_PLAYERS];
static size_t struck_players[STRIKES], struck_strategies[STRIKES];
static sigvanyor_survivors left;
static uint8_t bytes[SIGVANYOR_MAX_FILE], marks[CELLS];
static size_t bytes_len;

static size_t number, total, first, space[SIGVANYOR_MAX_PLAYERS], step[SIGVANYOR_MAX_PLAYERS], choices[CELLS], dominators[CELLS];
static double utility, utilities[CELLS];
static uint8_t truth, swept[CELLS];
static uint32_t answers[STRIKES];
static sigvanyor_best_response responses[MOST];

/* ---- the calls */

static void interface(void) { sigvanyor_interface(); }
static void utility_new(void) { sigvanyor_utility_new(payoffs[0], &utility); }
static void all_finite(void) { sigvanyor_all_finite(payoffs, cells); }
static void from_counts(void) { sigvanyor_from_counts(counts, players, &number, space); }
static void payoff_matrix_new(void) { sigvanyor_payoff_matrix_new(counts, players, payoffs, cells, &number, space); }
static void offset(void) { sigvanyor_offset(counts, players, payoffs, cells, profile, players, &number); }
static void payoff(void) { sigvanyor_payoff(counts, players, payoffs, cells, profile, players, 0, &utility); }
static void profile_payoffs(void) {
    sigvanyor_profile_payoffs(counts, players, payoffs, cells, profile, players, &first, &number);
}
static void advance_profile(void) { sigvanyor_advance_profile(counts, players, step); }
static void best_responses(void) {
    sigvanyor_best_responses(counts, players, payoffs, cells, 0, profile, players - 1, choices, MOST, utilities, MOST, &number);
}
static void best_response_records(void) {
    sigvanyor_best_response_records(counts, players, payoffs, cells, 0, profile, players - 1, responses, MOST, &number);
}
static void best_response_marks(void) { sigvanyor_best_response_marks(counts, players, payoffs, cells, swept, CELLS, &number); }
static void is_equilibrium(void) { sigvanyor_is_equilibrium(counts, players, payoffs, cells, profile, players, &truth); }
static void equilibria(void) {
    sigvanyor_equilibria(counts, players, payoffs, cells, choices, CELLS, utilities, CELLS, &total, &number);
}
static void equilibria_counted(void) {
    sigvanyor_equilibria(counts, players, payoffs, cells, choices, 0, utilities, 0, &total, &number);
}
static void equilibria_cut(void) {
    sigvanyor_equilibria(counts, players, payoffs, cells, choices, CELLS, utilities, players, &total, &number);
}
static void marked_profiles(void) {
    sigvanyor_marked_profiles(counts, players, payoffs, cells, marks, CELLS, choices, CELLS, utilities, CELLS, &total, &number);
}
static void strictly_dominated_strategies(void) {
    sigvanyor_strictly_dominated_strategies(counts, players, payoffs, cells, 0, choices, MOST, dominators, MOST, &number);
}
static void fresh(void) { sigvanyor_fresh(counts, players, payoffs, cells, &left.players, left.counts, left.marks); }
static void strike(void) {
    sigvanyor_strike(counts, players, payoffs, cells, left.players, left.counts, left.marks, 0, 0, &number);
}
static void surviving_equilibria(void) {
    sigvanyor_surviving_equilibria(counts, players, payoffs, cells, left.players, left.counts, left.marks,
                                   choices, CELLS, utilities, CELLS, &total, &number);
}
static void strikes(void) {
    sigvanyor_strikes(counts, players, payoffs, cells, struck_players, STRIKES, struck_strategies, STRIKES,
                      answers, STRIKES, dominators, STRIKES, &number, &left.players, left.counts, left.marks);
}
static void write_file(void) { sigvanyor_write(counts, players, payoffs, cells, bytes, SIGVANYOR_MAX_FILE, &bytes_len); }
static void read_file(void) {
    sigvanyor_read(bytes, bytes_len, space, SIGVANYOR_MAX_PLAYERS, utilities, CELLS, &number);
}
static void table_number(void) { sigvanyor_number(counts, players, payoffs, cells, &truth, &number); }
static void incentives(void) {
    const size_t n = rows * columns;
    sigvanyor_verify_correlated_equilibrium_incentives(rows, columns, u1, n, u2, n, weights, n);
}
static void verdict(void) {
    const size_t n = rows * columns;
    sigvanyor_verdict(rows, columns, u1, n, u2, n, weights, n, tolerance);
}
static void minimax(void) {
    sigvanyor_verify_minimax_residuals(rows, columns, u1, rows * columns, p1, rows, p2, columns, claim);
}

/* What a call does with numbers: nothing, or it compares those of a table, or it also rounds. */
enum work { NOTHING, COMPARES, ROUNDS };

typedef struct {
    const char *name;
    void (*make)(void);
    size_t stack;
    enum work work;
} call;

static const call calls[] = {
    {"interface", interface, SIGVANYOR_STACK, NOTHING},
    {"utility_new", utility_new, SIGVANYOR_STACK, COMPARES},
    {"all_finite", all_finite, SIGVANYOR_STACK, COMPARES},
    {"from_counts", from_counts, SIGVANYOR_STACK, NOTHING},
    {"payoff_matrix_new", payoff_matrix_new, SIGVANYOR_STACK, COMPARES},
    {"offset", offset, SIGVANYOR_STACK, COMPARES},
    {"payoff", payoff, SIGVANYOR_STACK, COMPARES},
    {"profile_payoffs", profile_payoffs, SIGVANYOR_STACK, COMPARES},
    {"advance_profile", advance_profile, SIGVANYOR_STACK, NOTHING},
    {"best_responses", best_responses, SIGVANYOR_STACK, COMPARES},
    {"best_response_records", best_response_records, SIGVANYOR_STACK, COMPARES},
    {"best_response_marks", best_response_marks, SIGVANYOR_STACK, COMPARES},
    {"is_equilibrium", is_equilibrium, SIGVANYOR_STACK, COMPARES},
    {"equilibria", equilibria, SIGVANYOR_STACK_EQUILIBRIA, COMPARES},
    {"equilibria into empty outputs", equilibria_counted, SIGVANYOR_STACK_EQUILIBRIA, COMPARES},
    {"equilibria into a short output", equilibria_cut, SIGVANYOR_STACK_EQUILIBRIA, COMPARES},
    {"marked_profiles", marked_profiles, SIGVANYOR_STACK, COMPARES},
    {"strictly_dominated_strategies", strictly_dominated_strategies, SIGVANYOR_STACK, COMPARES},
    {"fresh", fresh, SIGVANYOR_STACK, COMPARES},
    {"strike", strike, SIGVANYOR_STACK, COMPARES},
    {"surviving_equilibria", surviving_equilibria, SIGVANYOR_STACK_EQUILIBRIA, COMPARES},
    {"strikes", strikes, SIGVANYOR_STACK, COMPARES},
    {"write", write_file, SIGVANYOR_STACK, COMPARES},
    {"read", read_file, SIGVANYOR_STACK, NOTHING},
    {"number", table_number, SIGVANYOR_STACK, COMPARES},
    {"verify_correlated_equilibrium_incentives", incentives, SIGVANYOR_STACK, ROUNDS},
    {"verdict", verdict, SIGVANYOR_STACK, ROUNDS},
    {"verify_minimax_residuals", minimax, SIGVANYOR_STACK, ROUNDS},
};
enum { CALLS = sizeof calls / sizeof calls[0] };

/* ---- tables and candidates */

static uint64_t seed = 1;

static uint64_t random_bits(void) {
    seed ^= seed << 13;
    seed ^= seed >> 7;
    seed ^= seed << 17;
    return seed;
}

static double of_bits(uint64_t bits) {
    double value;
    memcpy(&value, &bits, sizeof value);
    return value;
}

/* A finite number: any bits, or a small whole number. */
static double any_finite(void) {
    const uint64_t bits = random_bits();
    const bool finite = (bits >> 52 & 0x7ff) != 0x7ff;
    return finite && bits % 3 != 0 ? of_bits(bits) : (double)(bits >> 8 & 3);
}

/* P and its counts: small ones; 64 cells and a few more, 2,048 and a few more; the largest. */
static const size_t shapes[][1 + SIGVANYOR_MAX_PLAYERS] = {
    {1, 1}, {1, 64}, {2, 2, 2}, {2, 3, 5}, {3, 2, 3, 4},
    {4, 2, 2, 2, 2}, {2, 3, 11}, {2, 32, 32}, {8, 2, 2, 2, 2, 2, 2, 2, 2}, {2, 25, 41},
    {2, 64, 64}, {3, 27, 27, 27}, {4, 8, 8, 16, 16}, {8, 3, 3, 3, 3, 3, 3, 3, 3},
};
enum { SMALL = 5, SHAPES = sizeof shapes / sizeof shapes[0] };

/* A table of this shape, marks of its cells, few of them 0, its fresh survivors, made by hand, its
 * file, whose call binds nothing, and a candidate with as many rows and columns as the first two
 * counts. */
static void fill(const size_t *shape) {
    players = cells = left.players = shape[0];
    for (size_t p = 0; p < SIGVANYOR_MAX_PLAYERS; p++) {
        counts[p] = left.counts[p] = p < players ? shape[1 + p] : 0;
        cells *= p < players ? counts[p] : 1;
        for (size_t s = 0; s < MOST; s++)
            left.marks[p * MOST + s] = s < counts[p];
    }
    for (size_t i = 0; i < cells; i++) {
        payoffs[i] = any_finite();
        marks[i] = (uint8_t)(random_bits() % 16);
    }
    write_file();
    for (size_t i = 0; i < STRIKES; i++) {
        struck_players[i] = i % (players + 1);
        struck_strategies[i] = i / (players + 1);
    }
    rows = counts[0];
    columns = players > 1 ? counts[1] : 1;
    for (size_t i = 0; i < rows * columns; i++) {
        u1[i] = any_finite();
        u2[i] = any_finite();
        weights[i] = any_finite();
        weights[i] = weights[i] < 0 ? -weights[i] : weights[i];
    }
    for (size_t i = 0; i < rows; i++)
        p1[i] = i == 0;
    for (size_t j = 0; j < columns; j++)
        p2[j] = j == 0;
    claim.value = 0;
    claim.tolerance = tolerance = any_finite() < 0 ? 1 : 1e300;
}

/* ---- stack */

enum { STACK = 1 << 19, PAINT = 0xa5, OWN = 256 };

static unsigned char *stack;
static void (*measured)(void);
static size_t taken;

/* Paints the thread's stack below its own frame, makes the call, and looks how far down the paint
 * is gone. */
static void *paint_and_call(void *nothing) {
    unsigned char *const here = (unsigned char *)__builtin_frame_address(0);
    volatile unsigned char *at;
    for (at = stack; at < here - OWN; at++)
        *at = PAINT;
    measured();
    for (at = stack; at < here - OWN && *at == PAINT; at++)
        ;
    taken = (size_t)(here - at);
    return nothing;
}

static size_t stack_of(const call *c) {
    pthread_t thread;
    pthread_attr_t how;
    measured = c->make;
    if (pthread_attr_init(&how) || pthread_attr_setstack(&how, stack, STACK) ||
        pthread_create(&thread, &how, paint_and_call, NULL) || pthread_join(thread, NULL)) {
        printf("stack: no thread on a stack of its own\n");
        exit(1);
    }
    pthread_attr_destroy(&how);
    return taken;
}

/* The same in a process that has made no such call before, where the dynamic linker may have to
 * bind what the call uses of the C library. */
static size_t first_stack_of(const call *c) {
    int ends[2];
    pid_t child;
    size_t depth = 0;
    if (pipe(ends) || (child = fork()) < 0)
        exit(1);
    if (child == 0) {
        depth = stack_of(c);
        _exit(write(ends[1], &depth, sizeof depth) != sizeof depth);
    }
    if (read(ends[0], &depth, sizeof depth) != sizeof depth || waitpid(child, NULL, 0) != child)
        exit(1);
    close(ends[0]);
    close(ends[1]);
    return depth;
}

/* What a listing may take, by the cells of its table. */
static const struct {
    size_t cells, stack;
} sizes[] = {
    {64, SIGVANYOR_STACK},
    {2048, SIGVANYOR_STACK},
    {CELLS, SIGVANYOR_STACK_EQUILIBRIA},
};
enum { SIZES = sizeof sizes / sizeof sizes[0] };

/* The most that a listing took on a table of each size, and any other call. */
static size_t most[SIZES + 1];

static void hold_stack(const call *c, size_t depth) {
    const bool lists = c->stack == SIGVANYOR_STACK_EQUILIBRIA;
    size_t size = 0;
    while (cells > sizes[size].cells)
        size++;
    const size_t limit = lists ? sizes[size].stack : c->stack, kind = lists ? size : SIZES;
    if (depth > most[kind])
        most[kind] = depth;
    if (depth > limit) {
        printf("stack: %s took %zu bytes on a table of %zu cells, the header says %zu\n", c->name, depth, cells, limit);
        wrong = 1;
    }
}

/* Every call on tables of every shape, first in processes that have made none. */
static void stacks(void) {
    size_t (*const measures[])(const call *) = {first_stack_of, stack_of};
    if (posix_memalign((void **)&stack, 4096, STACK))
        exit(1);
    for (int m = 0; m < 2; m++)
        for (int s = 0; s < SHAPES; s++) {
            fill(shapes[s]);
            for (const call *c = calls; c < calls + CALLS; c++)
                hold_stack(c, measures[m](c));
        }
    printf("stack: at most %zu bytes for a listing of equilibria on up to %zu cells, %zu on up to %zu, %zu on more; "
           "%zu for the other calls\n",
           most[0], sizes[0].cells, most[1], sizes[1].cells, most[2], most[SIZES]);
}

/* ---- flags */

static int raised(const call *c) {
    feclearexcept(FE_ALL_EXCEPT);
    c->make();
    return fetestexcept(FE_ALL_EXCEPT);
}

static void hold_flags(const call *c, const char *given, bool holds) {
    if (!holds) {
        printf("flags: %s given %s raises other flags than the header says\n", c->name, given);
        wrong = 1;
    }
}

/* Finite numbers. A candidate check raises each flag but division by zero, some time. */
static void finite_flags(void) {
    int ever[CALLS] = {0};
    for (int round = 0; round < 200; round++)
        for (int s = 0; s < (round < 4 ? SHAPES : SMALL); s++) {
            fill(shapes[s]);
            for (size_t i = 0; i < rows && round % 2; i++)
                p1[i] = any_finite();
            for (size_t j = 0; j < columns && round % 2; j++)
                p2[j] = any_finite();
            for (int i = 0; i < CALLS; i++)
                ever[i] |= raised(&calls[i]);
        }
    for (int i = 0; i < CALLS; i++)
        hold_flags(&calls[i], "finite numbers",
                   ever[i] == (calls[i].work == ROUNDS ? FE_ALL_EXCEPT & ~FE_DIVBYZERO : 0));
}

/* The number with these bits, an infinity or a NaN, into the table, its file and the candidate. */
static void put(uint64_t bits, int round) {
    const size_t at = random_bits() % cells, place = random_bits() % (rows * columns);
    const uint32_t parts[] = {bits >> 60, bits >> 30 & 0x3fffffff, bits & 0x3fffffff};
    for (int i = 0; i < 12; i++)
        bytes[4 * (1 + players + 3 * at) + i] = (uint8_t)((2u << 30 | parts[i / 4]) >> (24 - 8 * (i % 4)));
    payoffs[at] = of_bits(bits);
    switch (round % 4) {
    case 0: u1[place] = of_bits(bits); break;
    case 1: u2[place] = of_bits(bits); p1[random_bits() % rows] = of_bits(bits); break;
    case 2: weights[place] = of_bits(bits); p2[random_bits() % columns] = of_bits(bits); break;
    case 3: tolerance = claim.tolerance = of_bits(bits); u1[place] = of_bits(bits); break;
    }
}

static void other_flags(const char *given, uint64_t bits, int expected) {
    for (int round = 0; round < 100; round++)
        for (int s = 0; s < SMALL; s++) {
            fill(shapes[s]);
            put(bits, round);
            for (const call *c = calls; c < calls + CALLS; c++) {
                const int flags = raised(c);
                if (c->work == ROUNDS)
                    hold_flags(c, given, (flags & ~FE_INVALID) == 0);
                else if (c->make != utility_new)
                    hold_flags(c, given, flags == (c->work == COMPARES ? expected : 0));
            }
            payoffs[0] = of_bits(bits);
            for (const call *c = calls; c < calls + CALLS; c++)
                if (c->make == utility_new)
                    hold_flags(c, given, raised(c) == expected);
        }
}

/* No call takes a flag away. */
static void kept_flags(void) {
    fill(shapes[2]);
    for (const call *c = calls; c < calls + CALLS; c++) {
        feraiseexcept(FE_ALL_EXCEPT);
        c->make();
        hold_flags(c, "all flags", fetestexcept(FE_ALL_EXCEPT) == FE_ALL_EXCEPT);
    }
}

int main(void) {
    stacks();
    finite_flags();
    other_flags("an infinity", UINT64_C(0x7ff0000000000000), FE_INVALID);
    other_flags("an infinity", UINT64_C(0xfff0000000000000), FE_INVALID);
    other_flags("a signalling NaN", UINT64_C(0x7ff0000000000001), FE_INVALID);
    other_flags("a signalling NaN", UINT64_C(0xfff4000000000000), FE_INVALID);
    other_flags("a quiet NaN", UINT64_C(0x7ff8000000000000), 0);
    other_flags("a quiet NaN", UINT64_C(0xffffffffffffffff), 0);
    kept_flags();
    if (!wrong)
        printf("flags: as the header says\n");
    return wrong;
}
