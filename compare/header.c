/* Every call of include/sigvanyor.h from C, on document 01's table of counts 2 3 4, its first game,
 * that one's file and number, candidates for it and for a game of 1 x 2, and the header's limits,
 * refusals and number: the header fits the archive. */
#include "sigvanyor.h"
#include <stdio.h>
#include <string.h>

static int wrong = 0;

static void expect(const char *call, bool holds) {
    if (!holds) {
        printf("header: %s does not answer as declared\n", call);
        wrong = 1;
    }
}

/* The limits are the library's: accepted up to each, refused one above. */
static void limits(void) {
    size_t ones[SIGVANYOR_MAX_PLAYERS + 1], players, space[SIGVANYOR_MAX_PLAYERS];
    size_t strategies = SIGVANYOR_MAX_STRATEGIES, cells[] = {8, 8, 16, 16};
    for (int i = 0; i <= SIGVANYOR_MAX_PLAYERS; i++)
        ones[i] = 1;
    expect("MAX_PLAYERS", sigvanyor_from_counts(ones, SIGVANYOR_MAX_PLAYERS, &players, space) == 0);
    expect("MAX_PLAYERS", sigvanyor_from_counts(ones, SIGVANYOR_MAX_PLAYERS + 1, &players, space) == SIGVANYOR_TOO_MANY_PLAYERS);
    expect("MAX_STRATEGIES", sigvanyor_from_counts(&strategies, 1, &players, space) == 0);
    strategies++;
    expect("MAX_STRATEGIES", sigvanyor_from_counts(&strategies, 1, &players, space) == SIGVANYOR_TOO_MANY_STRATEGIES);
    expect("MAX_CELLS", 8 * 8 * 16 * 16 * 4 == SIGVANYOR_MAX_CELLS);
    expect("MAX_CELLS", sigvanyor_from_counts(cells, 4, &players, space) == 0);
    cells[3]++;
    expect("MAX_CELLS", sigvanyor_from_counts(cells, 4, &players, space) == SIGVANYOR_TOO_MANY_CELLS);
    const double zeros[SIGVANYOR_MAX_ACTIONS + 1] = {0}, one[SIGVANYOR_MAX_ACTIONS + 1] = {1};
    const sigvanyor_claim nothing = {0, 0};
    for (size_t m = SIGVANYOR_MAX_ACTIONS; m <= SIGVANYOR_MAX_ACTIONS + 1; m++) {
        const bool within = m == SIGVANYOR_MAX_ACTIONS;
        const double gain = sigvanyor_verify_correlated_equilibrium_incentives(m, 1, zeros, m, zeros, m, zeros, m);
        expect("MAX_ACTIONS", gain == (within ? 0 : 1.0 / 0.0));
        expect("MAX_ACTIONS", sigvanyor_verify_minimax_residuals(m, 1, zeros, m, one, m, one, 1, nothing) == within);
    }
}

/* Two players with 2 strategies each, each one's first strategy dominated by its second. */
static void solvers(void) {
    const size_t counts[] = {2, 2}, opponent = 0, profile[] = {1, 1}, other[] = {1, 0};
    const double payoffs[] = {2, 2, 0, 3, 3, 0, 1, 1};
    size_t first[2] = {9, 9}, second[2] = {9, 9}, number = 99;
    double utilities[2] = {-1, -1};
    uint8_t equilibrium = 200;

    expect("best_responses", sigvanyor_best_responses(counts, 2, payoffs, 8, 0, &opponent, 0, first, 1, utilities, 1, &number) ==
           SIGVANYOR_OPPONENT_PROFILE_COUNT);
    expect("best_responses", first[0] == 9 && utilities[0] == -1 && number == 99);
    expect("best_responses", sigvanyor_best_responses(counts, 2, payoffs, 8, 0, &opponent, 1, first, 1, utilities, 1, &number) == 0);
    expect("best_responses", number == 1 && first[0] == 1 && first[1] == 9 && utilities[0] == 3 && utilities[1] == -1);
    sigvanyor_best_response responses[2] = {{9, -1}, {9, -1}};
    number = 99;
    expect("best_response_records", sigvanyor_best_response_records(counts, 2, payoffs, 8, 0, &opponent, 1, responses, 0, &number) ==
           SIGVANYOR_OUTPUT_TOO_SHORT);
    expect("best_response_records", responses[0].strategy == 9 && responses[0].utility == -1 && number == 99);
    expect("best_response_records", sigvanyor_best_response_records(counts, 2, payoffs, 8, 0, &opponent, 1, responses, 1, &number) == 0);
    expect("best_response_records", number == 1 && responses[0].strategy == 1 && responses[0].utility == 3);
    expect("best_response_records", responses[1].strategy == 9 && responses[1].utility == -1);
    const double equal[] = {1, 1, 1, 1, 1, 1, 1, 1};
    expect("best_response_records", sigvanyor_best_response_records(counts, 2, equal, 8, 0, &opponent, 1, responses, 2, &number) == 0);
    expect("best_response_records", number == 2 && responses[0].strategy == 0 && responses[1].strategy == 1 && responses[1].utility == 1);
    expect("is_equilibrium", sigvanyor_is_equilibrium(counts, 2, payoffs, 8, profile, 1, &equilibrium) == SIGVANYOR_PROFILE_COUNT);
    expect("is_equilibrium", equilibrium == 200);
    expect("is_equilibrium", sigvanyor_is_equilibrium(counts, 2, payoffs, 8, profile, 2, &equilibrium) == 0 && equilibrium == 1);
    expect("is_equilibrium", sigvanyor_is_equilibrium(counts, 2, payoffs, 8, other, 2, &equilibrium) == 0 && equilibrium == 0);
    number = 99;
    expect("strictly_dominated_strategies",
           sigvanyor_strictly_dominated_strategies(counts, 2, payoffs, 8, 2, first, 2, second, 2, &number) == SIGVANYOR_INVALID_PLAYER);
    expect("strictly_dominated_strategies", number == 99);
    expect("strictly_dominated_strategies",
           sigvanyor_strictly_dominated_strategies(counts, 2, payoffs, 8, 1, first, 2, second, 2, &number) == 0 && number == 1);
    expect("strictly_dominated_strategies", first[0] == 0 && first[1] == 9 && second[0] == 1 && second[1] == 9);
}

/* The outputs of a listing of equilibria. */
static struct {
    size_t choices[9], total, written;
    double utilities[9];
} out;

static void clear(void) {
    for (int i = 0; i < 9; i++) {
        out.choices[i] = 9;
        out.utilities[i] = -1;
    }
    out.total = out.written = 99;
}

/* Whether these numbers were told since then, and nothing written past so many entries of 2 choices and 2 payoffs. */
static bool told(size_t total, size_t written, size_t entries) {
    bool holds = out.total == total && out.written == written;
    for (size_t i = 2 * entries; i < 9; i++)
        holds = holds && out.choices[i] == 9 && out.utilities[i] == -1;
    return holds;
}

/* The listing of a game of 2 x 2 into outputs of these lengths. */
static uint32_t list(const double *payoffs, size_t payoffs_len, size_t choices_len, size_t utilities_len) {
    const size_t counts[] = {2, 2};
    clear();
    return sigvanyor_equilibria(counts, 2, payoffs, payoffs_len, out.choices, choices_len, out.utilities, utilities_len,
                                &out.total, &out.written);
}

/* The game of `solvers`, then one in which all four profiles are equilibria, into outputs of all lengths. */
static void listings(void) {
    const double payoffs[] = {2, 2, 0, 3, 3, 0, 1, 1}, equal[] = {4, 5, 4, 5, 4, 5, 4, 5};

    expect("equilibria", list(payoffs, 7, 9, 9) == SIGVANYOR_PAYOFF_COUNT && told(99, 99, 0));
    expect("equilibria", list(payoffs, 8, 0, 0) == 0 && told(1, 0, 0));
    expect("equilibria", list(payoffs, 8, 9, 9) == 0 && told(1, 1, 1));
    expect("equilibria", out.choices[0] == 1 && out.choices[1] == 1 && out.utilities[0] == 1 && out.utilities[1] == 1);
    for (size_t choices_len = 0; choices_len <= 9; choices_len++)
        for (size_t utilities_len = 0; utilities_len <= 9; utilities_len++) {
            const size_t held = (choices_len < utilities_len ? choices_len : utilities_len) / 2;
            const size_t written = held < 4 ? held : 4;
            expect("equilibria", list(equal, 8, choices_len, utilities_len) == 0 && told(4, written, written));
            for (size_t i = 0; i < written; i++) {
                expect("equilibria", out.choices[2 * i] == i / 2 && out.choices[2 * i + 1] == i % 2);
                expect("equilibria", out.utilities[2 * i] == 4 && out.utilities[2 * i + 1] == 5);
            }
        }
}

/* A buffer of marks, and how many the sweep set. */
static uint8_t marks[9];
static size_t set;

/* The sweep of a game of 2 x 2 into a buffer of this length with a byte everywhere. */
static uint32_t sweep(const double *payoffs, size_t payoffs_len, size_t marks_len, uint8_t byte) {
    const size_t counts[] = {2, 2};
    memset(marks, byte, 9);
    set = 99;
    return sigvanyor_best_response_marks(counts, 2, payoffs, payoffs_len, marks, marks_len, &set);
}

/* Whether so many marks were told as set since then, and these are the bytes. */
static bool swept(size_t number, const uint8_t *bytes) { return set == number && memcmp(marks, bytes, 9) == 0; }

/* The listing of the game of `solvers` from marks, as `list`. */
static uint32_t list_marked(const uint8_t *from, size_t payoffs_len, size_t marks_len, size_t choices_len, size_t utilities_len) {
    const size_t counts[] = {2, 2};
    const double payoffs[] = {2, 2, 0, 3, 3, 0, 1, 1};
    clear();
    return sigvanyor_marked_profiles(counts, 2, payoffs, payoffs_len, from, marks_len, out.choices, choices_len,
                                     out.utilities, utilities_len, &out.total, &out.written);
}

/* The games of `listings`: their marks, and what is listed from marks of the first one that a caller made. */
static void best_response_marks(void) {
    const double payoffs[] = {2, 2, 0, 3, 3, 0, 1, 1}, equal[] = {4, 5, 4, 5, 4, 5, 4, 5};
    const uint8_t best[] = {0, 0, 0, 1, 1, 0, 1, 1, 1}, all[] = {1, 1, 1, 1, 1, 1, 1, 1, 7}, old[] = {7, 7, 7, 7, 7, 7, 7, 7, 7};
    const uint8_t any[] = {2, 255, 1, 0, 0, 255, 128, 1, 0}, none[] = {0, 1, 2, 0, 0, 0, 255, 0, 1};

    expect("best_response_marks", sweep(payoffs, 7, 6, 7) == SIGVANYOR_PAYOFF_COUNT && swept(99, old));
    expect("best_response_marks", sweep(payoffs, 8, 0, 7) == SIGVANYOR_OUTPUT_TOO_SHORT && swept(99, old));
    expect("best_response_marks", sweep(payoffs, 8, 7, 7) == SIGVANYOR_OUTPUT_TOO_SHORT && swept(99, old));
    expect("best_response_marks", sweep(payoffs, 8, 8, 1) == 0 && swept(4, best));
    expect("best_response_marks", sweep(payoffs, 8, 9, 1) == 0 && swept(4, best));
    expect("best_response_marks", sweep(equal, 8, 9, 7) == 0 && swept(8, all));
    expect("marked_profiles", list_marked(best, 7, 6, 9, 9) == SIGVANYOR_PAYOFF_COUNT && told(99, 99, 0));
    expect("marked_profiles", list_marked(best, 8, 0, 9, 9) == SIGVANYOR_OUTPUT_TOO_SHORT && told(99, 99, 0));
    expect("marked_profiles", list_marked(best, 8, 7, 9, 9) == SIGVANYOR_OUTPUT_TOO_SHORT && told(99, 99, 0));
    expect("marked_profiles", list_marked(best, 8, 8, 9, 9) == 0 && told(1, 1, 1));
    expect("marked_profiles", out.choices[0] == 1 && out.choices[1] == 1 && out.utilities[0] == 1 && out.utilities[1] == 1);
    expect("marked_profiles", list_marked(any, 8, 9, 4, 9) == 0 && told(2, 2, 2));
    expect("marked_profiles", out.choices[0] == 0 && out.choices[1] == 0 && out.choices[2] == 1 && out.choices[3] == 1);
    expect("marked_profiles", out.utilities[0] == 2 && out.utilities[1] == 2 && out.utilities[2] == 1 && out.utilities[3] == 1);
    expect("marked_profiles", list_marked(any, 8, 8, 9, 3) == 0 && told(2, 1, 1));
    expect("marked_profiles", out.choices[0] == 0 && out.choices[1] == 0 && out.utilities[0] == 2 && out.utilities[1] == 2);
    expect("marked_profiles", list_marked(any, 8, 9, 0, 0) == 0 && told(2, 0, 0));
    expect("marked_profiles", list_marked(none, 8, 9, 9, 9) == 0 && told(0, 0, 0));
}

/* The survivors' listing of the game of `solvers`, with this P in their record. */
static uint32_t list_survivors(const sigvanyor_survivors *left, size_t players, size_t choices_len, size_t utilities_len) {
    const size_t counts[] = {2, 2};
    const double payoffs[] = {2, 2, 0, 3, 3, 0, 1, 1};
    clear();
    return sigvanyor_surviving_equilibria(counts, 2, payoffs, 8, players, left->counts, left->marks, out.choices, choices_len,
                                          out.utilities, utilities_len, &out.total, &out.written);
}

/* Survivors of the game of `solvers`: each one's first strategy is struck, by a call each and by a list. */
static void strikes(void) {
    const size_t counts[] = {2, 2}, players[] = {0, 1, 1, 2}, strategies[] = {0, 0, 0, 0};
    const double payoffs[] = {2, 2, 0, 3, 3, 0, 1, 1};
    const size_t second = SIGVANYOR_MAX_STRATEGIES;
    sigvanyor_survivors left = {9, {9}, {7}};
    size_t dominator = 99, number = 99, by[5] = {9, 9, 9, 9, 9};
    uint32_t answers[5] = {9, 9, 9, 9, 9};

    expect("fresh", sigvanyor_fresh(counts, 2, payoffs, 7, &left.players, left.counts, left.marks) == SIGVANYOR_PAYOFF_COUNT);
    expect("fresh", left.players == 9 && left.counts[0] == 9 && left.marks[0] == 7);
    expect("fresh", sigvanyor_fresh(counts, 2, payoffs, 8, &left.players, left.counts, left.marks) == 0);
    expect("fresh", left.players == 2 && left.counts[1] == 2 && left.counts[7] == 0);
    expect("fresh", left.marks[0] == 1 && left.marks[1] == 1 && left.marks[2] == 0 && left.marks[second] == 1);
    left.marks[second + 1] = 200;
    expect("strike", sigvanyor_strike(counts, 2, payoffs, 8, 3, left.counts, left.marks, 0, 0, &dominator) ==
           SIGVANYOR_FOREIGN_SURVIVORS);
    expect("strike", dominator == 99);
    expect("strike", sigvanyor_strike(counts, 2, payoffs, 8, 2, left.counts, left.marks, 0, 1, &dominator) ==
           SIGVANYOR_NOT_DOMINATED);
    expect("strike", dominator == 99);
    expect("strike", left.marks[0] == 1 && left.marks[second + 1] == 200);
    expect("strike", sigvanyor_strike(counts, 2, payoffs, 8, 2, left.counts, left.marks, 0, 0, &dominator) == 0 && dominator == 1);
    expect("strike", left.marks[0] == 0 && left.marks[1] == 1 && left.marks[second] == 1 && left.marks[second + 1] == 1);
    expect("surviving_equilibria", list_survivors(&left, 3, 9, 9) == SIGVANYOR_FOREIGN_SURVIVORS && told(99, 99, 0));
    expect("surviving_equilibria", list_survivors(&left, 2, 0, 0) == 0 && told(1, 0, 0));
    expect("surviving_equilibria", list_survivors(&left, 2, 1, 9) == 0 && told(1, 0, 0));
    expect("surviving_equilibria", list_survivors(&left, 2, 9, 2) == 0 && told(1, 1, 1));
    expect("surviving_equilibria", out.choices[0] == 1 && out.choices[1] == 1 && out.utilities[0] == 1 && out.utilities[1] == 1);
    expect("strikes", sigvanyor_strikes(counts, 2, payoffs, 8, players, 4, strategies, 4, answers, 3, by, 5, &number,
                                        &left.players, left.counts, left.marks) == SIGVANYOR_OUTPUT_TOO_SHORT);
    expect("strikes", answers[0] == 9 && left.marks[second] == 1);
    expect("strikes", sigvanyor_strikes(counts, 2, payoffs, 8, players, 4, strategies, 4, answers, 5, by, 5, &number,
                                        &left.players, left.counts, left.marks) == 0 && number == 2);
    expect("strikes", answers[0] == 0 && answers[1] == 0 && answers[2] == SIGVANYOR_NO_SURVIVING_STRATEGY);
    expect("strikes", answers[3] == SIGVANYOR_INVALID_PLAYER && answers[4] == 9);
    expect("strikes", by[0] == 1 && by[1] == 1 && by[2] == 0 && by[3] == 0 && by[4] == 9);
    expect("strikes", left.marks[0] == 0 && left.marks[1] == 1 && left.marks[second] == 0 && left.marks[second + 1] == 1);
}

/* The game of `solvers`, with all weight on each one's first strategy and on its second; then a game whose value is 3, for player 2's
 * first column. */
static void candidates(void) {
    const double u1[] = {2, 0, 3, 1}, u2[] = {2, 3, 0, 1}, firsts[] = {1, 0, 0, 0}, seconds[] = {0, 0, 0, 1};
    const double payoffs[] = {3, 4}, p1[] = {1}, p2[] = {1, 0};
    const sigvanyor_claim right = {3, 0.5}, high = {4, 0.5}, low = {2, 0.5};

    expect("verify_correlated_equilibrium_incentives",
           sigvanyor_verify_correlated_equilibrium_incentives(2, 2, u1, 4, u2, 4, firsts, 4) == 1);
    expect("verify_correlated_equilibrium_incentives",
           sigvanyor_verify_correlated_equilibrium_incentives(2, 2, u1, 4, u2, 4, seconds, 4) == 0);
    expect("verify_correlated_equilibrium_incentives",
           sigvanyor_verify_correlated_equilibrium_incentives(2, 2, u1, 4, u2, 4, firsts, 3) == 1.0 / 0.0);
    expect("verdict", sigvanyor_verdict(2, 2, u1, 4, u2, 4, firsts, 4, 1.0));
    expect("verdict", !sigvanyor_verdict(2, 2, u1, 4, u2, 4, firsts, 4, 0.5));
    expect("verify_minimax_residuals", sigvanyor_verify_minimax_residuals(1, 2, payoffs, 2, p1, 1, p2, 2, right));
    expect("verify_minimax_residuals", !sigvanyor_verify_minimax_residuals(1, 2, payoffs, 2, p1, 1, p2, 2, high));
    expect("verify_minimax_residuals", !sigvanyor_verify_minimax_residuals(1, 2, payoffs, 2, p1, 1, p2, 2, low));
    expect("verify_minimax_residuals", !sigvanyor_verify_minimax_residuals(2, 1, payoffs, 2, p1, 1, p2, 2, right));
}

/* The file of the game of `solvers`, written and read back. */
static void deposits(void) {
    const size_t counts[] = {2, 2};
    const double payoffs[] = {2, 2, 0, 3, 3, 0, 1, 1};
    uint8_t bytes[113];
    size_t written = 99, players = 99, read_counts[3] = {9, 9, 9};
    double read_payoffs[9];
    for (int i = 0; i < 113; i++)
        bytes[i] = 7;
    for (int i = 0; i < 9; i++)
        read_payoffs[i] = -1;

    expect("write", sigvanyor_write(counts, 2, payoffs, 8, bytes, 111, &written) == SIGVANYOR_OUTPUT_TOO_SHORT);
    expect("write", written == 99 && bytes[0] == 7);
    expect("write", sigvanyor_write(counts, 2, payoffs, 8, bytes, 113, &written) == 0 && written == 112);
    expect("write", bytes[2] == 1 && bytes[3] == 2 && bytes[4] == 64 && bytes[7] == 2 && bytes[12] == 128 && bytes[15] == 4);
    expect("write", bytes[108] == 192 && bytes[111] == 27 && bytes[112] == 7);
    expect("read", sigvanyor_read(bytes, 113, read_counts, 2, read_payoffs, 8, &players) == SIGVANYOR_MISSING_WORD);
    expect("read", sigvanyor_read(bytes, 112, read_counts, 2, read_payoffs, 7, &players) == SIGVANYOR_OUTPUT_TOO_SHORT);
    bytes[111]++;
    expect("read", sigvanyor_read(bytes, 112, read_counts, 2, read_payoffs, 8, &players) == SIGVANYOR_WRONG_PAYLOAD);
    expect("read", players == 99 && read_counts[0] == 9 && read_payoffs[0] == -1);
    bytes[111]--;
    expect("read", sigvanyor_read(bytes, 112, read_counts, 3, read_payoffs, 9, &players) == 0 && players == 2);
    expect("read", read_counts[0] == 2 && read_counts[1] == 2 && read_counts[2] == 9 && read_payoffs[8] == -1);
    for (int i = 0; i < 8; i++)
        expect("read", read_payoffs[i] == payoffs[i]);
}

/* The game of `solvers`, the same with a tie, and the table of one player with 2 strategies. */
static void catalogue(void) {
    const size_t counts[] = {2, 2};
    const double payoffs[] = {2, 2, 0, 3, 3, 0, 1, 1}, tied[] = {2, 2, 0, 3, 3, 0, 1, 2};
    size_t number = 99;
    uint8_t listed = 200;

    expect("number", sigvanyor_number(counts, 2, payoffs, 7, &listed, &number) == SIGVANYOR_PAYOFF_COUNT);
    expect("number", listed == 200 && number == 99);
    expect("number", sigvanyor_number(counts, 2, payoffs, 8, &listed, &number) == 0 && listed == 1 && number == 71);
    expect("number", sigvanyor_number(counts, 0, payoffs, 8, &listed, &number) == SIGVANYOR_NO_PLAYERS && listed == 1 && number == 71);
    expect("number", sigvanyor_number(counts, 2, tied, 8, &listed, &number) == 0 && listed == 0 && number == 0);
    listed = 200;
    number = 99;
    expect("number", sigvanyor_number(counts, 1, payoffs, 2, &listed, &number) == 0 && listed == 0 && number == 0);
}

/* The sizes that are always room enough: where every profile is an equilibrium, where every strategy
 * is a best response, and where all but one are dominated. */
static void rooms(void) {
    enum { CELLS = SIGVANYOR_MAX_CELLS, STRATEGIES = SIGVANYOR_MAX_STRATEGIES };
    static double payoffs[CELLS], utilities[CELLS];
    static uint8_t bytes[CELLS];
    static size_t choices[CELLS], dominators[STRATEGIES];
    static sigvanyor_best_response responses[STRATEGIES];
    const size_t counts[] = {8, 8, 16, 16}, one[] = {STRATEGIES}, none[] = {0};
    size_t number = 0, total = 0;

    expect("MAX_CELLS", sigvanyor_equilibria(counts, 4, payoffs, CELLS, choices, CELLS, utilities, CELLS, &total, &number) == 0);
    expect("MAX_CELLS", total == CELLS / 4 && number == CELLS / 4);
    expect("MAX_CELLS", sigvanyor_best_response_marks(counts, 4, payoffs, CELLS, bytes, CELLS, &number) == 0 && number == CELLS);
    expect("MAX_STRATEGIES", sigvanyor_best_responses(one, 1, payoffs, STRATEGIES, 0, none, 0, choices, STRATEGIES,
                                                      utilities, STRATEGIES, &number) == 0 && number == STRATEGIES);
    expect("MAX_STRATEGIES", sigvanyor_best_response_records(one, 1, payoffs, STRATEGIES, 0, none, 0, responses, STRATEGIES,
                                                             &number) == 0 && number == STRATEGIES);
    payoffs[0] = 1;
    expect("MAX_STRATEGIES", sigvanyor_strictly_dominated_strategies(one, 1, payoffs, STRATEGIES, 0, choices, STRATEGIES,
                                                                     dominators, STRATEGIES, &number) == 0);
    expect("MAX_STRATEGIES", number == STRATEGIES - 1);
}

/* The refusals that no other trial here meets: a name is the archive's number. */
static void refusals(void) {
    const size_t counts[] = {2, 2}, none[] = {2, 0}, beyond[] = {0, 2};
    const double payoffs[] = {2, 2, 0, 3, 3, 0, 1, 1};
    size_t players, space[SIGVANYOR_MAX_PLAYERS], offset, strategies[2], number;
    double utilities[8];
    uint8_t bytes[116] = {0};

    expect("NO_STRATEGIES", sigvanyor_from_counts(none, 2, &players, space) == SIGVANYOR_NO_STRATEGIES);
    expect("INVALID_OPPONENT_STRATEGY",
           sigvanyor_best_responses(counts, 2, payoffs, 8, 0, &beyond[1], 1, strategies, 2, utilities, 2, &number) ==
               SIGVANYOR_INVALID_OPPONENT_STRATEGY);
    expect("INVALID_STRATEGY", sigvanyor_offset(counts, 2, payoffs, 8, beyond, 2, &offset) == SIGVANYOR_INVALID_STRATEGY);
    expect("write", sigvanyor_write(counts, 2, payoffs, 8, bytes, 116, &number) == 0 && number == 112);
    expect("TRAILING_WORD", sigvanyor_read(bytes, 116, space, 8, utilities, 8, &players) == SIGVANYOR_TRAILING_WORD);
    bytes[4] = 128;
    expect("WRONG_KIND", sigvanyor_read(bytes, 112, space, 8, utilities, 8, &players) == SIGVANYOR_WRONG_KIND);
}

int main(void) {
    const size_t counts[] = {2, 3, 4}, profile[] = {1, 2, 3};
    double payoffs[72], utility = -1;
    size_t players = 99, space[SIGVANYOR_MAX_PLAYERS] = {9, 9, 9, 9, 9, 9, 9, 9};
    size_t offset = 99, first = 99, number = 99, step[SIGVANYOR_MAX_PLAYERS] = {0, 2, 3, 7};
    for (int i = 0; i < 72; i++)
        payoffs[i] = i;

    expect("INTERFACE", sigvanyor_interface() == SIGVANYOR_INTERFACE);
    expect("utility_new", sigvanyor_utility_new(1.0 / 0.0, &utility) == SIGVANYOR_NON_FINITE_UTILITY && utility == -1);
    expect("utility_new", sigvanyor_utility_new(2.5, &utility) == 0 && utility == 2.5);
    expect("all_finite", sigvanyor_all_finite(payoffs, 72));
    expect("from_counts", sigvanyor_from_counts(counts, 0, &players, space) == SIGVANYOR_NO_PLAYERS);
    expect("from_counts", players == 99 && space[7] == 9);
    expect("from_counts", sigvanyor_from_counts(counts, 3, &players, space) == 0 && players == 3);
    expect("from_counts", space[0] == 2 && space[1] == 3 && space[2] == 4 && space[3] == 0 && space[7] == 0);
    players = 99;
    expect("payoff_matrix_new", sigvanyor_payoff_matrix_new(counts, 3, payoffs, 71, &players, space) == SIGVANYOR_PAYOFF_COUNT);
    expect("payoff_matrix_new", players == 99);
    expect("payoff_matrix_new", sigvanyor_payoff_matrix_new(counts, 3, payoffs, 72, &players, space) == 0 && players == 3);
    expect("offset", sigvanyor_offset(counts, 3, payoffs, 72, profile, 2, &offset) == SIGVANYOR_PROFILE_COUNT && offset == 99);
    expect("offset", sigvanyor_offset(counts, 3, payoffs, 72, profile, 3, &offset) == 0 && offset == 23);
    expect("payoff", sigvanyor_payoff(counts, 3, payoffs, 72, profile, 3, 3, &utility) == SIGVANYOR_INVALID_PLAYER);
    expect("payoff", utility == 2.5);
    expect("payoff", sigvanyor_payoff(counts, 3, payoffs, 72, profile, 3, 2, &utility) == 0 && utility == 71);
    expect("profile_payoffs", sigvanyor_profile_payoffs(counts, 3, payoffs, 72, profile, 3, &first, &number) == 0);
    expect("profile_payoffs", first == 69 && number == 3);
    expect("profile_payoffs", sigvanyor_profile_payoffs(counts, 3, payoffs, 72, profile, 2, &first, &number) == SIGVANYOR_PROFILE_COUNT);
    expect("profile_payoffs", first == 69 && number == 3);
    expect("advance_profile", sigvanyor_advance_profile(counts, 3, step));
    expect("advance_profile", step[0] == 1 && step[1] == 0 && step[2] == 0 && step[3] == 7);
    expect("advance_profile", !sigvanyor_advance_profile(counts, 0, step) && step[0] == 1 && step[3] == 7);
    solvers();
    listings();
    best_response_marks();
    strikes();
    candidates();
    deposits();
    catalogue();
    rooms();
    refusals();
    limits();
    if (!wrong)
        printf("header: every call answers as declared\n");
    return wrong;
}
