/* Sigvanyor: games in normal form. `tools/build exports` makes the archive to link with,
 * target/staticlib/libexports.a. It is for x86-64, where size_t has 64 bits.
 *
 * A table is two slices: `counts`, how many strategies each of the P players has, and `payoffs`, P
 * for each profile. P is the number of counts. Profiles stand in lexicographic order, the last
 * player's choice running fastest.
 *
 * A call that returns uint32_t, but for sigvanyor_interface, returns a status: 0, or the number of
 * a refusal, the first that applies in this order:
 *   SIGVANYOR_NO_PLAYERS                  1  no players
 *   SIGVANYOR_TOO_MANY_PLAYERS            2  more than SIGVANYOR_MAX_PLAYERS players
 *   SIGVANYOR_NO_STRATEGIES               3  a player has no strategies (3 and 4 player by player)
 *   SIGVANYOR_TOO_MANY_STRATEGIES         4  a player has more than SIGVANYOR_MAX_STRATEGIES
 *   SIGVANYOR_TOO_MANY_CELLS              5  profiles x P is more than SIGVANYOR_MAX_CELLS
 *   SIGVANYOR_PAYOFF_COUNT                6  the number of payoffs given is not profiles x P
 *   SIGVANYOR_NON_FINITE_UTILITY          7  a payoff is NaN or infinite
 *   SIGVANYOR_FOREIGN_SURVIVORS          16  foreign survivors, see below
 *   SIGVANYOR_INVALID_PLAYER              8  player not below P
 *   SIGVANYOR_OPPONENT_PROFILE_COUNT      9  the number of opponents' choices is not P - 1
 *   SIGVANYOR_INVALID_OPPONENT_STRATEGY  10  an opponent's choice is not below its player's count
 *   SIGVANYOR_PROFILE_COUNT              11  the number of choices is not P
 *   SIGVANYOR_INVALID_STRATEGY           12  a choice is not below its player's count
 *   SIGVANYOR_NO_SURVIVING_STRATEGY      14  a strategy is not below its player's count, or struck
 *   SIGVANYOR_NOT_DOMINATED              15  no survivor strictly dominates the strategy
 *   SIGVANYOR_OUTPUT_TOO_SHORT           13  an output is shorter than the result needs, or there
 *                                            are fewer marks than cells; listings of profiles
 *                                            write what fits instead
 * The reader of deposit files has an order of its own, see sigvanyor_read, and four more:
 *   SIGVANYOR_MISSING_WORD               17  the number of bytes is no multiple of 4, or a word
 *                                            that is due is absent
 *   SIGVANYOR_WRONG_KIND                 18  a word's kind is not the one due
 *   SIGVANYOR_WRONG_PAYLOAD              19  a word's payload is wrong
 *   SIGVANYOR_TRAILING_WORD              20  a word follows the closing one
 * Below, the refusals of the counts are SIGVANYOR_NO_PLAYERS to SIGVANYOR_TOO_MANY_CELLS, and those
 * of the table are SIGVANYOR_NO_PLAYERS to SIGVANYOR_NON_FINITE_UTILITY.
 *
 * Values come through the pointers at the end of a call's parameters; a strike also changes the
 * marks that it is given, and a step the profile. A refused call writes nothing. Where an output is
 * a slice, elements past those written keep their contents. Outputs hold values of their types on
 * entry, and any will do: for size_t, double, uint32_t and uint8_t all bytes are values. No output
 * is a bool. A uint8_t that says yes or no is written as 1 or 0.
 *
 * Survivors are what is left of a table's strategies: P and the table's counts, 0 from place P on,
 * and a byte for each mark, SIGVANYOR_MAX_STRATEGIES to a player. Strategy s of player p survives
 * where marks[p * SIGVANYOR_MAX_STRATEGIES + s] is not 0; 0 and 1 are written. Survivors are
 * foreign to a table where P or one of the eight counts is not the table's, a player of the table
 * has no mark, or a mark stands at or past its player's count, which from P on is 0. The table is
 * one value through all strikes on it: nobody writes it meanwhile.
 *
 * The candidate checks, the last three calls, are for two players. Tables and weights have m rows,
 * player 1's actions, and n columns, player 2's, 1 to SIGVANYOR_MAX_ACTIONS each, and are flat by
 * rows: row i and column j stand at i x n + j. What is malformed gets no status but the answer of a
 * candidate that fails.
 *
 * Any numbers and lengths may be handed in. A slice is a pointer and the number of its elements. A
 * pointer is aligned for its type, is not null, also where its slice is empty, and points to that
 * many elements, which nobody else writes during the call; an output overlaps nothing else. No call
 * keeps a pointer, allocates or has a state of its own, so any thread may call at any time.
 *
 * Floating point. The environment is C's default one: rounding to nearest, no trap, no flush to
 * zero, and denormals not taken as zero. A program linked with -ffast-math, or that loads a shared
 * library linked so, may have another one from its start. There 0.0 and 5e-324 are equal, and where
 * these are the payoffs of a single player's two strategies, both are listed as equilibria, and the
 * first is none.
 *
 * Flags. Given finite numbers, only the candidate checks raise any: inexact, underflow, overflow,
 * and, after an overflow, invalid. Given an infinity or a signalling NaN among the payoffs, a call
 * that gets to check it raises invalid and no other flag; a quiet NaN raises none. Given any of
 * these, a candidate check may raise invalid, and no other. sigvanyor_read raises none, whatever
 * its bytes say. No call clears a flag. The processor's own flag of a denormal operand, for which C
 * has no name, may be raised too.
 *
 * Stack. sigvanyor_equilibria and sigvanyor_surviving_equilibria take up to
 * SIGVANYOR_STACK_EQUILIBRIA bytes of stack for a table of more than 2,048 cells, and up to
 * SIGVANYOR_STACK for a smaller one; every other call takes up to SIGVANYOR_STACK. That includes
 * what the dynamic linker takes where the first call binds memset or memcpy. Both numbers are
 * measured and rounded up, not proved.
 */
#ifndef SIGVANYOR_H
#define SIGVANYOR_H

#include <stdbool.h>
#include <stddef.h>
#include <stdint.h>

#ifdef __cplusplus
extern "C" {
#endif

/* Enumerations, so that they are constants of C and of C++. */

/* The number of this interface. It goes up with each change of a C signature, of a limit or of the
 * bytes of stack below. A deposit file has an edition of its own. */
enum { SIGVANYOR_INTERFACE = 3 };

/* Limits. */
enum {
    SIGVANYOR_MAX_PLAYERS = 8,
    SIGVANYOR_MAX_STRATEGIES = 64,
    SIGVANYOR_MAX_CELLS = 65536,
    SIGVANYOR_MAX_MARKS = SIGVANYOR_MAX_PLAYERS * SIGVANYOR_MAX_STRATEGIES,
    SIGVANYOR_MAX_FILE = 4 * (2 + SIGVANYOR_MAX_PLAYERS + 3 * SIGVANYOR_MAX_CELLS),
    SIGVANYOR_MAX_ACTIONS = 64
};

/* Bytes of stack. */
enum {
    SIGVANYOR_STACK_EQUILIBRIA = 73728,
    SIGVANYOR_STACK = 8192
};

/* Refusals. */
enum {
    SIGVANYOR_NO_PLAYERS = 1,
    SIGVANYOR_TOO_MANY_PLAYERS = 2,
    SIGVANYOR_NO_STRATEGIES = 3,
    SIGVANYOR_TOO_MANY_STRATEGIES = 4,
    SIGVANYOR_TOO_MANY_CELLS = 5,
    SIGVANYOR_PAYOFF_COUNT = 6,
    SIGVANYOR_NON_FINITE_UTILITY = 7,
    SIGVANYOR_INVALID_PLAYER = 8,
    SIGVANYOR_OPPONENT_PROFILE_COUNT = 9,
    SIGVANYOR_INVALID_OPPONENT_STRATEGY = 10,
    SIGVANYOR_PROFILE_COUNT = 11,
    SIGVANYOR_INVALID_STRATEGY = 12,
    SIGVANYOR_OUTPUT_TOO_SHORT = 13,
    SIGVANYOR_NO_SURVIVING_STRATEGY = 14,
    SIGVANYOR_NOT_DOMINATED = 15,
    SIGVANYOR_FOREIGN_SURVIVORS = 16,
    SIGVANYOR_MISSING_WORD = 17,
    SIGVANYOR_WRONG_KIND = 18,
    SIGVANYOR_WRONG_PAYLOAD = 19,
    SIGVANYOR_TRAILING_WORD = 20
};

/* The archive's number. Where it is not SIGVANYOR_INTERFACE, this header is not the archive's, and
 * no other call may be made. */
uint32_t sigvanyor_interface(void);

/* A finite value, bits kept, into `utility`; or SIGVANYOR_NON_FINITE_UTILITY. */
uint32_t sigvanyor_utility_new(double value, double *utility);

/* Whether every value is finite. */
bool sigvanyor_all_finite(const double *values, size_t values_len);

/* P into `players`, and the counts into `space_counts`, 0 from place P on; or a refusal of the
 * counts. */
uint32_t sigvanyor_from_counts(const size_t *counts, size_t counts_len, size_t *players,
                               size_t space_counts[SIGVANYOR_MAX_PLAYERS]);

/* The same for a table; or a refusal of the table. */
uint32_t sigvanyor_payoff_matrix_new(const size_t *counts, size_t counts_len, const double *payoffs, size_t payoffs_len,
                                     size_t *players, size_t space_counts[SIGVANYOR_MAX_PLAYERS]);

/* The place of a profile among the profiles, from 0, into `offset`; or a refusal of the table,
 * SIGVANYOR_PROFILE_COUNT or SIGVANYOR_INVALID_STRATEGY. */
uint32_t sigvanyor_offset(const size_t *counts, size_t counts_len, const double *payoffs, size_t payoffs_len,
                          const size_t *profile, size_t profile_len, size_t *offset);

/* The player's payoff at a profile, bits kept, into `utility`; or a refusal of the table,
 * SIGVANYOR_INVALID_PLAYER, SIGVANYOR_PROFILE_COUNT or SIGVANYOR_INVALID_STRATEGY. */
uint32_t sigvanyor_payoff(const size_t *counts, size_t counts_len, const double *payoffs, size_t payoffs_len,
                          const size_t *profile, size_t profile_len, size_t player, double *utility);

/* The payoffs of one profile, as the part payoffs[first] to payoffs[first + number - 1] of the
 * caller's table; or a refusal of the table, SIGVANYOR_PROFILE_COUNT or SIGVANYOR_INVALID_STRATEGY.
 * Where it refuses, the part is empty: the status alone says so, `first` and `number` keep their
 * contents, and a part that is given has at least one payoff. */
uint32_t sigvanyor_profile_payoffs(const size_t *counts, size_t counts_len, const double *payoffs, size_t payoffs_len,
                                   const size_t *profile, size_t profile_len, size_t *first, size_t *number);

/* Steps `profile` to the next profile and returns true; from the last profile to the first, and
 * returns false. Any counts and choices may come: a choice that is the last one, at its count or
 * past it, up to SIZE_MAX, goes to 0 and the player before it goes up; false where no choice could
 * go up. All SIGVANYOR_MAX_PLAYERS places of `profile` are read and written, whatever counts_len
 * is; places past the players keep their contents, and counts past the last place are not read. */
bool sigvanyor_advance_profile(const size_t *counts, size_t counts_len, size_t profile[SIGVANYOR_MAX_PLAYERS]);

/* The player's best responses to the opponents' choices (player order, own place skipped),
 * ascending, into `strategies`, the payoff of each, bits kept, into `utilities`, and how many they
 * are into `number`; or a refusal of the table, SIGVANYOR_INVALID_PLAYER,
 * SIGVANYOR_OPPONENT_PROFILE_COUNT, SIGVANYOR_INVALID_OPPONENT_STRATEGY or
 * SIGVANYOR_OUTPUT_TOO_SHORT. There is at least one, and at most the player's count:
 * SIGVANYOR_MAX_STRATEGIES elements are always room enough. */
uint32_t sigvanyor_best_responses(const size_t *counts, size_t counts_len, const double *payoffs, size_t payoffs_len,
                                  size_t player, const size_t *opponents, size_t opponents_len,
                                  size_t *strategies, size_t strategies_len, double *utilities, size_t utilities_len,
                                  size_t *number);

/* A best response and its payoff. */
typedef struct {
    size_t strategy;
    double utility;
} sigvanyor_best_response;

/* As sigvanyor_best_responses, with a record for each best response, the payoff's bits kept, into
 * `responses`, and how many they are into `number`; or one of the same refusals.
 * SIGVANYOR_MAX_STRATEGIES records are always room enough. */
uint32_t sigvanyor_best_response_records(const size_t *counts, size_t counts_len, const double *payoffs, size_t payoffs_len,
                                         size_t player, const size_t *opponents, size_t opponents_len,
                                         sigvanyor_best_response *responses, size_t responses_len, size_t *number);

/* Whether a profile is an equilibrium, where no player's change of only its own choice gives that
 * player a greater payoff, into `equilibrium`, as 1 or 0; or a refusal of the table,
 * SIGVANYOR_PROFILE_COUNT or SIGVANYOR_INVALID_STRATEGY. */
uint32_t sigvanyor_is_equilibrium(const size_t *counts, size_t counts_len, const double *payoffs, size_t payoffs_len,
                                  const size_t *profile, size_t profile_len, uint8_t *equilibrium);

/* Each equilibrium once, in profile order: its P choices into `choices`, its P payoffs, bits kept,
 * into `utilities`, as many from the first on as both outputs hold whole; how many equilibria there
 * are into `total`, and how many are written into `written`; or a refusal of the table, and all
 * four keep their contents. An equilibrium that only one output has room for is written into
 * neither. There are at most as many as profiles: choices_len and utilities_len of profiles x P are
 * always room enough for all, and so are SIGVANYOR_MAX_CELLS. With two empty outputs, whose
 * pointers are not null either, the call counts the equilibria. */
uint32_t sigvanyor_equilibria(const size_t *counts, size_t counts_len, const double *payoffs, size_t payoffs_len,
                              size_t *choices, size_t choices_len, double *utilities, size_t utilities_len,
                              size_t *total, size_t *written);

/* All best responses in one sweep. For each cell a byte into `marks`, where the cell stands, at
 * offset x P + player: 1 where the profile's choice is a best response of that player, and else 0.
 * How many are 1 into `number`: at least the sum, over the players, of profiles divided by that
 * player's count, since each player has a best response whatever the others choose. Bytes past the
 * cells keep their contents. Or a refusal of the table, or SIGVANYOR_OUTPUT_TOO_SHORT where
 * marks_len is less than the number of cells, and then nothing is written. SIGVANYOR_MAX_CELLS
 * bytes are always room enough. */
uint32_t sigvanyor_best_response_marks(const size_t *counts, size_t counts_len, const double *payoffs, size_t payoffs_len,
                                       uint8_t *marks, size_t marks_len, size_t *number);

/* As sigvanyor_equilibria, of the profiles that have no 0 among their P marks: any other byte is a
 * mark, and bytes past the cells are not read. On the marks of sigvanyor_best_response_marks these
 * are the equilibria. Or a refusal of the table, or SIGVANYOR_OUTPUT_TOO_SHORT where marks_len is
 * less than the number of cells; whether the marks are those of this table is not asked. */
uint32_t sigvanyor_marked_profiles(const size_t *counts, size_t counts_len, const double *payoffs, size_t payoffs_len,
                                   const uint8_t *marks, size_t marks_len, size_t *choices, size_t choices_len,
                                   double *utilities, size_t utilities_len, size_t *total, size_t *written);

/* The player's strategies that another of its strategies strictly dominates, ascending, into
 * `dominated`, the lowest dominator of each into `dominators`, and how many they are into `number`;
 * or a refusal of the table, SIGVANYOR_INVALID_PLAYER or SIGVANYOR_OUTPUT_TOO_SHORT.
 * SIGVANYOR_MAX_STRATEGIES elements are always room enough. */
uint32_t sigvanyor_strictly_dominated_strategies(const size_t *counts, size_t counts_len, const double *payoffs, size_t payoffs_len,
                                                 size_t player, size_t *dominated, size_t dominated_len,
                                                 size_t *dominators, size_t dominators_len, size_t *number);

/* A place to keep survivors. The calls below take its members one by one. */
typedef struct {
    size_t players;
    size_t counts[SIGVANYOR_MAX_PLAYERS];
    uint8_t marks[SIGVANYOR_MAX_MARKS];
} sigvanyor_survivors;

/* The table's fresh survivors, every strategy marked, into the last three; or a refusal of the
 * table. */
uint32_t sigvanyor_fresh(const size_t *counts, size_t counts_len, const double *payoffs, size_t payoffs_len,
                         size_t *survivors_players, size_t survivors_counts[SIGVANYOR_MAX_PLAYERS],
                         uint8_t survivors_marks[SIGVANYOR_MAX_MARKS]);

/* Strikes the player's strategy: where it survives and a surviving strategy of the player strictly
 * dominates it against all surviving choices of the others, its mark is taken from
 * `survivors_marks`, which are all written again as 0 or 1, and the lowest such dominator goes into
 * `dominator`; or a refusal of the table, SIGVANYOR_FOREIGN_SURVIVORS, SIGVANYOR_INVALID_PLAYER,
 * SIGVANYOR_NO_SURVIVING_STRATEGY or SIGVANYOR_NOT_DOMINATED, and the marks stay. */
uint32_t sigvanyor_strike(const size_t *counts, size_t counts_len, const double *payoffs, size_t payoffs_len,
                          size_t survivors_players, const size_t survivors_counts[SIGVANYOR_MAX_PLAYERS],
                          uint8_t survivors_marks[SIGVANYOR_MAX_MARKS], size_t player, size_t strategy, size_t *dominator);

/* As sigvanyor_equilibria, in profiles of survivors and with changes to survivors only; or a
 * refusal of the table or SIGVANYOR_FOREIGN_SURVIVORS. The same sizes are always room enough for
 * all. After any strikes from fresh survivors the two calls tell the same `total`, whatever the
 * lengths of their outputs; if these are equal or hold all, they also write the same. */
uint32_t sigvanyor_surviving_equilibria(const size_t *counts, size_t counts_len, const double *payoffs, size_t payoffs_len,
                                        size_t survivors_players, const size_t survivors_counts[SIGVANYOR_MAX_PLAYERS],
                                        const uint8_t survivors_marks[SIGVANYOR_MAX_MARKS],
                                        size_t *choices, size_t choices_len, double *utilities, size_t utilities_len,
                                        size_t *total, size_t *written);

/* A list of strikes from the table's fresh survivors, each on what the last one left. The i-th
 * names players[i] and strategies[i]. Its answer, 0 or SIGVANYOR_INVALID_PLAYER,
 * SIGVANYOR_NO_SURVIVING_STRATEGY or SIGVANYOR_NOT_DOMINATED, goes into answers[i], and its
 * dominator, 0 where it is refused, into dominators[i]; how many were accepted into `number`, and
 * what is left into the last three; or a refusal of the table or SIGVANYOR_OUTPUT_TOO_SHORT. Of
 * unequal lists the shorter length counts, and answers_len and dominators_len of that length are
 * always room enough. */
uint32_t sigvanyor_strikes(const size_t *counts, size_t counts_len, const double *payoffs, size_t payoffs_len,
                           const size_t *players, size_t players_len, const size_t *strategies, size_t strategies_len,
                           uint32_t *answers, size_t answers_len, size_t *dominators, size_t dominators_len, size_t *number,
                           size_t *survivors_players, size_t survivors_counts[SIGVANYOR_MAX_PLAYERS],
                           uint8_t survivors_marks[SIGVANYOR_MAX_MARKS]);

/* A deposit file: a table as big-endian 32-bit words. The top 2 bits of a word are its kind, the
 * other 30 its payload. Kind 0 opens the file: 256 + P, where 256 stands for edition 1. Kind 1, one
 * for each player: its count. Kind 2, three for each payoff in order: its bits' top 4, next 30 and
 * last 30. Kind 3 closes it: the number of words before it. So a file has 4 x (2 + P + 3 x profiles
 * x P) bytes, at most SIGVANYOR_MAX_FILE. What sigvanyor_write writes, sigvanyor_read gives back,
 * bits and all, and the other way round. */

/* Reads a deposit file: its counts into `counts`, its payoffs into `payoffs`, and P into `players`;
 * or the first fault from left to right, and nothing is written. First the number of bytes:
 * SIGVANYOR_MISSING_WORD. Then, word by word: SIGVANYOR_MISSING_WORD where it is absent,
 * SIGVANYOR_WRONG_KIND where it has another kind, then its payload. The opening one:
 * SIGVANYOR_WRONG_PAYLOAD where it is not 256 to 511, then SIGVANYOR_NO_PLAYERS or
 * SIGVANYOR_TOO_MANY_PLAYERS for its P. A count: SIGVANYOR_NO_STRATEGIES or
 * SIGVANYOR_TOO_MANY_STRATEGIES. After the counts: SIGVANYOR_TOO_MANY_CELLS, then
 * SIGVANYOR_OUTPUT_TOO_SHORT where counts_len is below P or payoffs_len below profiles x P. A
 * payoff's first part over 15: SIGVANYOR_WRONG_PAYLOAD; after its third part, a NaN or an infinity:
 * SIGVANYOR_NON_FINITE_UTILITY. A wrong closing number: SIGVANYOR_WRONG_PAYLOAD; a word after it:
 * SIGVANYOR_TRAILING_WORD. SIGVANYOR_MAX_PLAYERS counts and SIGVANYOR_MAX_CELLS payoffs are always
 * room enough. */
uint32_t sigvanyor_read(const uint8_t *bytes, size_t bytes_len, size_t *counts, size_t counts_len, double *payoffs, size_t payoffs_len,
                        size_t *players);

/* Writes the table's deposit file into `bytes`, and the number of its bytes into `number`; or a
 * refusal of the table or SIGVANYOR_OUTPUT_TOO_SHORT. SIGVANYOR_MAX_FILE bytes are always room
 * enough. */
uint32_t sigvanyor_write(const size_t *counts, size_t counts_len, const double *payoffs, size_t payoffs_len,
                         uint8_t *bytes, size_t bytes_len, size_t *number);

/* A table's number in the catalogue, 0 to 143: whether it has one into `listed`, as 1 or 0, and the
 * number, 0 where it has none, into `number`; or a refusal of the table. A table has one where
 * there are two players with 2 strategies each, and no two of a player's four payoffs are equal, as
 * 0.0 and -0.0 are. Its key is eight base-4 digits, the first one highest: the ranks, 0 to 3 from
 * the least, of player 0's payoffs at the four profiles in order, then player 1's. The least key of
 * the four tables got by swapping rows, columns or both is one of 144, and the number is its place
 * among these, ascending. */
uint32_t sigvanyor_number(const size_t *counts, size_t counts_len, const double *payoffs, size_t payoffs_len,
                          uint8_t *listed, size_t *number);

/* The most that a player gains by another action in place of one, under the weights that someone
 * claims to be a correlated equilibrium: for each two rows i and k the sum, from 0.0 and over the
 * columns ascending, of weights(i,j) x (u1(k,j) - u1(i,j)), each operation rounded; for two columns
 * likewise, over the rows ascending, with u2. +0.0 where no gain is above 0. Infinity where a gain
 * is not finite, m or n is 0 or over SIGVANYOR_MAX_ACTIONS, a length is not m x n, a number is not
 * finite, or a weight is below 0.
 * It is exact where the payoffs are whole numbers from -2^20 to 2^20 and the weights whole
 * multiples of 1/65536 from 0 to 1: 65536 times the answer is the greatest of the same sums taken
 * in whole numbers, with 65536 times the weights, or 0 where none is above 0; and where the answer
 * is 0, no row has weight that another row strictly dominates for player 1, and no column that
 * another column strictly dominates for player 2. The weights need not add up to 1. */
double sigvanyor_verify_correlated_equilibrium_incentives(size_t m, size_t n, const double *u1, size_t u1_len,
                                                          const double *u2, size_t u2_len,
                                                          const double *weights, size_t weights_len);

/* Whether the tolerance is finite and not below 0, and the answer of the call above is not over
 * it. */
bool sigvanyor_verdict(size_t m, size_t n, const double *u1, size_t u1_len, const double *u2, size_t u2_len,
                       const double *weights, size_t weights_len, double tolerance);

/* What a minimax candidate claims: the value of the game to player 1, and how far from right it may
 * be. */
typedef struct {
    double value;
    double tolerance;
} sigvanyor_claim;

/* Whether p1 and p2 are minimax strategies of player 1's payoffs, up to the tolerance: no entry is
 * below -tolerance; each vector's sum, left to right, less 1.0, is no further from 0 than the
 * tolerance; no column's expectation under p1 is below value - tolerance, and no row's under p2
 * above value + tolerance. Expectations start at 0.0, indices ascending. Each operation is rounded,
 * so that value - tolerance and value + tolerance may be infinite. No where an expectation is not
 * finite, m or n is 0 or over SIGVANYOR_MAX_ACTIONS, a length is not m x n, m or n, a number is not
 * finite, or the tolerance is below 0. */
bool sigvanyor_verify_minimax_residuals(size_t m, size_t n, const double *payoffs, size_t payoffs_len,
                                        const double *p1, size_t p1_len, const double *p2, size_t p2_len,
                                        sigvanyor_claim claim);

#ifdef __cplusplus
}
#endif

#endif
