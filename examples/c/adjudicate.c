/*
 * Adjudicates a game that was left open: reads a record, 42 hexadecimal digits, searches it and says in words what best
 * play gives. Without an argument it takes a position that X wins at once.
 */
#include "ultimattt.h"

#include <stdio.h>
#include <stdlib.h>
#include <string.h>

#define NODES 1000000 /* a pool of 20 MB */
#define BUDGET 1000000
#define INTERVAL 10000

static const char *const causes[] = {
    [UTTT_SOLVED] = "solved",
    [UTTT_BUDGET_SPENT] = "the budget of expansions was spent",
    [UTTT_POOL_SHORT] = "the pool was too small",
    [UTTT_OVER_LIMIT] = "there were more live nodes than the limit",
};

/* The refusals that a full verdict can have. */
static const char *const refusals[] = {
    [UTTT_RECORD_LENGTH] = "the record is not 21 bytes long",
    [UTTT_RECORD_BITS] = "the record has a cell of code 3, a target of 9 to 14, or a last bit of 1",
    [UTTT_CELL_COUNTS] = "the numbers of X's and O's cells don't go with the side to move",
    [UTTT_BOARD_WON_TWICE] = "a board has a line of X and a line of O",
    [UTTT_GAME_WON_WRONGLY] = "both sides have a line of boards, or the side to move has one",
    [UTTT_TARGET_DONE] = "the target is a board that is won or drawn",
    [UTTT_POOL_EMPTY] = "the pool has no room for a node",
    [UTTT_POOL_TOO_LARGE] = "the pool has more than 16,777,216 nodes",
    [UTTT_SETTING_RANGE] = "the interval or the budget is out of its range",
    [UTTT_MARGIN] = "the margin is not a whole multiple of 1/256 from 0 to 1",
    [UTTT_IMPOSSIBLE_CHOICE] = "free choice, though no board is done",
};

/* Reads the digits into 21 bytes; 0 if they are not 42 hexadecimal digits. */
static int read_record(const char *digits, uint8_t *record) {
    const size_t length = 2 * UTTT_RECORD_BYTES;
    if (strlen(digits) != length || strspn(digits, "0123456789abcdefABCDEF") != length)
        return 0;
    for (int i = 0; i < UTTT_RECORD_BYTES; i++) {
        const char pair[3] = {digits[2 * i], digits[2 * i + 1], 0};
        record[i] = (uint8_t)strtoul(pair, NULL, 16);
    }
    return 1;
}

/* What the verdict means to an arbiter and, where something is undecided, why. */
static void print_verdict(const struct uttt_full_answer *answer, char mover, char other) {
    const char *no_win = causes[answer->first.cause], *no_draw = causes[answer->second.cause];
    printf("%c to move: ", mover);
    switch (answer->verdict) {
    case UTTT_FULL_WIN:
        printf("%c can force a win.\n", mover);
        break;
    case UTTT_FULL_LOSS:
        printf("%c can force a win.\n", other);
        break;
    case UTTT_FULL_DRAW:
        printf("a draw. Neither side can force a win.\n");
        break;
    case UTTT_FULL_AT_LEAST_DRAW:
        printf("%c can force at least a draw. Whether %c can win is undecided: %s.\n", mover, mover, no_win);
        break;
    case UTTT_FULL_AT_MOST_DRAW:
        printf("%c can't force a win. Whether %c can hold a draw is undecided: %s.\n", mover, mover, no_draw);
        break;
    default:
        printf("undecided. Whether %c can win: %s. ", mover, no_win);
        printf("Whether %c can hold a draw: %s.\n", mover, no_draw);
    }
}

int main(int count, char **words) {
    const char *digits = count > 1 ? words[1] : "12A000A80028051500054000000000000000000000";
    uint8_t record[UTTT_RECORD_BYTES];
    if (!read_record(digits, record)) {
        fprintf(stderr, "adjudicate: a record is 42 hexadecimal digits, this is not: %s\n", digits);
        return 2;
    }
    const size_t pool_words = (size_t)NODES * UTTT_NODE_WORDS;
    uint32_t *pool = malloc(pool_words * sizeof *pool);
    if (pool == NULL) {
        fprintf(stderr, "adjudicate: no memory for a pool of %d nodes\n", NODES);
        return 2;
    }
    const struct uttt_full_answer answer =
        uttt_full_verdict(record, sizeof record, pool, pool_words, UINT64_MAX, BUDGET, INTERVAL, false, 0.0);
    free(pool);
    if (answer.code != UTTT_OK) {
        fprintf(stderr, "adjudicate: refused: %s\n", refusals[answer.code]);
        return 1;
    }
    const int o_moves = record[0] >> 7;
    print_verdict(&answer, o_moves ? 'O' : 'X', o_moves ? 'X' : 'O');
    return 0;
}
