/*
 * libultimattt: adjudication of Ultimate Tic Tac Toe by proof-number search. For C99 and C++ on x86-64 with the System
 * V calling convention; the archive needs nothing but a C library.
 *
 * Buffers. A buffer is a pointer and a length: bytes for records, moves, outputs and books, 32-bit words for a pool.
 * Shares are eight 64-bit numbers always, so no length comes with them. All buffers are the caller's: the library
 * allocates nothing, frees nothing and keeps no pointer after a call. One that is written (output, pool, the book of an
 * add or a publish) may not overlap another buffer of the same call; records, moves and shares are only read, and two
 * lists of moves may be the same memory. What an output or a pool held before decides nothing: neither need be cleared.
 * A pool is aligned as uint32_t is, shares as uint64_t is.
 *
 * Length 0. The pointer is not followed and may be null. A record of length 0 is refused with 1, the records of no game
 * with 20, an output with 7, a pool with 8; no moves is a list like any other, and a book of no bytes is one of no
 * entries. A null pointer with another length is the caller's error, and so is one for shares.
 *
 * Answers. Read code first. It is 0 (UTTT_OK), or the number of the first check that refuses, in the order in which the
 * call checks (the table below the codes). With a refusal no byte of any buffer is written and every other field is 0
 * but two: index, and the count of an add, which is then the one that came in. So verdict, cause and published mean
 * nothing with a refusal. index is the place, from 0, of the bad move with codes 11 to 15, of the game whose record is
 * refused with codes 2 to 6 and 22 of uttt_judge_games, and 0 elsewhere.
 *
 * uttt_agreed_opening returns a length and no struct: its code goes to the uint32_t that the caller lends as number.
 * That is no buffer but the call's answer: it is written always, with a refusal too, and never read. The pointer may
 * not be null, is aligned as uint32_t is, and may not point into a buffer of the call.
 *
 * Threads. The library has no variables: a call reads and writes what it is lent and its own stack alone. Threads may
 * call at once if nothing that one of them writes is used by another: no lookup while an add or a publish of the same
 * book runs.
 *
 * Time and stack. No call can be interrupted; the budget bounds a search, the allowance those of several games, the
 * referee takes small endings only, and a lookup, an add or a publish goes through the used entries of its book one
 * after the other. A simulation can take long: up to 1,000 games of up to 81 turns, up to 81 searches a turn, and each
 * search up to the mover's budget. Where it was measured, uttt_judge_games used less than 88 KiB of stack, for one game
 * as for eight and with a refusal too, and each other call less than 12 KiB, some 3 KiB of which the dynamic linker
 * took to look up functions of the C library at the first search; pool, budget and allowance make no difference to
 * that.
 *
 * Proofs. docs/PROMISES.md says what is proved of each call, for every record, move list, pool, book, seed and setting.
 * Of a C caller the proofs assume that every pointer is valid for its length (number for one uint32_t, shares for eight
 * uint64_t) and aligned, that nothing that is written overlaps anything else of the call, and that a bool is false or
 * true. What stands above about threads, time and stack was measured or read off the archive, not proved.
 */
#ifndef ULTIMATTT_H
#define ULTIMATTT_H

#include <stdbool.h>
#include <stddef.h>
#include <stdint.h>

#ifdef __cplusplus
extern "C" {
#endif

/*
 * A record is 21 bytes, bits most significant first: one bit of side to move (0 X, 1 O); four bits of target (0 to 8 a
 * board, 15 free choice); 81 cells of two bits, board 0 cell 0 first (0 empty, 1 X, 2 O); one zero bit. Boards and
 * cells are numbered 0 to 8, row by row. The empty game is 0x78 and twenty zero bytes.
 *
 * A move is one byte: board in the high four bits, cell in the low four.
 */
#define UTTT_RECORD_BYTES 21
/* An output for legal moves has room for so many, whatever the position. */
#define UTTT_MOVES_BYTES 81

/* code, and the number of uttt_agreed_opening: UTTT_OK or why a call was refused. */
enum uttt_code {
    UTTT_OK = 0,
    UTTT_RECORD_LENGTH = 1,      /* the record is not 21 bytes long; games: the records' length is no multiple of 21 */
    UTTT_RECORD_BITS = 2,        /* a cell of code 3, a target of 9 to 14, or a last bit of 1 */
    UTTT_CELL_COUNTS = 3,        /* as many X as O cells and O to move, or one X more and X to move, or another count */
    UTTT_BOARD_WON_TWICE = 4,    /* a board with lines of both sides */
    UTTT_GAME_WON_WRONGLY = 5,   /* both sides have a line of boards, or the side to move has one */
    UTTT_TARGET_DONE = 6,        /* the target is a won or drawn board */
    UTTT_OUTPUT_SHORT = 7,       /* output below 21 bytes (replay, agreed opening) or below 81 (legal moves) */
    UTTT_POOL_EMPTY = 8,         /* the pool has less than one node; games: less than one for each */
    UTTT_POOL_TOO_LARGE = 9,     /* the pool has more than 16,777,216 nodes */
    UTTT_SETTING_RANGE = 10,     /* the rule, the interval, a budget, a share or the allowance is out of its range */
    UTTT_OUT_OF_BOUNDS = 11,     /* a move's board or cell is not 0 to 8 */
    UTTT_GAME_OVER = 12,         /* a move after the game's end */
    UTTT_WON_BOARD = 13,         /* a move on a won or drawn board */
    UTTT_WRONG_BOARD = 14,       /* a move on another board than the target */
    UTTT_NOT_EMPTY = 15,         /* a move on a cell that is taken */
    UTTT_TOO_MANY_EMPTY = 16,    /* referee: over nine empty cells in boards in play */
    UTTT_BOOK_SIZE = 17,         /* the book's length is no multiple of 22, or the count is above its entries */
    UTTT_BOOK_FULL = 18,         /* add: every entry of the book is used, and none holds the pair */
    UTTT_TRAINER_WRITES = 19,    /* add, publish: the caller is a trainer, who may only look up; ahead of all others */
    UTTT_GAMES_OR_SHARES = 20,   /* games: there is none, or over eight; or their shares sum above the allowance */
    UTTT_MARGIN = 21,            /* the margin is not a whole multiple of 1/256 from 0 to 1 */
    UTTT_IMPOSSIBLE_CHOICE = 22, /* free choice, though a cell is taken and no board is done */
    UTTT_GAMES_NUMBER = 23       /* simulate: the number of games is not 1 to 1,000 */
};

/*
 * The order in which each call checks. It is answered by the first check that refuses.
 *
 *   replay           1 to 6, 22, 7, then 11 to 15 of each move in turn
 *   legal moves      1 to 6, 22, 7
 *   referee          1 to 6, 22, 10 (rule), 16
 *   agreed opening   7
 *   search           1 to 6, 22, 8, 9, 10, 21
 *   full verdict     1 to 6, 22, 8, 9, 10 (interval and budget), 21
 *   games            1, 20 (number), 2 to 6 and 22 of the records, 8 (a part), 9 (whole pool), 10, 21, 20 (shares)
 *   simulate         1 to 6, 22, 8, 9, 10 (interval and both budgets), 21, 23
 *   lookup           1 to 6, 22, 10 (rule), 17
 *   add              19, 1 to 6, 22, 8, 9, 10, 21, 17, 18
 *   publish          19, 1 to 6, 22, 10 (rule), 17
 *
 * Games checks every record, in their order, for 2 before it checks any for 3, and so on to 6 and 22.
 */

/*
 * Draw rules: what a drawn game counts as. True and False are for the side to move in the record. Under rule 1 True is
 * "it can force a win"; under rule 2 True is "it can force at least a draw". Rule 0 is the original program's: a drawn
 * position is lost by whoever is to move in it. It answers neither question.
 */
enum uttt_rule {
    UTTT_DRAW_LOST_BY_MOVER = 0,
    UTTT_DRAW_FALSE = 1,
    UTTT_DRAW_TRUE = 2
};

/* verdict of a search, of a lookup and of an add, value of the referee. */
enum uttt_verdict {
    UTTT_UNKNOWN = 0,
    UTTT_NOT_HELD = 0, /* the 0 of a lookup */
    UTTT_TRUE = 1,
    UTTT_FALSE = 2
};

/* verdict of uttt_full_verdict, for the side to move. */
enum uttt_full {
    UTTT_FULL_UNKNOWN = 0,
    UTTT_FULL_WIN = 1,
    UTTT_FULL_LOSS = 2,
    UTTT_FULL_DRAW = 3,
    UTTT_FULL_AT_LEAST_DRAW = 4,
    UTTT_FULL_AT_MOST_DRAW = 5
};

/*
 * cause: why a search ended. An expansion makes a child for each legal move, in their order, and takes a node for each;
 * it ends after the first child in which the game is over with the value that the side that moved wants.
 */
enum uttt_cause {
    UTTT_SOLVED = 0,
    UTTT_BUDGET_SPENT = 1,  /* as many expansions as the budget allows */
    UTTT_POOL_SHORT = 2,    /* fewer free nodes in the pool than the next expansion would take */
    UTTT_OVER_LIMIT = 3     /* more live nodes than the limit, seen on an interval-th expansion */
};

/*
 * A pool is words of 32 bits, five a node, so 20 bytes: 3,276 nodes are 65,520 bytes; the most, 16,777,216 nodes, are
 * 335,544,320 bytes (320 MiB). Its length is given in words. Up to four words past the last whole node are left alone,
 * and with games the nodes past the last part too; after a call that searched the others hold junk.
 */
#define UTTT_NODE_WORDS 5
#define UTTT_POOL_MOST 16777216

/*
 * Ranges: budgets, shares, allowance 0 to the most; interval 1 to the most; limit any number, UINT64_MAX for none. A
 * search that its budget stops is Unknown, with the largest too. A seed is any number.
 */
#define UTTT_BUDGET_MOST UINT64_C(3000000)
#define UTTT_INTERVAL_MOST 1000000

/*
 * Staying on a line. The calls that search end with the parameters staying and margin. At each position a search looks
 * into the reply that needs the least to be settled. In long endings two replies are often nearly level: it looks a
 * little into one, then the other needs less, then the first again, and so on. With staying true it goes on with the
 * reply that it took last at that position as long as this one is nearly as good: it is unsettled, and what it needs is
 * at most 1 + margin times the least. The larger the margin, the longer it stays. Some endings are solved with fewer
 * expansions so, others with more.
 *
 * The margin is 0 to 1 and a whole multiple of 1/256: 0.0, 0.25, 0.5 and 1.0 are, 0.1 is not. Any other is refused with
 * UTTT_MARGIN, NaN too. -0.0 counts as 0.0. Margin 0.0 is not the same as staying false: of replies that are level the
 * one taken last is taken again, where staying false takes the one listed first. With staying false the margin is not
 * read: it may be anything, NaN too.
 *
 * A True or False is the position's value whatever staying and margin are. How far a search comes with its pool, limit
 * and budget can depend on them, and so can all other fields of a result and the report of a simulation. A search that
 * answered True or False gives the same result, in every field, with no less pool, limit and budget, if interval,
 * staying and margin are the same; with others it may be Unknown or have other numbers.
 */

/* So many games are judged together at most, and so many shares there are always. */
#define UTTT_GAMES_MOST 8

/* A simulation has so many games at most, and at least one. */
#define UTTT_SIMULATED_MOST 1000

/*
 * A book keeps verdicts. It is entries of 22 bytes and a count: so many of them, from the front on, are used. The
 * caller keeps the count. Entries past it are never read, so whatever the bytes are, with count 0 the book is empty. An
 * entry is a record's 21 bytes and one byte more, bits most significant first: two of rule, two of verdict (1 True, 2
 * False), three that are stored as zeros and not looked at, and the published mark, stored as 0 and set by a publish.
 *
 * A record and a rule are a pair. A used entry holds it if it has both, and verdict 1 or 2. In a book that was empty
 * and that adds and publishes alone have written, a verdict is the position's value under the rule. Whether one from
 * elsewhere is true is not checked. An entry whose record is refused stays in its place and counts as used.
 *
 * Who is calling. The calls of a book begin with trainer: false for an arbiter, true for a trainer. The library can't
 * check that. An arbiter looks up, adds and publishes, and reads the first entry that holds the pair,
 * published or not. A trainer may only look up, and reads the first that holds the pair and is published. In a book
 * that did not begin empty these may be two entries, and may contradict each other.
 *
 * What a trainer learns. By calls, of published entries only: two books that pass check 17 and have the same published
 * entries with verdict 1 or 2 (record, rule and verdict, in the same order) answer every lookup of a trainer alike, and
 * add and publish tell a trainer nothing but 19. Two things are not promised. One is time: a lookup goes through the
 * used entries, unpublished ones too, up to the one that answers, and takes longer over one that has the record asked
 * for; so how long it takes can tell how many entries there are, and that an unpublished one has that record. The other
 * is memory: the promise is about calls, and whoever has the buffer can read the unpublished entries in it. So give
 * trainers the calls, by a program that keeps buffer and count, and not the buffer.
 */
#define UTTT_ENTRY_BYTES 22

/* A proof or disproof number from here upward stands for infinity. */
#define UTTT_INFINITY UINT32_C(2147483648)

/*
 * What the two numbers of a result mean. If the verdict is UTTT_UNKNOWN, the search has come to positions, after some
 * moves, that it had not looked into when it ended. proof 3: some three of these undecided positions, all turning out
 * True, would settle it as True; no two would. disproof 3: some three, all turning out False, would settle it as
 * False; no two would. True and False are said for the side to move in the record, of these positions too, whoever is
 * to move there. A position that two orders of moves lead to counts each time. Both numbers are then from 1 to
 * 16,777,215. They say how many positions would have to turn out so, and nothing of how likely it is that they do. If
 * the verdict is UTTT_TRUE or UTTT_FALSE, its own number is 0, and the other is at least UTTT_INFINITY and counts
 * nothing.
 */

struct uttt_replay_answer {
    uint32_t code;
    uint64_t index;
};

struct uttt_moves_answer {
    uint32_t code;
    uint64_t index;
    uint64_t count; /* how many moves were written */
};

struct uttt_referee_answer {
    uint32_t code;
    uint64_t index;
    uint32_t value; /* UTTT_TRUE or UTTT_FALSE; 0 with a refusal */
};

struct uttt_result {
    uint32_t verdict;   /* UTTT_TRUE if proof is 0, UTTT_FALSE if disproof is 0, else UTTT_UNKNOWN */
    uint32_t proof;     /* how many undecided positions would settle it as True, if all turned out True; see above */
    uint32_t disproof;  /* likewise False */
    uint64_t allocated; /* nodes made, the root too */
    uint64_t freed;     /* nodes freed; live nodes are allocated minus freed */
    uint64_t proved;    /* expanded nodes that were proved */
    uint64_t disproved; /* expanded nodes that were disproved */
    uint64_t expanded;  /* expansions, what the budget counts */
    uint32_t cause;     /* enum uttt_cause */
};

struct uttt_search_answer {
    uint32_t code;
    uint64_t index; /* 0 */
    struct uttt_result result;
};

struct uttt_full_answer {
    uint32_t code;
    uint64_t index;            /* 0 */
    uint32_t verdict;          /* enum uttt_full */
    struct uttt_result first;  /* under rule 1 */
    struct uttt_result second; /* under rule 2 */
};

struct uttt_games_answer {
    uint32_t code;
    uint64_t index;                              /* the game whose record is refused with codes 2 to 6 and 22, else 0 */
    uint64_t count;                              /* how many games there are; 0 with a refusal */
    struct uttt_result results[UTTT_GAMES_MOST]; /* one for each game, in their order; zeros past the count */
};

struct uttt_simulate_answer {
    uint32_t code;
    uint64_t index;    /* 0 */
    uint64_t x_wins;   /* games that X won */
    uint64_t o_wins;   /* games that O won */
    uint64_t draws;    /* drawn games; the three sum to the number of games */
    uint64_t expanded; /* expansions of all searches of all games together */
};

struct uttt_lookup_answer {
    uint32_t code;
    uint64_t index;   /* 0 */
    uint32_t verdict; /* UTTT_TRUE, UTTT_FALSE or UTTT_NOT_HELD; 0 with a refusal too */
};

struct uttt_add_answer {
    uint32_t code;
    uint64_t index;   /* 0 */
    uint32_t verdict; /* UTTT_TRUE, UTTT_FALSE or UTTT_UNKNOWN; 0 with a refusal too */
    uint64_t count;   /* used entries after the call: the count that came in, or one more */
};

struct uttt_publish_answer {
    uint32_t code;
    uint64_t index;     /* 0 */
    uint32_t published; /* 1; 0 if the pair is not held, and with a refusal */
};

/*
 * Plays the moves from the record, up to the first bad one, and writes the record afterwards to the first 21 bytes of
 * output; the others are left alone. No moves give the record itself.
 */
struct uttt_replay_answer uttt_replay(const uint8_t *record, size_t record_length,
                                      const uint8_t *moves, size_t moves_length,
                                      uint8_t *output, size_t output_length);

/*
 * Writes the legal moves from the front of output on, by board, then cell; none if the game is over. The output needs
 * 81 bytes whatever their count; those past the last move are left alone.
 */
struct uttt_moves_answer uttt_legal_moves(const uint8_t *record, size_t record_length,
                                          uint8_t *output, size_t output_length);

/* The value of a small ending, by going through everything that can follow. rule is 0 to 2. */
struct uttt_referee_answer uttt_referee(const uint8_t *record, size_t record_length, uint64_t rule);

/*
 * The agreed opening of two sheets of one game, each a list of moves: the longest beginning that both have and that is
 * legal, move after move, from the empty game. Returns its length, n: it is the first n moves of first. Writes the
 * record after it to the first 21 bytes of output; the others are left alone. A difference, a bad move (a move after
 * the game's end is one) and the end of a sheet end the opening; none of them is a refusal. An empty opening leaves the
 * empty game's record. number gets UTTT_OK, or UTTT_OUTPUT_SHORT, and then 0 is returned.
 */
uint64_t uttt_agreed_opening(const uint8_t *first, size_t first_length,
                             const uint8_t *second, size_t second_length,
                             uint8_t *output, size_t output_length, uint32_t *number);

/*
 * Searches the record's position under a rule. After every interval-th expansion more than limit live nodes end the
 * search. A True or False is the position's value under the rule; Unknown comes with a cause. A finished game is
 * answered without an expansion. staying and margin: see Staying on a line.
 */
struct uttt_search_answer uttt_search(const uint8_t *record, size_t record_length,
                                      uint32_t *pool, size_t pool_words,
                                      uint64_t rule, uint64_t limit, uint64_t budget, uint64_t interval,
                                      bool staying, double margin);

/*
 * Searches under rule 1, then under rule 2, one after the other in the same pool, each with the whole budget: win if
 * the first is True, loss if the second is False, draw if they are False and True, at least a draw if Unknown and True,
 * at most a draw if False and Unknown, otherwise unknown.
 */
struct uttt_full_answer uttt_full_verdict(const uint8_t *record, size_t record_length,
                                          uint32_t *pool, size_t pool_words,
                                          uint64_t limit, uint64_t budget, uint64_t interval,
                                          bool staying, double margin);

/*
 * Judges one to eight games together, under one rule, limit and interval, with one allowance of expansions for all, and
 * all of them with staying and margin. records has 21 bytes a game, one record after the other. shares[i] is game i's
 * share of the allowance; together the games' shares may not be above it. Those past the last game are not read: any
 * number may stand there.
 *
 * The pool is cut into one part for each game, game 0's first. All have the same number of whole nodes, as many as the
 * pool has room for.
 *
 * There are two passes. In the first each game in turn is searched up to its share. The allowance less the expansions
 * of all games so far is what is unspent. In the second, in the same order, each game that its share stopped (cause
 * UTTT_BUDGET_SPENT) goes on from where it stood with all that is unspent when its turn comes.
 *
 * Each result is that of uttt_search with the game's part as pool and, as budget, what the game was granted: its share
 * or, if it went on, its share and what was unspent then. All games together take no more expansions than the
 * allowance.
 */
struct uttt_games_answer uttt_judge_games(const uint8_t *records, size_t records_length,
                                          uint32_t *pool, size_t pool_words,
                                          const uint64_t shares[UTTT_GAMES_MOST],
                                          uint64_t rule, uint64_t limit, uint64_t allowance, uint64_t interval,
                                          bool staying, double margin);

/*
 * Two players, X and O, play so many games from the record's position, 1 to 1,000, and the answer counts who won. Each
 * player has its own budget for every search: x_budget, o_budget. Pool, limit, interval, staying and margin are the
 * same for both, and every search has the whole pool.
 *
 * At a turn the player searches the position after each legal move, in the order of uttt_legal_moves, under rule 2 and
 * with its own budget, as uttt_search does it. The first move whose search answers False is played, and no later one is
 * searched: the other side, which is to move after it, can't force even a draw, so the player can force a win. Unknown
 * is not False. A lone legal move is searched too, and so is one that ends the game.
 *
 * If no search answers False, the player draws a move. The draw has a state of 64 bits, at first the seed. It adds
 * 0x9E3779B97F4A7C15 to the state, modulo 2^64; the upper 32 bits, modulo the number of legal moves, are then the place
 * of the move in their order, from 0. Nothing else changes the state, and the next game goes on with it. The lower 32
 * bits of a seed count by their carry alone, so seeds near each other draw the same moves nearly always: to see other
 * games take seeds at least 2^32 apart.
 *
 * A finished record is scored as it is, for each of the games: nothing is searched, and no word of the pool is written.
 *
 * The same record, seed, number of games, settings and pool in nodes give the same report, whatever the pool held.
 */
struct uttt_simulate_answer uttt_simulate(const uint8_t *record, size_t record_length,
                                          uint32_t *pool, size_t pool_words,
                                          uint64_t seed, uint64_t games,
                                          uint64_t limit, uint64_t x_budget, uint64_t o_budget, uint64_t interval,
                                          bool staying, double margin);

/*
 * Gives the verdict that the book holds for the record and the rule, 0 to 2; to a trainer, that of a published entry.
 * Nothing is searched, nothing written.
 */
struct uttt_lookup_answer uttt_book_lookup(bool trainer, const uint8_t *book, size_t book_length, uint64_t count,
                                           const uint8_t *record, size_t record_length, uint64_t rule);

/*
 * Answers a pair from the book or, if it is not held, by a search as uttt_search does it, and keeps what was found. The
 * pool and the settings are checked in either case. A held pair's verdict is given back without a search, and nothing
 * is written, not even in the pool. A True or False of a search is written to the book as the entry at the count, 22
 * bytes and no others, and count is then one more; trainers don't see it until it is published. Unknown is not kept. A
 * full book that does not hold the pair is refused before any search. A trainer is refused with 19.
 *
 * Record, book and pool may not overlap: copy an entry's record out of the book before adding it under another rule.
 */
struct uttt_add_answer uttt_book_add(bool trainer, uint8_t *book, size_t book_length, uint64_t count,
                                     const uint8_t *record, size_t record_length,
                                     uint32_t *pool, size_t pool_words,
                                     uint64_t rule, uint64_t limit, uint64_t budget, uint64_t interval,
                                     bool staying, double margin);

/*
 * Sets the published mark of the first entry that holds the record and the rule, 0 to 2, and changes no other bit. If
 * it is set already it stays so. A pair that is not held is no refusal: published is 0, and nothing is written. The
 * count is the same afterwards. A trainer is refused with 19.
 *
 * Record and book may not overlap: copy an entry's record out of the book before publishing it.
 */
struct uttt_publish_answer uttt_book_publish(bool trainer, uint8_t *book, size_t book_length, uint64_t count,
                                             const uint8_t *record, size_t record_length, uint64_t rule);

#ifdef __cplusplus
}
#endif

#endif
