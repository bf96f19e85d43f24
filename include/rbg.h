/* The proved rules of Regular Boardgames, for programs in C.

   A description of a game is opened once. It gives a state: a place of play, with the places before it. States are
   copied, moves are found and made, made moves are undone, and random matches are played. No call prints, reads a
   file, or waits.

   Each call keeps these rules, and asks these of its caller:

   - A handle (rbg_state) is zero before its first call: `rbg_state s = RBG_NO_STATE;`. Nobody but the library writes
     to it afterwards. `=` makes no copy of a state: rbg_copy does. It may move a handle, if the old one isn't used
     again, or is set to RBG_NO_STATE. rbg_free lets its state go. A handle that holds no state may be given to each
     call, which then answers RBG_EMPTY; to be freed twice does no harm.
   - No pointer is NULL, even if the length after it is 0. Pointers of one call don't overlap.
   - A buffer comes with its room: how many items it can take. The call stores in *needed how many there are, and puts
     them at its beginning. If they are more than its room, the call answers RBG_SMALL, and the buffer is as before.
   - A call that fails leaves its states as they were.
   - A handle is used by the thread that made it. Other threads open games of their own. A state crosses to one as
     bytes: rbg_pack here, then rbg_open and rbg_unpack there.
   - malloc, realloc and free come from one allocator, as in each usual program. No call is made from a signal handler.
     A call may use some 100 kB of stack.

   What is proved of each call is above its name in the sources (crates/rbg_c). That C keeps the rules above
   can't be proved. */
#ifndef RBG_H
#define RBG_H

#include <stddef.h>
#include <stdint.h>

#ifdef __cplusplus
extern "C" {
#endif

/* What a call answers. */
typedef uint32_t rbg_result;
enum {
  RBG_OK = 0,
  RBG_EMPTY = 1,   /* the handle holds no state */
  RBG_MEMORY = 2,  /* a request for memory was refused */
  RBG_OVER = 3,    /* a question about a place is above the limits of the language */
  RBG_KEEPER = 4,  /* the keeper would make more than 1,000 moves in a row */
  RBG_ILLEGAL = 5, /* the move isn't legal; there is no move of this index, or the moves were not found before */
  RBG_START = 6,   /* there is no move to undo */
  RBG_SMALL = 7,   /* a buffer has too little room */
  RBG_RANGE = 8,   /* a number is out of its range */
  RBG_NO_PLACE = 9, /* bytes are those of no place of the game */
  RBG_TEXT = 16,   /* a description has bytes that are no text of the language */
  RBG_MACRO = 17,  /* its macros are wrong */
  RBG_SYNTAX = 18, /* its syntax is wrong */
  RBG_GAME = 19    /* it is spelt right, and is no game's */
};

/* A handle of a state. What is inside is the library's. */
typedef struct rbg_state {
  void *inside;
} rbg_state;
#define RBG_NO_STATE {0}

/* A modifier of a move: the vertex on which it is applied, and its position in the rules. A move is 1 to 200 of them,
   as in messages. */
typedef struct rbg_pair {
  uint32_t vertex;
  uint32_t position;
} rbg_pair;
enum { RBG_MOST_PAIRS = 200 };

/* The offset of what is at no byte, and the number of no vertex. */
#define RBG_NO_OFFSET UINT64_MAX
#define RBG_NO_VERTEX UINT32_MAX

/* ---- descriptions and states */

/* Whether a text is the description of a game, and if it isn't, which layer refuses it. */
rbg_result rbg_check(const uint8_t *text, size_t length);

/* Answers the same. If a layer refuses the text, it stores the number of the refusal, as `rbg check` prints it after the
   layer's name, and the offset of the byte at which it is, or RBG_NO_OFFSET. A fault of the board is one of RBG_GAME; its
   number is 10 above that which is printed after `board`. */
rbg_result rbg_fault(const uint8_t *text, size_t length, uint64_t *number, uint64_t *offset);

/* Opens the game of a description, and stores the state to which the keeper's first moves lead. A state that the handle
   held is let go, if the call succeeds. */
rbg_result rbg_open(const uint8_t *text, size_t length, rbg_state *state);

/* The same, but the state is where the rules begin: no move of the keeper is made. A match is followed from there by
   rbg_hear. */
rbg_result rbg_begin(const uint8_t *text, size_t length, rbg_state *state);

/* Lets a state go. */
void rbg_free(rbg_state *state);

/* Makes `to` a copy of `from`. The copy is of the same game, which isn't copied. None of its moves can be undone, and
   none are found there yet.
   A state that `to` held is let go, if the call succeeds. */
rbg_result rbg_copy(rbg_state *from, rbg_state *to);

/* Makes `to` the state at the place of these bytes, as rbg_pack gives them, in the game of `from`. It may be a place that
   play never reaches. No move can be undone there. RBG_NO_PLACE if they are the bytes of no place of the game; which game
   they came from they don't say. A state that `to` held is let go, if the call succeeds. */
rbg_result rbg_unpack(rbg_state *from, const uint8_t *bytes, size_t length, rbg_state *to);

/* ---- what a state says */

/* The player to move, from 1; 0 is the keeper, or nobody: play is finished if rbg_find_moves finds no move. */
rbg_result rbg_player(rbg_state *state, uint32_t *player);

/* How many moves can be undone. */
rbg_result rbg_moves_made(rbg_state *state, uint64_t *made);

/* The key of the place: 64 bits that are equal for equal places, and hardly ever for others. `rbg ask` prints the same. It
   is made of the current vertex and the last action too. If a player's turn always has the same rules, and these go to any
   square before they look at one, then the player, the board and the values are enough for a table of transpositions, and
   are met again more often. */
rbg_result rbg_key(rbg_state *state, uint64_t *key);

/* The place as bytes: all that the rules know of it, and nothing of the way there. They begin with 1. Two bytes each, the
   higher one first, are the player, the current vertex, the position of the last action (0 for none) and the piece on each
   vertex; four bytes each, the highest first, are the values of the variables. Each place of a game has bytes of its
   own, so they serve as a key too. `rbg ask` prints the same in hexadecimal digits. */
rbg_result rbg_pack(rbg_state *state, uint8_t *bytes, size_t room, uint64_t *needed);

/* The number of the piece on each vertex; what each variable holds, of which the first are the players' scores; and
   these scores alone. */
rbg_result rbg_board(rbg_state *state, uint16_t *pieces, size_t room, uint64_t *needed);
rbg_result rbg_values(rbg_state *state, uint32_t *values, size_t room, uint64_t *needed);
rbg_result rbg_scores(rbg_state *state, uint64_t *scores, size_t room, uint64_t *needed);

/* ---- what a game is, by any of its states */

/* The name of a player, a piece, a variable or a direction, by its kind and its index from 0: bytes, with no zero byte
   after them. RBG_RANGE if there is none. */
enum { RBG_PLAYERS = 0, RBG_PIECES = 1, RBG_VARIABLES = 2, RBG_DIRECTIONS = 3 };
rbg_result rbg_name(rbg_state *state, uint32_t kind, uint64_t index, uint8_t *name, size_t room, uint64_t *needed);

/* The greatest number that each variable may hold. */
rbg_result rbg_bounds(rbg_state *state, uint32_t *bounds, size_t room, uint64_t *needed);

/* The edges of the board. For each vertex in turn there is a number for each direction: the vertex to which it leads, or
   RBG_NO_VERTEX. There are as many vertices as rbg_board has pieces. */
rbg_result rbg_edges(rbg_state *state, uint32_t *edges, size_t room, uint64_t *needed);

/* The action at a position of the rules, from 1: its kind, and the numbers of what it names: a direction, pieces, a piece, a
   variable or a player. RBG_RANGE if there is none. */
enum {
  RBG_SHIFT = 0, /* to where a direction leads */
  RBG_ON = 1,    /* one of these pieces is there */
  RBG_OFF = 2,   /* a piece is put there; a modifier, as are the next and RBG_SWITCH */
  RBG_ASSIGN = 3,
  RBG_COMPARE = 4,
  RBG_SWITCH = 5,
  RBG_POSITIVE = 6, /* a pattern, whose inside has the next positions */
  RBG_NEGATIVE = 7
};
rbg_result rbg_action(rbg_state *state, uint64_t position, uint32_t *kind, uint16_t *numbers, size_t room, uint64_t *needed);

/* ---- moves */

/* Finds the legal moves, and stores how many they are. They stay found until a move is made or undone. */
rbg_result rbg_find_moves(rbg_state *state, uint64_t *count);

/* Finds the legal moves, and stores all of them as numbers, in the order of their indices: of each move how many pairs it
   has, and then the vertex and the position of each. */
rbg_result rbg_moves(rbg_state *state, uint32_t *numbers, size_t room, uint64_t *needed);

/* The pairs of the move of this index, from 0, among those that were found. */
rbg_result rbg_move(rbg_state *state, uint64_t index, rbg_pair *pairs, size_t room, uint64_t *needed);

/* Makes the move of this index, and the keeper's moves after it. RBG_ILLEGAL if there is none, or if no moves were found
   since the last one was made or undone; those that were found don't go along into a copy. */
rbg_result rbg_make_found(rbg_state *state, uint64_t index);

/* Makes the move of these pairs, if it is legal, and the keeper's moves after it. */
rbg_result rbg_make(rbg_state *state, const rbg_pair *pairs, size_t length);

/* Makes the move of these pairs, if it is legal, as a referee passes it on: the keeper's moves are passed on too, so
   none is made after it. None of the moves so far can be undone then. */
rbg_result rbg_hear(rbg_state *state, const rbg_pair *pairs, size_t length);

/* Undoes the last move of a player, with the keeper's moves after it. */
rbg_result rbg_undo(rbg_state *state);

/* ---- chance */

/* Plays this many random matches from here, 1 to 1,000,000, and says how they ended: for each ending a row of how many
   matches ended so, and each player's score. A match that isn't finished after 10,000 moves is stopped, and has no row.
   A seed gives the same matches each time, which is tried, and not proved. The state is as before; room for
   (players + 1) * count numbers is always enough. */
rbg_result rbg_playouts(rbg_state *state, uint64_t seed, uint64_t count, uint64_t *rows, size_t room, uint64_t *needed);

/* Makes `to` a copy of `from` on which random moves were made, at most `most`, until play is finished, and stores how
   many. They can be undone there. `most` may be any number: the call takes time for each move, and memory for the place
   before it, so it is to be small for a game that may not end. A state that `to` held is let go, if the call succeeds. */
rbg_result rbg_play_on(rbg_state *from, rbg_state *to, uint64_t seed, uint64_t most, uint64_t *made);

/* As rbg_play_on, but it stores the moves that were made, as numbers in the form of rbg_moves, and how many numbers these are.
   RBG_SMALL if they are more than the room: both handles are as before then. A seed gives the same moves to both calls, those
   of `sample` of `rbg ask`: that is tried (clients/c/trial.c, clients/package_trial.py), and not proved. */
rbg_result rbg_sample(rbg_state *from, rbg_state *to, uint64_t seed, uint64_t most, uint32_t *numbers, size_t room, uint64_t *needed);

#ifdef __cplusplus
}
#endif

#endif
