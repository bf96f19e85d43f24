/* Counts the sequences of moves of a game, as `rbg_author perft` does: perft FILE DEPTH. */
#include <rbg.h>

#include <inttypes.h>
#include <stdio.h>
#include <stdlib.h>

static void must(rbg_result result, const char *call) {
  if (result != RBG_OK) {
    fprintf(stderr, "%s: %u\n", call, (unsigned)result);
    exit(1);
  }
}

/* The legal moves, as numbers. They are kept here, since a move that is made lets those go that were found. */
static uint32_t *found(rbg_state *state, uint64_t *length) {
  uint32_t none;
  rbg_result result = rbg_moves(state, &none, 0, length);
  uint32_t *numbers = malloc((*length + 1) * sizeof *numbers);
  if (!numbers)
    exit(1);
  if (result == RBG_SMALL)
    result = rbg_moves(state, numbers, *length, length);
  must(result, "rbg_moves");
  return numbers;
}

static uint64_t count(rbg_state *state, int depth) {
  uint64_t number = 0, length = 0, sum = 0;
  must(rbg_find_moves(state, &number), "rbg_find_moves");
  if (depth <= 1)
    return number;
  uint32_t *numbers = found(state, &length);
  for (uint64_t i = 0; i < length; i += 1 + 2 * numbers[i]) {
    must(rbg_make(state, (const rbg_pair *)&numbers[i + 1], numbers[i]), "rbg_make");
    sum += count(state, depth - 1);
    must(rbg_undo(state), "rbg_undo");
  }
  free(numbers);
  return sum;
}

int main(int argc, char **argv) {
  if (argc != 3) {
    fprintf(stderr, "usage: perft FILE DEPTH\n");
    return 2;
  }
  FILE *file = fopen(argv[1], "rb");
  if (!file) {
    perror(argv[1]);
    return 2;
  }
  static uint8_t text[1 << 20];
  size_t length = fread(text, 1, sizeof text, file);
  fclose(file);
  rbg_state state = RBG_NO_STATE;
  must(rbg_open(text, length, &state), "rbg_open");
  for (int depth = 1; depth <= atoi(argv[2]); depth++)
    printf("%d %" PRIu64 "\n", depth, count(&state, depth));
  rbg_free(&state);
  return 0;
}
