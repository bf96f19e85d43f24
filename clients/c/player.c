/* A player for `rbg serve` and `rbg hall`: it follows any match by the library, and chooses its moves by UCT.
     player PORT [MILLISECONDS [SEED [MATCH]]]
   It thinks for so long about a move, and no longer than half of what is left of its turn. */
#include <arpa/inet.h>
#include <math.h>
#include <poll.h>
#include <rbg.h>
#include <stdio.h>
#include <stdlib.h>
#include <string.h>
#include <time.h>
#include <unistd.h>

enum { QUIET = 100, MOST_PLAYERS = 1000 }; /* QUIET: milliseconds */

/* A place that was met. Of its moves those from `first` on were tried, in a circle. */
typedef struct node {
  rbg_state state;
  uint32_t player;
  uint64_t moves, first, tried;
  struct node *children;
  double visits, total; /* the total is of the player who moved here */
} node;

static uint64_t seed, players, row[MOST_PLAYERS + 1]; /* the row has the scores of the last match, from 1 on */
static double highest = 1;                            /* the highest score that was met */

static void must(rbg_result result) {
  if (result != RBG_OK)
    fprintf(stderr, "the library answers %u\n", (unsigned)result), exit(1);
}

static double now(void) {
  struct timespec time;
  clock_gettime(CLOCK_MONOTONIC, &time);
  return time.tv_sec * 1e3 + time.tv_nsec / 1e6;
}

static void look(node *it) {
  must(rbg_find_moves(&it->state, &it->moves));
  must(rbg_player(&it->state, &it->player));
  it->first = it->moves ? (++seed * 0x9e3779b97f4a7c15 >> 32) % it->moves : 0;
  if (!(it->children = calloc(it->moves + 1, sizeof(node)))) exit(1);
}

static void let_go(node *it) {
  for (uint64_t i = 0; i < it->tried; i++) let_go(&it->children[i]);
  free(it->children), rbg_free(&it->state);
}

static uint64_t move_to(node *it, uint64_t child, rbg_pair *pairs) {
  uint64_t length = 0;
  must(rbg_move(&it->state, (it->first + child) % it->moves, pairs, RBG_MOST_PAIRS, &length));
  return length;
}

/* The child that is to be met next: a new one, or the one that is worth most. */
static node *next(node *it) {
  node *best = it->children;
  double most = -1;
  if (it->tried < it->moves) {
    rbg_pair pairs[RBG_MOST_PAIRS];
    uint64_t length = move_to(it, it->tried, pairs);
    best += it->tried++;
    must(rbg_copy(&it->state, &best->state));
    must(rbg_make(&best->state, pairs, length));
    return look(best), best;
  }
  for (node *child = it->children; child < it->children + it->tried; child++) {
    double worth = child->total / child->visits / highest + 0.7 * sqrt(log(it->visits) / child->visits);
    if (worth > most) most = worth, best = child;
  }
  return best;
}

/* One match from a place, to which a player has moved: through the tree, and then at random. */
static void play(node *it, uint32_t mover) {
  uint64_t needed = 0;
  if (it->moves && (it->visits || !mover))
    play(next(it), it->player);
  else if (it->moves)
    must(rbg_playouts(&it->state, ++seed, 1, row, players + 1, &needed));
  else
    must(rbg_scores(&it->state, row + 1, players, &needed));
  it->visits++, it->total += row[mover];
  highest = fmax(highest, mover ? row[mover] : 0);
}

static void say_move(FILE *out, node *root, double until) {
  node *chosen = root->children;
  do
    memset(row, 0, sizeof row), play(root, 0);
  while (root->moves > 1 && now() < until);
  for (uint64_t i = 1; i < root->tried; i++)
    if (root->children[i].visits > chosen->visits) chosen = &root->children[i];
  rbg_pair pairs[RBG_MOST_PAIRS];
  uint64_t length = move_to(root, chosen - root->children, pairs);
  for (uint64_t i = 0; i < length; i++)
    fprintf(out, "%c%u %u", i ? ' ' : 'M', pairs[i].vertex, pairs[i].position);
  fputc(0, out), fflush(out);
}

static void hear_move(rbg_state *state, char *text) {
  rbg_pair pairs[RBG_MOST_PAIRS];
  size_t length = 0;
  for (; length < RBG_MOST_PAIRS && *text; length++)
    pairs[length].vertex = strtoul(text, &text, 10), pairs[length].position = strtoul(text, &text, 10);
  must(rbg_hear(state, pairs, length));
}

int main(int argc, char **argv) {
  struct sockaddr_in to = {AF_INET, htons(argc > 1 ? atoi(argv[1]) : 0), {htonl(INADDR_LOOPBACK)}, {0}};
  double think = argc > 2 ? atof(argv[2]) : 100, turn = 1e12, began = 0;
  seed = argc > 3 ? strtoull(argv[3], NULL, 10) << 32 : 0;
  int line = socket(AF_INET, SOCK_STREAM, 0), quiet = QUIET, owes = 0; /* owes: a move was heard since the last one was said */
  if (connect(line, (struct sockaddr *)&to, sizeof to) || (argc > 4 && dprintf(line, "H%s%c", argv[4], 0) < 0))
    return perror("connect"), 2;
  FILE *in = fdopen(line, "r"), *out = fdopen(dup(line), "w");
  setvbuf(in, NULL, _IONBF, 0); /* so that poll knows of all that wasn't heard */
  char *text = NULL;
  size_t size = 0, me = 0;
  rbg_state state = RBG_NO_STATE;
  for (;;) {
    /* After a restart the whole match comes at once: until nothing came for a while, a move may be an old one. */
    if (owes && poll(&(struct pollfd){line, POLLIN, 0}, 1, quiet) == 0) {
      node root = {0};
      must(rbg_copy(&state, &root.state));
      look(&root);
      if (root.player == me && root.moves)
        say_move(out, &root, fmin(now() + think, began + turn / 2));
      let_go(&root), owes = quiet = 0;
    }
    ssize_t length = getdelim(&text, &size, 0, in);
    if (length <= 0)
      return fprintf(stderr, "the stream has ended\n"), 3;
    if (text[0] == 'W')
      me = atoi(text + 1);
    else if (text[0] == 'G')
      must(rbg_begin((uint8_t *)text + 1, length - 2, &state)), must(rbg_scores(&state, row, MOST_PLAYERS, &players));
    else if (text[0] == 'L')
      turn = atof(text + 1), quiet = fmin(QUIET, turn / 10);
    else if (text[0] == 'M')
      hear_move(&state, text + 1), began = now(), owes = 1;
    else if (text[0] == 'E')
      return printf("%s\n", text), rbg_free(&state), free(text), fclose(out), fclose(in);
    else if (text[1] != '2') /* R2 answers a move that came too late to be the player's own */
      return fprintf(stderr, "refused: %s\n", text), 3;
  }
}
