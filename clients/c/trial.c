/* Calls the library at random in every way that the header allows, and compares what two copies of a state say:
   trial FILE CALLS SEED. It is to be quiet under valgrind and AddressSanitizer. */
#include <rbg.h>

#include <inttypes.h>
#include <stdio.h>
#include <stdlib.h>
#include <string.h>

enum { HANDLES = 5 };

static uint64_t seed;

static uint64_t chance(uint64_t below) {
  seed ^= seed << 13, seed ^= seed >> 7, seed ^= seed << 17;
  return seed % below;
}

static void check(int holds, const char *what) {
  if (!holds) {
    fprintf(stderr, "wrong: %s\n", what);
    exit(1);
  }
}

static uint8_t text[1 << 20];
static size_t text_length;
static rbg_state states[HANDLES];
static uint64_t counts[32];

/* A buffer of just this room, so that a byte too many would be seen. */
static void *room_for(size_t room, size_t size) {
  void *buffer = malloc(room * size + 1);
  check(buffer != NULL, "memory");
  memset(buffer, 0x5a, room * size + 1);
  return buffer;
}

/* What a state has, into a buffer of any room. */
static rbg_result tell(rbg_state *state) {
  size_t room = chance(24);
  uint64_t needed = 0;
  rbg_result result;
  void *buffer;
  uint32_t kind = 0;
  switch (chance(8)) {
  case 5:
    result = rbg_bounds(state, buffer = room_for(room, 4), room, &needed);
    break;
  case 6:
    room *= chance(8);
    result = rbg_edges(state, buffer = room_for(room, 4), room, &needed);
    break;
  case 7:
    result = rbg_action(state, chance(40), &kind, buffer = room_for(room, 2), room, &needed);
    check(kind <= RBG_NEGATIVE, "a kind of action");
    break;
  case 0:
    result = rbg_board(state, buffer = room_for(room, 2), room, &needed);
    break;
  case 1:
    result = rbg_values(state, buffer = room_for(room, 4), room, &needed);
    break;
  case 2:
    result = rbg_scores(state, buffer = room_for(room, 8), room, &needed);
    break;
  case 3:
    result = rbg_name(state, (uint32_t)chance(5), chance(6), buffer = room_for(room, 1), room, &needed);
    break;
  default:
    result = rbg_move(state, chance(12), buffer = room_for(room, sizeof(rbg_pair)), room, &needed);
  }
  check(result != RBG_OK || needed <= room, "room");
  check(result != RBG_SMALL || (needed > room && ((char *)buffer)[0] == 0x5a), "a buffer that is too small");
  free(buffer);
  return result;
}

/* A move by its pairs: one that is legal, or nearly, or any. The keeper's moves follow it or don't. */
static rbg_result pairs_made(rbg_state *state) {
  size_t length = chance(8) ? chance(4) : chance(300);
  uint64_t count = 0, needed = length;
  rbg_pair *pairs = room_for(length, sizeof(rbg_pair));
  for (size_t i = 0; i < length; i++)
    pairs[i].vertex = (uint32_t)chance(10), pairs[i].position = chance(9) ? (uint32_t)chance(40) : ~0u;
  if (chance(2) && rbg_find_moves(state, &count) == RBG_OK && count > 0)
    if (rbg_move(state, chance(count), pairs, length, &needed) == RBG_OK && chance(4) == 0 && needed > 0)
      pairs[chance(needed)].position++;
  needed = needed < length ? needed : length;
  rbg_result result = chance(4) ? rbg_make(state, pairs, needed) : rbg_hear(state, pairs, needed);
  free(pairs);
  return result;
}

/* Random matches: the same seed gives the same matches. */
static rbg_result played(rbg_state *state, rbg_state *other) {
  uint64_t count = chance(8) ? chance(4) : 1000001, room = chance(16), seed_of = chance(1000), needed = 0, again = 0, made = 0;
  if (chance(2))
    return state == other ? RBG_OK : rbg_play_on(state, other, seed_of, chance(12), &made);
  uint64_t *rows = room_for(room, 8), *more = room_for(room, 8);
  rbg_result result = rbg_playouts(state, seed_of, count, rows, room, &needed);
  check(rbg_playouts(state, seed_of, count, more, room, &again) == result && again == needed, "the same matches");
  check(memcmp(rows, more, room * 8) == 0, "the same rows");
  free(rows), free(more);
  return result;
}

/* A place that is packed, and unpacked into another handle: the same place, or another one, or none, if it was spoilt. */
static rbg_result packed(rbg_state *state, rbg_state *other) {
  size_t room = chance(4) ? 9000 : chance(64);
  uint64_t needed = 0, one = 0, two = 0;
  uint8_t *bytes = room_for(room, 1);
  rbg_result result = rbg_pack(state, bytes, room, &needed);
  check(result != RBG_OK || needed <= room, "room");
  check(result != RBG_SMALL || (needed > room && bytes[0] == 0x5a), "a buffer that is too small");
  if (result == RBG_OK && state != other) {
    int spoilt = chance(2) == 0;
    if (spoilt)
      bytes[chance(needed)] ^= (uint8_t)(1 + chance(255));
    size_t length = chance(8) ? needed : chance(needed);
    result = rbg_unpack(state, bytes, length, other);
    check(result == RBG_OK || result == RBG_NO_PLACE, "a place or none");
    check(length == needed || result == RBG_NO_PLACE, "a place that was cut");
    check(spoilt || length < needed || result == RBG_OK, "a place that was packed");
    if (result == RBG_OK && !spoilt)
      check(rbg_key(state, &one) == RBG_OK && rbg_key(other, &two) == RBG_OK && one == two, "one place");
  }
  free(bytes);
  return result;
}

/* All moves at once: those that are told one by one. */
static rbg_result listed(rbg_state *state) {
  size_t room = chance(4) ? 9000 : chance(64);
  uint64_t needed = 0, count = 0, length = 0, at = 0;
  uint32_t *numbers = room_for(room, 4);
  rbg_pair pairs[RBG_MOST_PAIRS];
  rbg_result result = rbg_moves(state, numbers, room, &needed);
  check(result != RBG_OK || needed <= room, "room");
  check(result != RBG_SMALL || (needed > room && ((char *)numbers)[0] == 0x5a), "a buffer that is too small");
  if (result == RBG_OK) {
    check(rbg_find_moves(state, &count) == RBG_OK, "find");
    for (uint64_t i = 0; i < count; i++) {
      check(rbg_move(state, i, pairs, RBG_MOST_PAIRS, &length) == RBG_OK && length == numbers[at], "a move's length");
      check(memcmp(pairs, &numbers[at + 1], length * sizeof(rbg_pair)) == 0, "a move's pairs");
      at += 1 + 2 * length;
    }
    check(at == needed, "all moves");
  }
  free(numbers);
  return result;
}

/* A copy on which random moves were made: those that are stored lead there, and are undone. Without room nothing changes. */
static rbg_result sampled(rbg_state *state, rbg_state *other) {
  if (state == other)
    return RBG_OK;
  size_t room = chance(4) ? 9000 : chance(64);
  uint64_t needed = 0, made = 0, count = 0, one = 0, two = 0, seed_of = chance(1000), most = chance(12);
  uint32_t *numbers = room_for(room, 4);
  rbg_state copy = RBG_NO_STATE, again = RBG_NO_STATE;
  uint64_t key_before = 0, key_after = 0;
  rbg_result before = rbg_key(other, &key_before);
  rbg_result result = rbg_sample(state, other, seed_of, most, numbers, room, &needed);
  check(result != RBG_SMALL || (needed > room && ((char *)numbers)[0] == 0x5a), "a buffer that is too small");
  if (result == RBG_SMALL)
    check(rbg_key(other, &key_after) == before && key_after == key_before, "the other handle, without room");
  if (result == RBG_OK) {
    check(rbg_copy(state, &copy) == RBG_OK && rbg_moves_made(other, &made) == RBG_OK && made <= most, "so many moves");
    for (uint64_t at = 0; at < needed; at += 1 + 2 * numbers[at], count++)
      check(rbg_make(&copy, (const rbg_pair *)&numbers[at + 1], numbers[at]) == RBG_OK, "a move that was made");
    check(count == made && rbg_play_on(state, &again, seed_of, most, &count) == RBG_OK && count == made, "as many moves");
    check(rbg_key(&copy, &one) == RBG_OK && rbg_key(other, &two) == RBG_OK && one == two, "the moves lead there");
    check(rbg_key(&again, &one) == RBG_OK && one == two, "the same moves");
    for (count = 0; count < made; count++)
      check(rbg_undo(&again) == RBG_OK, "a random move is undone");
    check(rbg_key(&again, &one) == RBG_OK && rbg_key(state, &two) == RBG_OK && one == two, "all random moves are undone");
    rbg_free(&copy), rbg_free(&again);
  }
  free(numbers);
  return result;
}

/* One call, good or bad. */
static rbg_result call(rbg_state *state, rbg_state *other) {
  uint64_t key = 0, count = 0, made = 0;
  uint32_t player = 0;
  switch (chance(18)) {
  case 16:
    return listed(state);
  case 17:
    return sampled(state, other);
  case 12:
    return tell(state);
  case 13:
    return pairs_made(state);
  case 14:
    return played(state, other);
  case 15:
    return packed(state, other);
  case 0: { /* a text that is cut, or spoilt, or whole */
    static uint8_t spoilt[1 << 20];
    size_t length = chance(4) ? text_length : chance(text_length + 1);
    memcpy(spoilt, text, text_length);
    if (chance(2))
      spoilt[chance(text_length)] = (uint8_t)chance(256);
    return chance(4) ? rbg_open(spoilt, length, other) : rbg_begin(spoilt, length, other);
  }
  case 1:
    if (chance(4) == 0)
      rbg_free(state);
    else { /* a handle is moved, and moved back */
      rbg_result before = rbg_key(state, &key);
      rbg_state moved = *state;
      *state = (rbg_state)RBG_NO_STATE;
      check(rbg_key(state, &count) == RBG_EMPTY, "a handle that was moved away");
      check(rbg_key(&moved, &count) == before && (before != RBG_OK || count == key), "a handle that was moved");
      *state = moved;
    }
    return RBG_OK;
  case 2:
    return state == other ? RBG_OK : rbg_copy(state, other);
  case 3:
    return rbg_player(state, &player);
  case 4:
    return rbg_moves_made(state, &made);
  case 5:
  case 6: { /* a move that is made and undone leads back */
    rbg_result result = rbg_find_moves(state, &count);
    if (result != RBG_OK || count == 0)
      return result;
    uint64_t before = 0, after = 0, more = 0;
    check(rbg_key(state, &before) == RBG_OK && rbg_moves_made(state, &made) == RBG_OK, "key");
    result = rbg_make_found(state, chance(count));
    if (result != RBG_OK)
      return result;
    check(rbg_moves_made(state, &more) == RBG_OK && more == made + 1, "one more move");
    check(rbg_undo(state) == RBG_OK, "undo");
    check(rbg_key(state, &after) == RBG_OK && before == after, "undone key");
    return RBG_OK;
  }
  case 7:
  case 8: { /* a copy goes the same way */
    rbg_result result = rbg_find_moves(state, &count);
    if (result != RBG_OK || count == 0)
      return result;
    uint64_t index = chance(count), one = 0, two = 0, again = 0;
    rbg_state copy = RBG_NO_STATE;
    check(rbg_copy(state, &copy) == RBG_OK, "copy");
    check(rbg_make_found(&copy, index) == RBG_ILLEGAL, "moves that were not found");
    check(rbg_find_moves(&copy, &again) == RBG_OK && again == count, "as many moves");
    check(rbg_make_found(&copy, index) == RBG_OK, "make");
    check(rbg_make_found(state, index) == RBG_OK, "make");
    check(rbg_key(state, &one) == RBG_OK && rbg_key(&copy, &two) == RBG_OK && one == two, "one place");
    rbg_free(&copy);
    return RBG_OK;
  }
  case 9:
    return rbg_make_found(state, chance(2) ? chance(64) : ~chance(64));
  case 10:
    return rbg_undo(state);
  default:
    return rbg_key(state, &key);
  }
}

int main(int argc, char **argv) {
  if (argc != 4) {
    fprintf(stderr, "usage: trial FILE CALLS SEED\n");
    return 2;
  }
  FILE *file = fopen(argv[1], "rb");
  if (!file) {
    perror(argv[1]);
    return 2;
  }
  text_length = fread(text, 1, sizeof text, file);
  fclose(file);
  seed = strtoull(argv[3], NULL, 10) | 1;
  for (int64_t left = atoll(argv[2]); left > 0; left--) {
    rbg_result result = call(&states[chance(HANDLES)], &states[chance(HANDLES)]);
    check(result < 32, "an answer that the header has");
    counts[result]++;
  }
  for (int i = 0; i < HANDLES; i++)
    rbg_free(&states[i]);
  for (int i = 0; i < 32; i++)
    if (counts[i])
      printf("%d %" PRIu64 "\n", i, counts[i]);
  return 0;
}
