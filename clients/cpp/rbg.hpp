// States of games in C++17, over the library of rbg.h. Each class lets go what it holds. It compiles so:
//   g++ -std=c++17 -Iinclude -Iclients/cpp program.cpp librbg.a -o program
#ifndef RBG_HPP
#define RBG_HPP

#include <rbg.h>

#include <algorithm>
#include <stdexcept>
#include <string>
#include <utility>
#include <vector>

namespace rbg {

/// The name of an answer of rbg.h in a few words.
inline std::string word_of(rbg_result result) {
  switch (result) {
  case RBG_OK: return "done";
  case RBG_EMPTY: return "empty: the handle holds no state";
  case RBG_MEMORY: return "memory: a request was refused";
  case RBG_OVER: return "over: above the limits of the language";
  case RBG_KEEPER: return "keeper: its moves don't end";
  case RBG_ILLEGAL: return "illegal: no legal move, or none that was found";
  case RBG_START: return "start: there is no move to undo";
  case RBG_SMALL: return "small: a buffer has too little room";
  case RBG_RANGE: return "range: a number is out of its range";
  case RBG_NO_PLACE: return "place: these are the bytes of none";
  case RBG_TEXT: return "text: a description has bytes that may not be there";
  case RBG_MACRO: return "macro: a description's macros are wrong";
  case RBG_SYNTAX: return "syntax: a description is spelt wrong";
  case RBG_GAME: return "game: a description is no game's";
  default: return "another answer";
  }
}

/// What a call answers that wasn't done: one of the numbers of rbg.h, as RBG_ILLEGAL.
class Refused : public std::runtime_error {
public:
  explicit Refused(rbg_result result)
      : std::runtime_error("rbg answers " + std::to_string(result) + ", " + word_of(result)), number(result) {}
  rbg_result number;
};

inline void must(rbg_result result) {
  if (result != RBG_OK) throw Refused(result);
}

/// A move: the pairs of a vertex and a position, as in messages.
using Move = std::vector<rbg_pair>;

/// The text of a move, as in messages.
inline std::string text_of(const Move &move) {
  std::string text;
  for (const rbg_pair &pair : move)
    text += (text.empty() ? "" : " ") + std::to_string(pair.vertex) + " " + std::to_string(pair.position);
  return text;
}

/// The move of a text, as in messages: 1 to 200 pairs, of numbers with at most nine digits and no zero before them, with one
/// space between. A text that is spelt in another way is no move: RBG_ILLEGAL.
inline Move move_of(const std::string &text) {
  std::vector<uint32_t> numbers(1, 0);
  size_t digits = 0;
  for (char at : text) {
    uint32_t &number = numbers.back();
    if (at == ' ' && digits > 0) {
      numbers.push_back(0), digits = 0;
    } else if (at >= '0' && at <= '9' && digits < 9 && (digits == 0 || number > 0)) {
      number = 10 * number + static_cast<uint32_t>(at - '0'), digits++;
    } else {
      throw Refused(RBG_ILLEGAL);
    }
  }
  if (digits == 0 || numbers.size() % 2 || numbers.size() > 2 * RBG_MOST_PAIRS) throw Refused(RBG_ILLEGAL);
  Move move;
  for (size_t i = 0; i < numbers.size(); i += 2) move.push_back({numbers[i], numbers[i + 1]});
  return move;
}

/// Why a text is no description: which layer refuses it, as RBG_SYNTAX, by which number, and at which byte. RBG_OK if it is one.
struct Fault {
  rbg_result layer;
  uint64_t number, offset;
};

inline Fault fault_of(const std::string &text) {
  Fault found{RBG_OK, 0, RBG_NO_OFFSET};
  found.layer = rbg_fault(reinterpret_cast<const uint8_t *>(text.c_str()), text.size(), &found.number, &found.offset);
  return found;
}

/// An action of the rules: its kind, as RBG_SHIFT, and the numbers of what it names.
struct Action {
  uint32_t kind;
  std::vector<uint16_t> numbers;
};

/// How random matches ended that ended alike: the players' scores, and how many matches they are.
struct Ending {
  std::vector<uint64_t> scores;
  uint64_t matches;
};

/// A state of play. It can be copied: no move can be undone in the copy, and none is found there yet. It is used by one thread:
/// another one opens the game too, and unpacks there what was packed here. A state that was moved from holds none.
class State {
public:
  State() = default;
  State(const State &other) { copy(other); }
  State(State &&other) noexcept : held(std::exchange(other.held, rbg_state RBG_NO_STATE)) {}
  State &operator=(State other) noexcept {
    std::swap(held, other.held);
    return *this;
  }
  ~State() { rbg_free(&held); }

  /// The state to which the keeper's first moves lead in the game of a description.
  static State open(const std::string &text) {
    State state;
    must(rbg_open(bytes(text), text.size(), &state.held));
    return state;
  }

  /// The state where the rules begin: a match is followed from there by `hear`.
  static State begin(const std::string &text) {
    State state;
    must(rbg_begin(bytes(text), text.size(), &state.held));
    return state;
  }

  /// The player to move, from 1; 0 is the keeper, or nobody.
  uint32_t player() const { return number(rbg_player); }

  /// A number that is the same for equal places, and hardly ever for others. The current vertex and the last action are part of
  /// it: where a player's turn always has the same rules, and these go to any square before they look at one, a table of
  /// transpositions is better kept by the player, the board and the values.
  uint64_t key() const { return number(rbg_key); }

  /// The place as bytes, and the state at the place of such bytes in the game of this one.
  std::vector<uint8_t> pack() const { return items<uint8_t>(rbg_pack, at()); }
  State unpack(const std::vector<uint8_t> &packed) const {
    static const uint8_t none = 0; // no pointer may be null
    State to;
    must(rbg_unpack(at(), packed.empty() ? &none : packed.data(), packed.size(), &to.held));
    return to;
  }

  /// How many moves can be undone.
  uint64_t moves_made() const { return number(rbg_moves_made); }

  /// The piece on each vertex, what each variable holds, and what each player has scored.
  std::vector<uint16_t> board() const { return items<uint16_t>(rbg_board, at()); }
  std::vector<uint32_t> values() const { return items<uint32_t>(rbg_values, at()); }
  std::vector<uint64_t> scores() const { return items<uint64_t>(rbg_scores, at()); }

  /// The greatest number of each variable, and for each vertex in turn where each direction leads, or RBG_NO_VERTEX.
  std::vector<uint32_t> bounds() const { return items<uint32_t>(rbg_bounds, at()); }
  std::vector<uint32_t> edges() const { return items<uint32_t>(rbg_edges, at()); }

  /// The action at a position, from 1.
  Action action(uint64_t position) const {
    uint32_t kind = 0;
    auto call = [&](uint16_t *numbers, size_t room, uint64_t *needed) { return rbg_action(at(), position, &kind, numbers, room, needed); };
    std::vector<uint16_t> numbers = stored<uint16_t>(call);
    return {kind, numbers};
  }

  /// The names of the players, the pieces, the variables or the directions: RBG_PLAYERS, RBG_PIECES, ..
  std::vector<std::string> names(uint32_t kind) const {
    std::vector<std::string> found;
    uint64_t needed = 0;
    for (uint8_t none = 0; rbg_name(at(), kind, found.size(), &none, 0, &needed) != RBG_RANGE;) {
      auto name = stored<uint8_t>([&](uint8_t *bytes, size_t room, uint64_t *length) {
        return rbg_name(at(), kind, found.size(), bytes, room, length);
      });
      found.emplace_back(name.begin(), name.end());
    }
    return found;
  }

  /// How many legal moves there are. Play is finished if there is none.
  uint64_t count() { return number(rbg_find_moves); }

  /// The legal move of this index. `count` has found the moves.
  Move move(uint64_t index) const {
    Move found(RBG_MOST_PAIRS);
    uint64_t length = 0;
    must(rbg_move(at(), index, found.data(), found.size(), &length));
    found.resize(length);
    return found;
  }

  /// All legal moves, in the order of their indices.
  std::vector<Move> moves() const { return moves_of(items<uint32_t>(rbg_moves, at())); }

  /// Makes the move of this index, or these pairs, and the keeper's moves after it. RBG_ILLEGAL by an index also means that no
  /// moves were found since the last one was made or undone.
  void make(uint64_t index) { must(rbg_make_found(&held, index)); }
  void make(const Move &move) { must(rbg_make(&held, pairs(move), move.size())); }

  /// Makes a move as a referee passes it on: the keeper's moves are passed on too, so none is made after it.
  void hear(const Move &move) { must(rbg_hear(&held, pairs(move), move.size())); }

  /// Undoes the last move of a player.
  void undo() { must(rbg_undo(&held)); }

  /// How this many random matches from here end, 1 to 1,000,000. Those that are stopped after 10,000 moves aren't among them.
  std::vector<Ending> playouts(uint64_t seed, uint64_t count = 1) const {
    uint64_t needed = 0, width = scores().size() + 1;
    // matches end in few ways: if there is too little room for these, they are played again
    std::vector<uint64_t> rows(width * std::clamp<uint64_t>(count, 1, 64));
    rbg_result result = rbg_playouts(at(), seed, count, rows.data(), rows.size(), &needed);
    if (result == RBG_SMALL) {
      rows.resize(needed);
      result = rbg_playouts(at(), seed, count, rows.data(), rows.size(), &needed);
    }
    must(result);
    std::vector<Ending> endings;
    for (uint64_t row = 0; row < needed; row += width)
      endings.push_back({{&rows[row] + 1, &rows[row] + width}, rows[row]});
    return endings;
  }

  /// A copy on which random moves were made, at most this many, until play is finished. They can be undone there.
  State play_on(uint64_t seed, uint64_t most) const {
    State to;
    uint64_t made = 0;
    must(rbg_play_on(at(), &to.held, seed, most, &made));
    return to;
  }

  /// The same, and the moves that were made.
  std::pair<State, std::vector<Move>> sample(uint64_t seed, uint64_t most) const {
    State to;
    auto moves = stored<uint32_t>([&](uint32_t *numbers, size_t room, uint64_t *needed) {
      return rbg_sample(at(), &to.held, seed, most, numbers, room, needed);
    });
    return {std::move(to), moves_of(moves)};
  }

private:
  // The calls that leave a state as it is take it without `const`, since they look into it by moving it.
  mutable rbg_state held = RBG_NO_STATE;

  rbg_state *at() const { return &held; }

  static std::vector<Move> moves_of(const std::vector<uint32_t> &numbers) {
    std::vector<Move> found;
    for (size_t i = 0; i < numbers.size(); i += 1 + 2 * numbers[i]) {
      Move &move = found.emplace_back();
      for (size_t pair = i + 1; move.size() < numbers[i]; pair += 2) move.push_back({numbers[pair], numbers[pair + 1]});
    }
    return found;
  }

  static const uint8_t *bytes(const std::string &text) { return reinterpret_cast<const uint8_t *>(text.c_str()); }

  static const rbg_pair *pairs(const Move &move) {
    static const rbg_pair none = {0, 0}; // no pointer may be null
    return move.empty() ? &none : move.data();
  }

  void copy(const State &other) {
    if (rbg_result result = rbg_copy(other.at(), &held); result != RBG_EMPTY) must(result);
  }

  template <typename T> T number(rbg_result (*call)(rbg_state *, T *)) const {
    T found = 0;
    must(call(at(), &found));
    return found;
  }

  template <typename T> static std::vector<T> items(rbg_result (*call)(rbg_state *, T *, size_t, uint64_t *), rbg_state *of) {
    return stored<T>([&](T *items, size_t room, uint64_t *needed) { return call(of, items, room, needed); });
  }

  // The items that a call stores. It is asked first how many they are.
  template <typename T, typename Call> static std::vector<T> stored(Call call) {
    uint64_t needed = 0;
    T none = 0;
    rbg_result result = call(&none, 0, &needed);
    if (result != RBG_OK && result != RBG_SMALL) throw Refused(result);
    std::vector<T> found(needed + 1);
    must(call(found.data(), needed, &needed));
    found.resize(needed);
    return found;
  }
};

} // namespace rbg

#endif
