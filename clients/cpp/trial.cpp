// Tries what the classes of rbg.hpp accept and refuse: trial GAME. The game is tic-tac-toe. It says nothing if all is well, and
// ends if it takes too much memory or too long.
#include "rbg.hpp"

#include <cstdlib>
#include <fstream>
#include <iostream>
#include <sstream>
#include <sys/resource.h>
#include <thread>
#include <unistd.h>

static void check(bool holds, const std::string &what) {
  if (!holds) {
    std::cout << "wrong: " << what << std::endl;
    std::_Exit(1);
  }
}

/// By what a call is refused, RBG_OK if it isn't. It is always one of the header's answers, with a word.
template <typename Call> static rbg_result refusal(Call call) {
  try {
    call();
  } catch (const rbg::Refused &refused) {
    check(std::string(refused.what()).find(rbg::word_of(refused.number)) != std::string::npos, "a refusal has a word");
    check(rbg::word_of(refused.number) != rbg::word_of(99), "a word of its own");
    return refused.number;
  }
  return RBG_OK;
}

static void texts() {
  std::string pairs = "0 1", more;
  for (int i = 1; i < RBG_MOST_PAIRS; i++) pairs += " 0 1";
  more = pairs + " 0 1";
  for (const std::string &text : {std::string("48 7 40 13"), std::string("0 0"), std::string("999999999 1"), pairs})
    check(rbg::text_of(rbg::move_of(text)) == text, "a move is read as it is spelt: " + text);
  for (const std::string &text :
       {std::string("48 7 40 13\n"), std::string("48 7 x"), std::string("4294967344 1"), std::string("-1 1"), std::string("+1 1"),
        std::string("4 9 4"), std::string("4"), std::string(""), std::string(" "), std::string("04 9"), std::string("4  9"),
        std::string("4 9 "), std::string(" 4 9"), std::string("4\t9"), std::string("00 9"), std::string("1000000000 1"),
        std::string("4 9\0", 4), more})
    check(refusal([&] { rbg::move_of(text); }) == RBG_ILLEGAL, "a text that is no move is refused: " + text);
}

static void playouts(const rbg::State &state) {
  const uint64_t most = 1000000, wrong[] = {0, most + 1, uint64_t(1) << 40, ~uint64_t(0), ~uint64_t(0) / 3 + 1};
  for (uint64_t count : wrong) check(refusal([&] { state.playouts(1, count); }) == RBG_RANGE, "a count is out of its range");
  for (uint64_t count : {1, 63, 64, 65, 1000}) {
    uint64_t sum = 0;
    for (const rbg::Ending &ending : state.playouts(7, count)) {
      sum += ending.matches;
      check(ending.scores.size() == 2 && ending.scores[0] + ending.scores[1] == 100, "scores");
    }
    check(sum == count, "so many matches");
  }
}

static void states(const std::string &text) {
  const rbg::State first = rbg::State::open(text); // an object that is const from its beginning
  check(first.player() == 1 && first.moves().size() == 9 && first.board().size() == 9 && first.values().size() == 2, "the first place");
  check(first.names(RBG_PLAYERS).size() == 2 && first.names(9).empty(), "names");
  rbg::State other = first, moved = std::move(other);
  check(refusal([&] { other.player(); }) == RBG_EMPTY, "a state that was moved from");
  check(refusal([&] { moved.make(uint64_t(0)); }) == RBG_ILLEGAL, "no found moves go along in a copy");
  check(moved.count() == 9, "moves");
  moved.make(uint64_t(4)), moved.undo();
  check(moved.key() == first.key() && first.unpack(moved.pack()).key() == first.key(), "the same place");
  check(refusal([&] { moved.undo(); }) == RBG_START, "nothing to undo");
  check(refusal([&] { moved.make(rbg::Move()); }) == RBG_ILLEGAL, "a move of no pairs");
  check(refusal([&] { first.unpack({}); }) == RBG_NO_PLACE, "bytes of no place");
  moved = rbg::State(), other = first, std::swap(moved, other);
  check(moved.player() == 1 && refusal([&] { other.player(); }) == RBG_EMPTY, "states are swapped");
  auto [later, made] = first.sample(7, 3);
  check(made.size() == 3 && later.moves_made() == 3, "random moves");
  check(refusal([&] { rbg::State::open(text.substr(0, 200)); }) >= RBG_TEXT, "no game's text");
  const std::vector<uint8_t> packed = later.pack();
  uint64_t here = later.key(), there = 0;
  std::thread([&] { there = rbg::State::open(text).unpack(packed).key(); }).join();
  check(here == there, "a state crosses to another thread as bytes");
  playouts(first);
}

int main(int argc, char **argv) {
#ifndef __SANITIZE_ADDRESS__
  rlimit memory{1u << 30, 1u << 30};
  setrlimit(RLIMIT_AS, &memory);
#endif
  alarm(60);
  std::ifstream file(argc > 1 ? argv[1] : "");
  std::stringstream text;
  text << file.rdbuf();
  texts();
  states(text.str());
}
