// A player for `rbg serve` and `rbg hall`: it follows any match by the library, and chooses its moves by UCT.
//   player PORT [MILLISECONDS [SEED [MATCH]]]
// It thinks for so long about a move, and no longer than half of what is left of its turn.
#include "rbg.hpp"

#include <algorithm>
#include <arpa/inet.h>
#include <chrono>
#include <cmath>
#include <iostream>
#include <memory>
#include <poll.h>
#include <random>
#include <unistd.h>

using std::string;
using Clock = std::chrono::steady_clock;
using Milliseconds = std::chrono::duration<double, std::milli>;

const int QUIET = 100; // milliseconds
std::mt19937_64 chance;
double highest = 1; // the highest score that was met

/// A place that was met. Of its moves those from `first` on were tried, in a circle.
struct Node {
  explicit Node(rbg::State at)
      : state(std::move(at)), player(state.player()), moves(state.count()), first(moves ? chance() % moves : 0) {}

  rbg::State state;
  uint32_t player;
  uint64_t moves, first;
  std::vector<std::unique_ptr<Node>> children;
  double visits = 0, total = 0; // the total is of the player who moved here

  rbg::Move move_to(size_t child) const { return state.move((first + child) % moves); }

  double worth(const Node &child) const {
    return child.total / child.visits / highest + 0.7 * std::sqrt(std::log(visits) / child.visits);
  }

  /// The child that is to be met next: a new one, or the one that is worth most.
  Node &next() {
    if (children.size() < moves) {
      rbg::State to = state;
      to.make(move_to(children.size()));
      children.push_back(std::make_unique<Node>(std::move(to)));
      return *children.back();
    }
    auto less = [this](const auto &one, const auto &other) { return worth(*one) < worth(*other); };
    return **std::max_element(children.begin(), children.end(), less);
  }

  /// A match that is stopped has scores of 0.
  std::vector<uint64_t> by_chance() {
    auto endings = state.playouts(chance());
    return endings.empty() ? std::vector<uint64_t>(state.scores().size()) : endings[0].scores;
  }

  /// The scores of one match from here, to where a player has moved: through the tree, and then at random.
  std::vector<uint64_t> play(uint32_t mover) {
    auto scores = moves && (visits || !mover) ? next().play(player) : moves ? by_chance() : state.scores();
    double score = mover ? static_cast<double>(scores[mover - 1]) : 0;
    visits += 1, total += score, highest = std::max(highest, score);
    return scores;
  }
};

rbg::Move choose(Node &root, Clock::time_point until) {
  do root.play(0);
  while (root.moves > 1 && Clock::now() < until);
  auto less = [](const auto &one, const auto &other) { return one->visits < other->visits; };
  return root.move_to(std::max_element(root.children.begin(), root.children.end(), less) - root.children.begin());
}

/// Messages over a connection: a message is the bytes before a zero byte.
class Stream {
public:
  explicit Stream(uint16_t port) : line(socket(AF_INET, SOCK_STREAM, 0)) {
    sockaddr_in to{AF_INET, htons(port), {htonl(INADDR_LOOPBACK)}, {}};
    if (connect(line, reinterpret_cast<sockaddr *>(&to), sizeof to)) throw std::runtime_error("can't connect");
  }
  Stream(const Stream &) = delete;
  ~Stream() { close(line); }

  /// Whether all that came was heard, and nothing comes for so many milliseconds.
  bool is_quiet(int quiet) const {
    pollfd asked{line, POLLIN, 0};
    return bytes.find('\0') == string::npos && poll(&asked, 1, quiet) == 0;
  }

  string hear() {
    size_t end;
    while ((end = bytes.find('\0')) == string::npos) {
      char piece[65536];
      ssize_t more = read(line, piece, sizeof piece);
      if (more <= 0) throw std::runtime_error("the stream has ended");
      bytes.append(piece, more);
    }
    string message = bytes.substr(0, end);
    bytes.erase(0, end + 1);
    return message;
  }

  void say(const string &message) {
    if (write(line, message.c_str(), message.size() + 1) < 0) throw std::runtime_error("the stream has ended");
  }

private:
  int line;
  string bytes;
};

/// Plays a match to its end, and returns the last message.
string play(Stream &stream, Milliseconds think) {
  rbg::State state;
  uint32_t me = 0;
  Milliseconds turn(1e12);
  Clock::time_point began;
  for (int quiet = QUIET, owes = 0;;) { // owes: a move was heard since the last one was said
    // After a restart the whole match comes at once: until nothing came for a while, a move may be an old one.
    if (owes && stream.is_quiet(quiet)) {
      Node root(state);
      auto time = std::min(think, turn / 2 - Milliseconds(Clock::now() - began));
      if (root.player == me && root.moves)
        stream.say("M" + rbg::text_of(choose(root, Clock::now() + std::chrono::duration_cast<Clock::duration>(time))));
      owes = quiet = 0;
    }
    string message = stream.hear(), rest = message.substr(1);
    switch (message[0]) {
    case 'W': me = static_cast<uint32_t>(std::stoul(rest)); break;
    case 'G': state = rbg::State::begin(rest); break;
    case 'L': turn = Milliseconds(std::stod(rest)), quiet = static_cast<int>(std::min<double>(QUIET, turn.count() / 10)); break;
    case 'M': state.hear(rbg::move_of(rest)), began = Clock::now(), owes = 1; break;
    case 'E': return message;
    default:
      if (rest != "2") throw std::runtime_error("refused: " + message); // R2: it came too late to be the player's own
    }
  }
}

int main(int argc, char **argv) try {
  chance.seed(argc > 3 ? std::stoull(argv[3]) : 1);
  Stream stream(static_cast<uint16_t>(argc > 1 ? std::stoul(argv[1]) : 0));
  if (argc > 4) stream.say(string("H") + argv[4]);
  std::cout << play(stream, Milliseconds(argc > 2 ? std::stod(argv[2]) : 100)) << std::endl;
} catch (const std::exception &error) {
  std::cerr << error.what() << std::endl;
  return 3;
}
