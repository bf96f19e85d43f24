//! A player for `rbg serve` and `rbg hall`: it follows any match by the library, and chooses its moves by UCT.
//!     player PORT [MILLISECONDS [SEED [MATCH]]]
//! It thinks for so long about a move, and no longer than half of what is left of its turn.

use rbg::{pairs_of, text_of, Pair, State};
use std::error::Error;
use std::io::{ErrorKind, Read, Write};
use std::net::TcpStream;
use std::time::{Duration, Instant};

type Result<T> = std::result::Result<T, Box<dyn Error>>;

const QUIET: Duration = Duration::from_millis(100);

/// What all places of a search share.
struct Search {
    seed: u64,
    highest: f64, // the highest score that was met
}

impl Search {
    fn chance(&mut self) -> u64 {
        self.seed = self.seed.wrapping_add(0x9e37_79b9_7f4a_7c15);
        self.seed.wrapping_mul(0xbf58_476d_1ce4_e5b9) >> 20
    }
}

/// A place that was met. Of its moves those from `first` on were tried, in a circle.
struct Node {
    state: State,
    player: u32,
    moves: u64,
    first: u64,
    children: Vec<Node>,
    visits: f64,
    total: f64, // of the player who moved here
}

impl Node {
    fn at(state: State, search: &mut Search) -> Result<Node> {
        let (player, moves) = (state.player()?, state.count()?);
        let first = search.chance() % moves.max(1);
        Ok(Node { state, player, moves, first, children: Vec::new(), visits: 0.0, total: 0.0 })
    }

    fn move_to(&self, child: usize) -> Result<Vec<Pair>> {
        Ok(self.state.legal((self.first + child as u64) % self.moves)?)
    }

    /// The child that is to be met next: a new one, or the one that is worth most.
    fn next(&mut self, search: &mut Search) -> Result<&mut Node> {
        let tried = self.children.len();
        if (tried as u64) < self.moves {
            let pairs = self.move_to(tried)?;
            let mut to = self.state.copy()?;
            to.make(&pairs)?;
            self.children.push(Node::at(to, search)?);
            return Ok(&mut self.children[tried]);
        }
        let (log, highest) = (self.visits.ln(), search.highest);
        let worth = |it: &Node| it.total / it.visits / highest + 0.7 * (log / it.visits).sqrt();
        let best = self.children.iter_mut().max_by(|one, other| worth(one).total_cmp(&worth(other)));
        best.ok_or("no move".into())
    }

    /// The scores of one match from here, to where a player has moved: through the tree, and then at random.
    fn play(&mut self, mover: u32, search: &mut Search) -> Result<Vec<u64>> {
        let scores = if self.moves == 0 {
            self.state.scores()?
        } else if self.visits > 0.0 || mover == 0 {
            let player = self.player;
            self.next(search)?.play(player, search)?
        } else {
            // a match that is stopped has no scores
            self.state.playouts(search.chance(), 1)?.pop().map_or(Vec::new(), |ending| ending.scores)
        };
        let score = mover.checked_sub(1).and_then(|index| scores.get(index as usize)).map_or(0.0, |score| *score as f64);
        self.visits += 1.0;
        self.total += score;
        search.highest = search.highest.max(score);
        Ok(scores)
    }

    fn choose(&mut self, until: Instant, search: &mut Search) -> Result<Vec<Pair>> {
        while self.visits == 0.0 || (self.moves > 1 && Instant::now() < until) {
            self.play(0, search)?;
        }
        let visits = |index: &usize| self.children[*index].visits as u64;
        let best = (0..self.children.len()).max_by_key(visits).ok_or("no move")?;
        self.move_to(best)
    }
}

/// Plays a match to its end, and returns the last message.
fn play(mut stream: TcpStream, think: Duration, mut search: Search) -> Result<String> {
    let (mut bytes, mut piece) = (Vec::new(), vec![0; 65536]);
    let (mut state, mut me, mut turn, mut began) = (None, 0, Duration::MAX, Instant::now());
    let (mut quiet, mut owes) = (QUIET, false); // owes: a move was heard since the last one was said
    loop {
        let Some(end) = bytes.iter().position(|byte| *byte == 0) else {
            // After a restart the whole match comes at once: until nothing came for a while, a move may be an old one.
            stream.set_read_timeout(if owes { Some(quiet) } else { None })?;
            match (stream.read(&mut piece), &mut state) {
                (Ok(0), _) => return Err("the stream has ended".into()),
                (Ok(more), _) => bytes.extend_from_slice(&piece[..more]),
                (Err(error), Some(state)) if error.kind() == ErrorKind::WouldBlock => {
                    let mut root = Node::at(State::copy(state)?, &mut search)?;
                    if root.player == me && root.moves > 0 {
                        let until = Instant::now() + think.min(turn.saturating_sub(began.elapsed()) / 2);
                        stream.write_all(format!("M{}\0", text_of(&root.choose(until, &mut search)?)).as_bytes())?;
                    }
                    (quiet, owes) = (Duration::from_millis(1), false);
                }
                (Err(error), _) => return Err(error.into()),
            }
            continue;
        };
        let message = String::from_utf8_lossy(&bytes.drain(..=end).collect::<Vec<u8>>()[..end]).into_owned();
        match (message.split_at(1), &mut state) {
            (("W", rest), _) => me = rest.split(' ').next().unwrap_or("").parse()?,
            (("G", rest), _) => state = Some(State::begin(rest.as_bytes())?),
            (("L", rest), _) => (turn = Duration::from_millis(rest.split(' ').next().unwrap_or("").parse()?), quiet = QUIET.min(turn / 10)).0,
            (("M", rest), Some(state)) => (state.hear(&pairs_of(rest)?)?, began = Instant::now(), owes = true).0,
            (("E", _), _) => return Ok(message),
            (("R", "2"), _) => {} // a move that came too late to be the player's own
            _ => return Err(format!("refused: {message}").into()),
        }
    }
}

fn main() -> Result<()> {
    let words: Vec<String> = std::env::args().collect();
    let number = |index: usize, other: u64| words.get(index).map_or(Ok(other), |word| word.parse::<u64>());
    let mut stream = TcpStream::connect(("127.0.0.1", number(1, 0)? as u16))?;
    words.get(4).map_or(Ok(()), |hall| stream.write_all(format!("H{hall}\0").as_bytes()))?;
    let search = Search { seed: number(3, 1)?, highest: 1.0 };
    println!("{}", play(stream, Duration::from_millis(number(2, 100)?), search)?);
    Ok(())
}
