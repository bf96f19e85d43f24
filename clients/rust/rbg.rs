//! States of games in Rust, over the library of rbg.h. Each state lets go what it holds. A program names the crate so in its
//! Cargo.toml: `rbg = { path = ".../clients/rust" }`.

use std::{
    cell::{Cell, UnsafeCell},
    ffi::c_void,
    fmt,
};

#[repr(C)]
struct Handle {
    inside: *mut c_void,
}

/// A modifier of a move: the vertex on which it is applied, and its position in the rules.
#[repr(C)]
#[derive(Clone, Copy, Debug, Default, PartialEq, Eq, Hash)]
pub struct Pair {
    pub vertex: u32,
    pub position: u32,
}

#[link(name = "rbg", kind = "static")]
extern "C" {
    fn rbg_open(text: *const u8, length: usize, state: *mut Handle) -> u32;
    fn rbg_begin(text: *const u8, length: usize, state: *mut Handle) -> u32;
    fn rbg_fault(text: *const u8, length: usize, number: *mut u64, offset: *mut u64) -> u32;
    fn rbg_free(state: *mut Handle);
    fn rbg_copy(from: *mut Handle, to: *mut Handle) -> u32;
    fn rbg_unpack(from: *mut Handle, bytes: *const u8, length: usize, to: *mut Handle) -> u32;
    fn rbg_pack(state: *mut Handle, bytes: *mut u8, room: usize, needed: *mut u64) -> u32;
    fn rbg_player(state: *mut Handle, player: *mut u32) -> u32;
    fn rbg_moves_made(state: *mut Handle, made: *mut u64) -> u32;
    fn rbg_key(state: *mut Handle, key: *mut u64) -> u32;
    fn rbg_board(state: *mut Handle, pieces: *mut u16, room: usize, needed: *mut u64) -> u32;
    fn rbg_values(state: *mut Handle, values: *mut u32, room: usize, needed: *mut u64) -> u32;
    fn rbg_scores(state: *mut Handle, scores: *mut u64, room: usize, needed: *mut u64) -> u32;
    fn rbg_bounds(state: *mut Handle, bounds: *mut u32, room: usize, needed: *mut u64) -> u32;
    fn rbg_edges(state: *mut Handle, edges: *mut u32, room: usize, needed: *mut u64) -> u32;
    fn rbg_action(state: *mut Handle, position: u64, kind: *mut u32, numbers: *mut u16, room: usize, needed: *mut u64) -> u32;
    fn rbg_name(state: *mut Handle, kind: u32, index: u64, name: *mut u8, room: usize, needed: *mut u64) -> u32;
    fn rbg_find_moves(state: *mut Handle, count: *mut u64) -> u32;
    fn rbg_moves(state: *mut Handle, numbers: *mut u32, room: usize, needed: *mut u64) -> u32;
    fn rbg_move(state: *mut Handle, index: u64, pairs: *mut Pair, room: usize, needed: *mut u64) -> u32;
    fn rbg_make_found(state: *mut Handle, index: u64) -> u32;
    fn rbg_make(state: *mut Handle, pairs: *const Pair, length: usize) -> u32;
    fn rbg_hear(state: *mut Handle, pairs: *const Pair, length: usize) -> u32;
    fn rbg_undo(state: *mut Handle) -> u32;
    fn rbg_playouts(state: *mut Handle, seed: u64, count: u64, rows: *mut u64, room: usize, needed: *mut u64) -> u32;
    fn rbg_play_on(from: *mut Handle, to: *mut Handle, seed: u64, most: u64, made: *mut u64) -> u32;
    fn rbg_sample(from: *mut Handle, to: *mut Handle, seed: u64, most: u64, numbers: *mut u32, room: usize, needed: *mut u64) -> u32;
}

/// The kinds of actions, the number of no vertex, and how many pairs a move has at most.
pub const SHIFT: u32 = 0;
pub const ON: u32 = 1;
pub const OFF: u32 = 2;
pub const ASSIGN: u32 = 3;
pub const COMPARE: u32 = 4;
pub const SWITCH: u32 = 5;
pub const POSITIVE: u32 = 6;
pub const NEGATIVE: u32 = 7;
pub const NO_VERTEX: u32 = u32::MAX;
pub const MOST_PAIRS: usize = 200;

/// Why a call wasn't done: the number of its answer in rbg.h, as 5 if a move isn't legal.
#[derive(Clone, Copy, Debug, PartialEq, Eq, Hash)]
pub struct Refused(pub u32);

macro_rules! answers {
    ($($name:ident = $number:literal, $word:literal;)*) => {
        impl Refused {
            $(pub const $name: Refused = Refused($number);)*

            /// The answer in a few words.
            pub fn word(self) -> &'static str {
                match self.0 {
                    $($number => $word,)*
                    _ => "another answer",
                }
            }
        }
    };
}

answers! {
    EMPTY = 1, "empty: the handle holds no state";
    MEMORY = 2, "memory: a request was refused";
    OVER = 3, "over: above the limits of the language";
    KEEPER = 4, "keeper: its moves don't end";
    ILLEGAL = 5, "illegal: no legal move, or none that was found";
    START = 6, "start: there is no move to undo";
    SMALL = 7, "small: a buffer has too little room";
    RANGE = 8, "range: a number is out of its range";
    NO_PLACE = 9, "place: these are the bytes of none";
    TEXT = 16, "text: a description has bytes that may not be there";
    MACRO = 17, "macro: a description's macros are wrong";
    SYNTAX = 18, "syntax: a description is spelt wrong";
    GAME = 19, "game: a description is no game's";
}

impl fmt::Display for Refused {
    fn fmt(&self, out: &mut fmt::Formatter) -> fmt::Result {
        write!(out, "rbg answers {}, {}", self.0, self.word())
    }
}

impl std::error::Error for Refused {}

fn answer(result: u32) -> Result<(), Refused> {
    if result == 0 { Ok(()) } else { Err(Refused(result)) }
}

/// The pairs of a move's text, as in messages: 1 to 200 pairs, of numbers with at most nine digits and no zero before them, with one
/// space between. A text that is spelt in another way is no move: `ILLEGAL`.
pub fn pairs_of(text: &str) -> Result<Vec<Pair>, Refused> {
    let number = |word: &str| {
        let is_spelt = (1..=9).contains(&word.len()) && word.bytes().all(|it| it.is_ascii_digit()) && (word == "0" || !word.starts_with('0'));
        word.parse().ok().filter(|_| is_spelt).ok_or(Refused::ILLEGAL)
    };
    let numbers = text.split(' ').map(number).collect::<Result<Vec<u32>, Refused>>()?;
    if numbers.len() % 2 == 1 || numbers.len() > 2 * MOST_PAIRS {
        return Err(Refused::ILLEGAL);
    }
    Ok(numbers.chunks(2).map(|pair| Pair { vertex: pair[0], position: pair[1] }).collect())
}

/// The text of a move, as in messages.
pub fn text_of(pairs: &[Pair]) -> String {
    let texts: Vec<String> = pairs.iter().map(|pair| format!("{} {}", pair.vertex, pair.position)).collect();
    texts.join(" ")
}

/// Why a text is no description, if it is none: the layer that refuses it, the number of the fault, and the byte at which it is.
pub fn fault(text: &[u8]) -> Option<(Refused, u64, Option<u64>)> {
    let (mut number, mut offset) = (0, u64::MAX);
    let layer = answer(unsafe { rbg_fault(text.as_ptr(), text.len(), &mut number, &mut offset) }).err()?;
    Some((layer, number, Some(offset).filter(|at| *at != u64::MAX)))
}

/// Which names are asked for.
#[derive(Clone, Copy, Debug)]
pub enum Kind {
    Players = 0,
    Pieces = 1,
    Variables = 2,
    Directions = 3,
}

/// How random matches ended that ended alike.
#[derive(Clone, Debug, PartialEq, Eq)]
pub struct Ending {
    pub scores: Vec<u64>,
    pub matches: u64,
}

macro_rules! numbers {
    ($($(#[$text:meta])* $name:ident: $call:ident -> $number:ty;)*) => {$(
        $(#[$text])*
        pub fn $name(&self) -> Result<$number, Refused> {
            let mut number = 0;
            answer(unsafe { $call(self.at(), &mut number) })?;
            Ok(number)
        }
    )*};
}

macro_rules! items {
    ($($(#[$text:meta])* $name:ident: $call:ident -> $item:ty;)*) => {$(
        $(#[$text])*
        pub fn $name(&self) -> Result<Vec<$item>, Refused> {
            self.items(|state, items, room, needed| unsafe { $call(state, items, room, needed) })
        }
    )*};
}

/// A state of play. It is used by the thread that opened its game: another one opens the game too, and unpacks there what was
/// packed here.
pub struct State {
    // the calls that leave a state as it is look into it by moving it
    handle: UnsafeCell<Handle>,
}

impl Drop for State {
    fn drop(&mut self) {
        unsafe { rbg_free(self.at()) }
    }
}

impl Clone for State {
    /// As `copy`, which doesn't panic if memory fails.
    fn clone(&self) -> State {
        self.copy().expect("a copy")
    }
}

impl fmt::Debug for State {
    fn fmt(&self, out: &mut fmt::Formatter) -> fmt::Result {
        write!(out, "State {{ key: {:?}, board: {:?} }}", self.key(), self.board())
    }
}

impl State {
    fn empty() -> State {
        State { handle: UnsafeCell::new(Handle { inside: std::ptr::null_mut() }) }
    }

    fn at(&self) -> *mut Handle {
        self.handle.get()
    }

    /// The state that a call puts into a handle.
    fn made(call: impl FnOnce(*mut Handle) -> u32) -> Result<State, Refused> {
        let state = State::empty();
        answer(call(state.at()))?;
        Ok(state)
    }

    /// The state to which the keeper's first moves lead in the game of a description.
    pub fn open(text: &[u8]) -> Result<State, Refused> {
        State::made(|to| unsafe { rbg_open(text.as_ptr(), text.len(), to) })
    }

    /// The state where the rules begin: a match is followed from there by `hear`.
    pub fn begin(text: &[u8]) -> Result<State, Refused> {
        State::made(|to| unsafe { rbg_begin(text.as_ptr(), text.len(), to) })
    }

    /// A copy, from which no move can be undone, and in which no moves are found yet.
    pub fn copy(&self) -> Result<State, Refused> {
        State::made(|to| unsafe { rbg_copy(self.at(), to) })
    }

    /// The state at the place of these bytes in this game, from which no move can be undone.
    pub fn unpack(&self, bytes: &[u8]) -> Result<State, Refused> {
        State::made(|to| unsafe { rbg_unpack(self.at(), bytes.as_ptr(), bytes.len(), to) })
    }

    numbers! {
        /// The player to move, from 1; 0 is the keeper, or nobody.
        player: rbg_player -> u32;
        /// How many moves can be undone.
        moves_made: rbg_moves_made -> u64;
        /// A number that is the same for equal places, and hardly ever for others. The current vertex and the last action are
        /// part of it: see rbg.h for when a table of transpositions is better kept by the player, the board and the values.
        key: rbg_key -> u64;
        /// Finds the legal moves, and returns how many they are. Play is finished if there is none.
        count: rbg_find_moves -> u64;
    }

    /// The items that a call stores: it is asked first how many they are.
    fn items<T: Clone + Default>(&self, call: impl Fn(*mut Handle, *mut T, usize, *mut u64) -> u32) -> Result<Vec<T>, Refused> {
        let (mut items, mut needed) = (Vec::new(), 0);
        match answer(call(self.at(), items.as_mut_ptr(), 0, &mut needed)) {
            Err(Refused::SMALL) => items.resize(needed as usize, T::default()),
            result => result?,
        }
        answer(call(self.at(), items.as_mut_ptr(), items.len(), &mut needed))?;
        Ok(items)
    }

    items! {
        /// The place as bytes.
        pack: rbg_pack -> u8;
        /// The piece on each vertex.
        board: rbg_board -> u16;
        /// What each variable holds.
        values: rbg_values -> u32;
        /// What each player has scored.
        scores: rbg_scores -> u64;
        /// The greatest number that each variable may hold.
        bounds: rbg_bounds -> u32;
        /// For each vertex in turn where each direction leads; u32::MAX is nowhere.
        edges: rbg_edges -> u32;
        /// All legal moves as rbg.h has them: of each how many pairs it has, and these.
        moves: rbg_moves -> u32;
    }

    /// The action at a position of the rules, from 1: its kind in rbg.h, and the numbers of what it names.
    pub fn action(&self, position: u64) -> Result<(u32, Vec<u16>), Refused> {
        let kind = Cell::new(0);
        let items = self.items(|state, items, room, needed| unsafe { rbg_action(state, position, kind.as_ptr(), items, room, needed) })?;
        Ok((kind.get(), items))
    }

    /// A name, by its index from 0.
    pub fn name(&self, kind: Kind, index: u64) -> Result<String, Refused> {
        let bytes = self.items(|state, items, room, needed| unsafe { rbg_name(state, kind as u32, index, items, room, needed) })?;
        Ok(String::from_utf8_lossy(&bytes).into_owned())
    }

    /// The legal move of this index. `count` has found the moves.
    pub fn legal(&self, index: u64) -> Result<Vec<Pair>, Refused> {
        self.items(|state, items, room, needed| unsafe { rbg_move(state, index, items, room, needed) })
    }

    /// Makes the move of this index, and the keeper's moves after it. `ILLEGAL` also means that no moves were found since the last
    /// one was made or undone.
    pub fn make_found(&mut self, index: u64) -> Result<(), Refused> {
        answer(unsafe { rbg_make_found(self.at(), index) })
    }

    /// Makes the move of these pairs, and the keeper's moves after it.
    pub fn make(&mut self, pairs: &[Pair]) -> Result<(), Refused> {
        answer(unsafe { rbg_make(self.at(), pairs.as_ptr(), pairs.len()) })
    }

    /// Makes a move as a referee passes it on: the keeper's moves are passed on too, so none is made after it.
    pub fn hear(&mut self, pairs: &[Pair]) -> Result<(), Refused> {
        answer(unsafe { rbg_hear(self.at(), pairs.as_ptr(), pairs.len()) })
    }

    /// Undoes the last move of a player.
    pub fn undo(&mut self) -> Result<(), Refused> {
        answer(unsafe { rbg_undo(self.at()) })
    }

    /// How this many random matches from here end, 1 to 1,000,000. Those that are stopped after 10,000 moves aren't among them.
    pub fn playouts(&self, seed: u64, count: u64) -> Result<Vec<Ending>, Refused> {
        let width = self.scores()?.len() + 1;
        // matches end in few ways: if there is too little room for these, they are played again
        let (mut rows, mut needed) = (vec![0; width * count.clamp(1, 64) as usize], 0);
        let call = |rows: &mut Vec<u64>, needed: &mut u64| unsafe { rbg_playouts(self.at(), seed, count, rows.as_mut_ptr(), rows.len(), needed) };
        let mut answered = answer(call(&mut rows, &mut needed));
        if answered == Err(Refused::SMALL) {
            rows.resize(needed as usize, 0);
            answered = answer(call(&mut rows, &mut needed));
        }
        answered?;
        rows.truncate(needed as usize);
        Ok(rows.chunks(width).map(|row| Ending { matches: row[0], scores: row[1..].to_vec() }).collect())
    }

    /// A copy on which random moves were made, at most this many, until play is finished. They can be undone there.
    pub fn play_on(&self, seed: u64, most: u64) -> Result<State, Refused> {
        State::made(|to| unsafe { rbg_play_on(self.at(), to, seed, most, &mut 0) })
    }

    /// The same, and the moves that were made, in the form of `moves`.
    pub fn sample(&self, seed: u64, most: u64) -> Result<(State, Vec<u32>), Refused> {
        let to = State::empty();
        let handle = to.at();
        let moves = self.items(|from, items, room, needed| unsafe { rbg_sample(from, handle, seed, most, items, room, needed) })?;
        Ok((to, moves))
    }
}
