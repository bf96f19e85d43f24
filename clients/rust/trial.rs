//! Tries what the crate accepts and refuses: trial GAME. The game is tic-tac-toe. It says nothing if all is well.

use rbg::{fault, pairs_of, text_of, Kind, Refused, State};

fn texts() {
    let pairs = vec!["0 1"; 200].join(" ");
    for text in ["48 7 40 13", "0 0", "999999999 1", &pairs] {
        assert_eq!(pairs_of(text).map(|it| text_of(&it)).as_deref(), Ok(text));
    }
    let more = format!("{pairs} 0 1");
    let wrong = ["48 7 40 13\n", "48 7 x", "4294967344 1", "-1 1", "+1 1", "4 9 4", "4", "", " ", "04 9", "4  9", "4 9 ", "1000000000 1", "٤ 9", &more];
    for text in wrong {
        assert_eq!(pairs_of(text), Err(Refused::ILLEGAL), "{text}");
    }
}

fn playouts(state: &State) {
    for count in [0, 1_000_001, 1 << 40, u64::MAX, u64::MAX / 3 + 1] {
        assert_eq!(state.playouts(1, count), Err(Refused::RANGE), "{count}");
    }
    for count in [1, 63, 64, 65, 1000] {
        let endings = state.playouts(7, count).unwrap();
        assert_eq!(endings.iter().map(|it| it.matches).sum::<u64>(), count);
        assert!(endings.iter().all(|it| it.scores.iter().sum::<u64>() == 100));
    }
}

fn states(text: &[u8]) {
    let first = State::open(text).unwrap();
    assert_eq!((first.player(), first.count(), first.name(Kind::Pieces, 1)), (Ok(1), Ok(9), Ok("x".to_string())));
    assert_eq!(first.name(Kind::Players, 2), Err(Refused::RANGE));
    let mut other = first.clone();
    assert_eq!(other.make_found(0), Err(Refused::ILLEGAL)); // no found moves go along in a copy
    let pairs = first.legal(4).unwrap();
    other.make(&pairs).unwrap();
    assert_ne!(other.key(), first.key());
    assert_eq!(first.unpack(&other.pack().unwrap()).unwrap().key(), other.key());
    assert_eq!((other.undo(), other.key(), other.undo()), (Ok(()), first.key(), Err(Refused::START)));
    assert_eq!((other.make(&[]), first.unpack(&[]).err()), (Err(Refused::ILLEGAL), Some(Refused::NO_PLACE)));
    let (later, moves) = first.sample(7, 3).unwrap();
    assert_eq!((later.moves_made(), moves.len()), (Ok(3), 15));
    assert_eq!(fault(b"#players = white(1)\n#pieces = &"), Some((Refused::TEXT, 3, Some(30))));
    assert_eq!(State::open(b"#players = white(1)").err(), Some(Refused::SYNTAX));
    playouts(&first);
}

fn main() {
    assert_eq!(Refused::ILLEGAL.to_string(), "rbg answers 5, illegal: no legal move, or none that was found");
    assert!((1..20).filter(|number| Refused(*number).word() != "another answer").count() == 13);
    texts();
    states(&std::fs::read(std::env::args().nth(1).expect("a game")).expect("a file"));
}
