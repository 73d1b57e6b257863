//! What no schedule can show: words by themselves, values that only the
//! library's own callers can give, and boards not in good form.

use super::Board;
use crate::call::{Answer, Call, Refusal, NO_VALUES};
use crate::process::{Access, Copying, Place};
use crate::sizes::{Kind, Settings, MOST_SEGMENTS, MOST_WORDS};
use crate::word::Layout;

fn board(kind: Kind) -> Board {
    let segments = if kind == Kind::One { 1 } else { 2 };
    let settings = Settings { kind, processes: 2, variables: 2, tag_bits: 4, segments };
    Board::set_up(settings, true).expect("within the sizes")
}

/// Process 0 has its sequence on variable 0 open and is idle.
fn loaded(kind: Kind) -> Board {
    let mut board = board(kind);
    board.begin(0, Call::Load(0), NO_VALUES);
    while board.processes[0].place != Place::Idle {
        board.step(0);
    }
    board
}

#[test]
fn p1_packs_and_unpacks() {
    let layout = Layout::new(48).expect("48 stands");
    assert_eq!(layout.pack(3, 5), 196_613);
    assert_eq!((layout.tag(196_613), layout.value(196_613)), (3, 5));
}

#[test]
fn p2_tags_wrap() {
    let layout = Layout::new(4).expect("4 stands");
    assert_eq!((layout.next_tag(15), layout.previous_tag(0)), (0, 15));
    assert_eq!((layout.next_tag(0), layout.previous_tag(15)), (1, 14));
}

#[test]
fn p6_tag_bits() {
    let stands: Vec<u64> = (0..=64).filter(|&b| Layout::new(b).is_some()).collect();
    assert_eq!(stands, (4..=48).collect::<Vec<_>>());
}

#[test]
fn words_used() {
    assert_eq!(board(Kind::One).used_words().len(), 2);
    assert_eq!(board(Kind::Many).used_words().len(), 2 * 3 + 2 * 2);
    assert_eq!(MOST_WORDS, 144);
}

#[test]
fn values_where_none_belong() {
    let mut board = loaded(Kind::Many);
    let refused = Answer::Refused(Refusal::Value);
    assert_eq!(board.begin(0, Call::Load(0), [0, 0, 0, 1]), refused);
    assert_eq!(board.begin(0, Call::Validate(0), [1, 0, 0, 0]), refused);
    assert_eq!(board.begin(0, Call::Store(0), [1, 2, 3, 0]), refused);
    assert_eq!(board.begin(0, Call::Store(0), [1, 2, 0, 0]), Answer::Begun);
}

/// Every entry point refuses the damaged board and leaves it as found.
fn refuses_form(kind: Kind, damage: fn(&mut Board)) {
    let mut board = loaded(kind);
    assert!(board.in_good_form());
    damage(&mut board);
    let found = board.clone();
    let refused = Answer::Refused(Refusal::Form);
    assert_eq!(board.begin(9, Call::Load(9), [9; MOST_SEGMENTS]), refused);
    assert_eq!(board.step(9), refused);
    assert_eq!(board.open_count(9), Err(Refusal::Form));
    assert_eq!(board, found);
}

const TOO_WIDE: u64 = 1 << 60;
const NO_PROCESS: u64 = 2;

fn copying(var: usize, header: u64, segment: usize, access: Access) -> Place {
    let copy = Copying { var, header, segment, gathers: true };
    Place::Copy { copy, access }
}

#[test]
fn places_not_in_form() {
    const DAMAGES: [fn(&mut Board); 10] = [
        |b| b.processes[1].place = Place::LoadWord { var: 0 },
        |b| b.processes[1].place = Place::LoadHeader { var: 2 },
        |b| b.processes[1].place = Place::ValidateHeader { var: 0 },
        |b| b.processes[0].place = Place::StoreHeader { var: 1 },
        |b| b.processes[0].place = Place::Announce { var: 0, header: 0, segment: 2 },
        |b| b.processes[0].place = Place::SwapHeader { var: 0, header: NO_PROCESS },
        |b| b.processes[0].place = copying(0, 0, 2, Access::ReadSegment),
        |b| b.processes[1].place = copying(0, 0, 0, Access::ReadSegment),
        |b| {
            let access = Access::SwapSegment { word: 0, announced: TOO_WIDE };
            b.processes[0].place = copying(0, 0, 0, access);
        },
        |b| b.processes[0].place = copying(0, 0, 0, Access::ReadHeader { value: TOO_WIDE }),
    ];
    for damage in DAMAGES {
        refuses_form(Kind::Many, damage);
    }
    refuses_form(Kind::One, |b| b.processes[0].place = Place::LoadHeader { var: 0 });
}

#[test]
fn contents_not_in_form() {
    const DAMAGES: [fn(&mut Board); 6] = [
        |b| b.words[b.first_at(1)] = NO_PROCESS,
        |b| b.words[b.announce_at(1, 1)] = TOO_WIDE,
        |b| b.processes[1].keep[1] = 16,
        |b| b.processes[1].new[3] = TOO_WIDE,
        |b| b.processes[1].gathered[3] = TOO_WIDE,
        |b| b.processes[1].open = 1 << 2,
    ];
    for damage in DAMAGES {
        refuses_form(Kind::Many, damage);
    }
}

#[test]
fn what_form_does_not_ask() {
    let mut board = loaded(Kind::Many);
    board.words[board.segment_at(1, 1)] = u64::MAX;
    board.words[board.first_at(1)] = board.layout.pack(15, 1);
    board.words[MOST_WORDS - 1] = u64::MAX;
    board.processes[1].keep[2] = u64::MAX;
    board.processes[2].open = u16::MAX;
    board.processes[2].place = Place::SwapWord { var: 99 };
    assert!(board.in_good_form());
    let mut board = loaded(Kind::One);
    board.words[0] = u64::MAX;
    board.processes[0].keep[0] = u64::MAX;
    assert!(board.in_good_form());
}
