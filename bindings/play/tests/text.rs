//! The text format: what is forgiven, and what each fault says.

use katmos::Arrows;
use play::played::play;
use play::text::{read, Call};

/// Board A and its call.
const A: &str = "turf 10 32\nturf 20 16\nlink 10 20\nequalize 10\n";

/// The faults of a text.
fn faults(text: &str) -> Vec<String> {
    read(text).expect_err(text).iter().map(ToString::to_string).collect()
}

/// The one fault of board A with these lines after it.
fn fault(lines: &str) -> String {
    let all = faults(&format!("{A}{lines}"));
    assert_eq!(all.len(), 1, "{all:?}");
    all[0].clone()
}

#[test]
fn a_board_is_read_and_played() {
    let script = read(A).expect("a board");
    assert_eq!((&script.board.tables.ids[..], &script.board.tables.amounts[..]), (&[10, 20][..], &[32.0, 16.0][..]));
    let played = play(&script).expect("accepted");
    assert_eq!(played[0].events.to_string(), "3 0 41000000 10 20\n");
    assert_eq!(played[0].counts, "cancelled 0, processed 2, tests 4, zones 1, apart 1");
    assert_eq!(played[0].after.tables.amounts, [24.0, 24.0]);
}

#[test]
fn spaces_comments_and_case_are_forgiven() {
    let loose = "\u{feff}# a comment\r\n\r\n  TURF\t10   32 # hot\r\n turf 20 16 name = big_hall at= 1 , 0\r\nLink 10 20\r\nequalize 20, 10 10 turns = 0 , 1\r\n";
    let script = read(loose).expect("a board");
    assert_eq!(script.board.tables, read(A).expect("a board").board.tables);
    assert_eq!((script.places[1].name.as_str(), script.places[1].at), ("big hall", Some((1, 0))));
    assert_eq!(read("Title  One,  two = 2 # three\nturf 1").expect("a board").title, "One, two = 2");
    let Call::Equalize { hot, turns, .. } = &script.calls[0].1 else { panic!("{:?}", script.calls) };
    assert_eq!((&hot[..], &turns[..]), (&[10, 20][..], &[0, 1][..]));
}

#[test]
fn every_word_of_a_turf_and_a_link() {
    let script = read("gases 2\nturf 9 1\nturf 5 with=9 planetary disabled\nturf 7 immutable flags=1\noneway 9 5 firelock\nlink 7 9 flags=1")
        .expect("a board");
    let t = &script.board.tables;
    assert_eq!((&t.ids[..], &t.flags[..], &t.planetary[..]), (&[5, 7, 9][..], &[0, 1, 2][..], &[1, 0, 0][..]));
    assert_eq!((&t.mixtures[..], &t.immutable[..], &t.amounts[..]), (&[0, 1, 0][..], &[0, 1][..], &[1.0, 0.0, 0.0, 0.0][..]));
    assert_eq!((&t.starts[..], &t.neighbours[..], &t.link_flags[..]), (&[0, 0, 1, 3][..], &[2, 0, 1][..], &[1, 2, 1][..]));
}

#[test]
fn faults_have_their_lines() {
    assert_eq!(fault("turf 10 5"), "line 5: turf 10 stands in line 1 already");
    assert_eq!(fault("turf ten 5"), "line 5: id 'ten' isn't a whole number from 0 to 4294967295");
    assert_eq!(fault("\nturf"), "line 6: an id is missing");
    assert_eq!(fault("turf 30 -1"), "line 5: amount '-1' isn't a number from 0 to 1.0995116e12");
    assert_eq!(fault("turf 30 1x"), "line 5: amount '1x' isn't a number from 0 to 1.0995116e12");
    assert_eq!(fault("turf 30 at=5"), "line 5: at '5' isn't a column and a row, like at=2,0");
    assert_eq!(fault("turf 30 flags=256"), "line 5: flags 256 isn't a number from 0 to 255");
    assert_eq!(fault("turf 30 with=31"), "line 5: with=31: no turf 31 has a mixture of its own");
    assert_eq!(fault("turf 30 1 colour=red"), "line 5: 'colour=red' isn't understood here");
    assert_eq!(fault("link 10 30"), "line 5: no turf 30");
    assert_eq!(fault("link 20 10"), "line 5: turf 20 is linked to 10 already");
    assert_eq!(fault("oneway 10 10"), "line 5: turf 10 is linked to itself");
    assert_eq!(fault("answer 30"), "line 5: '30' isn't understood here");
    assert_eq!(fault("link 10"), "line 5: an id is missing");
    assert_eq!(fault("equalize 10 threshold=inf"), "line 5: threshold 'inf' isn't a number from 0 to 3.4028235e38");
    assert_eq!(fault("equalize 10 turns=1,x"), "line 5: turns 'x' isn't a whole number from 0 to 4294967295");
    assert_eq!(fault("depressurize 11"), "line 5: no turf 11");
    assert_eq!(fault("depressurize 10 arrows=out"), "line 5: arrows 'out' isn't as-text or to-space");
    assert_eq!(fault("answer arrows="), "line 5: arrows '' isn't as-text or to-space");
    assert_eq!(fault("planet 10 arrows=to-space"), "line 5: 'arrows=to-space' isn't understood here");
    let keywords = "title, gases, turf, link, oneway, equalize, depressurize, planet, answer";
    assert_eq!(fault("vent 10"), format!("line 5: 'vent' isn't one of: {keywords}"));
    assert_eq!(fault("gases many"), "line 5: gases wants a whole number");
}

#[test]
fn all_faults_come_in_order() {
    assert_eq!(
        faults("turf 1 1 1\ngases 1\nlink 1 2\nturf x"),
        ["line 1: 2 amounts, and there are 1 gases", "line 3: no turf 2", "line 4: id 'x' isn't a whole number from 0 to 4294967295",]
    );
    assert_eq!(faults(""), ["line 1: the board has no turf"]);
    assert_eq!(faults("# nothing\n\n"), ["line 2: the board has no turf"]);
}

#[test]
fn a_refusal_has_its_calls_line() {
    let refused = |text: &str| play(&read(text).expect("read")).expect_err("a refusal").to_string();
    assert_eq!(refused("gases 65\nturf 10 1\n\nplanet 10"), "line 4: refused: gases: 65, which isn't 1 to 64");
    assert_eq!(refused("gases 0\nturf 10\nplanet 10"), "line 3: refused: gases: 0, which isn't 1 to 64");
}

#[test]
fn answers_follow_what_was_asked() {
    let script = read("turf 10 32\nturf 20 immutable\nlink 10 20\nequalize 10\nanswer limit=10").expect("a board");
    let played = play(&script).expect("accepted");
    assert_eq!(
        played.iter().map(|played| played.call.as_str()).collect::<Vec<_>>(),
        ["equalize 10 threshold=0.5 limit=1000 allowance=1000000", "depressurize 10 limit=10"]
    );
    assert_eq!((played[1].counts.as_str(), played[1].events.as_bytes().len()), ("outcome 2", 84));
}

/// The breach of P12, with this line at its end.
fn breach(line: &str) -> String {
    format!("turf 10 32\nturf 20 immutable\nlink 10 20\nequalize 10\n{line}")
}

#[test]
fn arrows_are_the_texts_unless_they_are_to_point_to_space() {
    let arrows = |line: &str| match read(&breach(line)).expect("a board").calls[1].1 {
        Call::Depressurize { arrows, .. } | Call::Answer { arrows, .. } => arrows,
        ref other => panic!("{other:?}"),
    };
    for call in ["depressurize 10", "answer"] {
        assert_eq!(arrows(call), Arrows::AsText);
        assert_eq!(arrows(&format!("{call} arrows=as-text")), Arrows::AsText);
        assert_eq!(arrows(&format!("{call} limit=10 Arrows = To-Space")), Arrows::ToSpace);
    }
}

#[test]
fn arrows_to_space_are_named_and_told() {
    let last = |line: &str| play(&read(&breach(line)).expect("a board")).expect("accepted").pop().expect("a call");
    for (call, name) in [("depressurize 10", "depressurize 10 limit=1000"), ("answer limit=7", "depressurize 10 limit=7")] {
        let (text, out) = (last(&format!("{call} arrows=as-text")), last(&format!("{call} arrows=to-space")));
        assert_eq!((text.call.as_str(), out.call), (name, format!("{name} arrows=to-space")));
        assert_eq!(text.events.to_string().replace("7 10 00000000 10 10\n", ""), "5 20 20\n5 10 20\n6 10\n8 10 00000000\n");
        assert_eq!(out.events.to_string(), "5 20 20\n5 10 20\n6 10\n7 10 00000000 10 20\n7 20 00000000 10 20\n8 10 00000000\n");
    }
    let printed = play::run("a", &breach("answer arrows=to-space"), false).expect("a run");
    assert!(printed.contains("    7 10 00000000 10 20  # 4: difference 0 in 10, arrow 10 to 20\n"), "{printed}");
    assert!(printed.contains("    7 20 00000000 10 20  # 5: difference 0 in 20, arrow 10 to 20\n"), "{printed}");
}

#[test]
fn torn_text_never_panics() {
    let board = play::AIRLOCK;
    for end in (0..board.len()).step_by(7).filter(|&end| board.is_char_boundary(end)) {
        let _ = play::run("torn", &board[..end], true);
        let _ = play::run("torn", &board[end..], false);
    }
}

#[test]
fn the_printed_run_has_the_listers_lines() {
    let text = play::run("a", A, false).expect("a run");
    let due = "2 turfs, 2 links, 2 mixtures, 1 gases\n\nequalize 10 threshold=0.5 limit=1000 allowance=1000000\n  turf    before  after\n    10        32     24\n    20        16     24\n    3 0 41000000 10 20  # 1: 10 gives 20 8 (zone 0)\n  cancelled 0, processed 2, tests 4, zones 1, apart 1, bytes 20\n";
    assert_eq!(text, due);
    assert_eq!(play::run("a", "turf 10\nturf 10", false), Err("a: line 2: turf 10 stands in line 1 already\n".into()));
}
