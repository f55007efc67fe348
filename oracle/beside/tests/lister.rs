//! The lister's inputs end in every way that it can end, and a program that lists otherwise is told.

use beside::lister::{FORMS, against, input};
use boards::events::list;

#[test]
fn every_ending() {
    for (form, name) in FORMS.into_iter().enumerate() {
        let texts: Vec<String> = (1..=100).map(|seed| list(&input(form, seed))).collect();
        let bad = texts.iter().filter(|text| text.contains("bad ")).count();
        let long = texts.iter().filter(|text| *text == "too long\n").count();
        match name {
            "good" => assert_eq!((bad, long), (0, 0)),
            "damaged" => assert!(bad > 30 && bad < 100 && long == 0, "{bad}"),
            "torn" => assert!(bad > 30 && bad < 100 && long == 0, "{bad}"),
            "wrong" => assert_eq!((bad, long), (100, 0)),
            "noise" => assert!(bad > 90 && long == 0, "{bad}"),
            "full" => assert!(bad > 30 && bad < 100 && long == 0, "{bad}"),
            _ => assert_eq!((bad, long), (0, 100)),
        }
    }
}

#[test]
fn another_text() {
    assert!(against(&["cat".to_string()], 1, 1).is_err());
    assert!(against(&["false".to_string()], 1, 1).is_err());
}
