//! Refusals and their words.

use std::collections::HashSet;
use std::error::Error;

use sim0mq::{judge, Refusal, RefusalKind};

use crate::with;

#[test]
fn each_number_has_a_kind_with_words_of_its_own() {
    let mut words = HashSet::new();
    let mut all = RefusalKind::ALL.into_iter();
    for number in 1..=31 {
        let kind = RefusalKind::of(number).unwrap();
        assert_eq!((kind.number(), Some(kind)), (number, all.next()));
        assert!(!kind.meaning().is_empty());
        let refusal = Refusal::new(kind, 5);
        assert_eq!((refusal.number(), refusal.kind(), refusal.place()), (number, kind, 5));
        assert_eq!(refusal.to_string(), format!("refused {number} at 5: {}", kind.meaning()));
        assert!(words.insert(kind.to_string()));
    }
    assert_eq!(words.len(), 31);
    assert_eq!([0, 32, 255].map(RefusalKind::of), [None; 3]);
}

#[test]
fn a_refusal_is_an_error_that_says_what_and_where() {
    let refusal = judge(&with(&[(64, 4)])).unwrap_err();
    assert_eq!(refusal, Refusal::new(RefusalKind::Status, 64));
    let error: Box<dyn Error + Send + Sync> = refusal.into();
    assert_eq!(error.to_string(), "refused 6 at 64: status not 1 to 3");
    assert_eq!(HashSet::from([refusal, refusal]).len(), 1);
}
