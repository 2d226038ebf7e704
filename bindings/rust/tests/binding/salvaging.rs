//! Salvage.

use sim0mq::{salvage, Recording, Refusal, RefusalKind, Stop, MOST_MESSAGES};

use crate::{recorded, with, S, SHORT};

/// A stop at a fault of this kind at this place.
fn at(kind: RefusalKind, place: usize) -> Stop {
    Stop::At(Refusal::new(kind, place))
}

#[test]
fn a_file_cut_anywhere_keeps_the_messages_before_the_cut() {
    let bytes = recorded(&[S, SHORT, S]);
    for cut in 0..bytes.len() {
        let salvaged = salvage(&bytes[..cut]);
        let (kept, end) = match cut {
            0..77 => (0, 0),
            77..112 => (1, 77),
            112..189 => (2, 112),
            _ => (3, 189),
        };
        let stop = match cut {
            0 | 77 | 112 | 189 => Stop::AtEnd,
            190.. => at(RefusalKind::WrongStart, 189),
            _ => at(RefusalKind::EndsEarly, cut),
        };
        assert_eq!((salvaged.kept(), salvaged.dropped(), salvaged.stop()), (kept, cut - end, stop));
        assert_eq!(salvaged.recording(), recorded(&[&S[..], SHORT, S][..kept]));
        assert_eq!(Recording::open(salvaged.recording()).unwrap().len(), kept);
    }
}

#[test]
fn an_intact_recording_comes_back() {
    let bytes = recorded(&[S, SHORT, S]);
    let salvaged = salvage(&bytes);
    assert_eq!((salvaged.kept(), salvaged.dropped()), (3, 34));
    assert_eq!(salvaged.stop(), at(RefusalKind::WrongStart, 189));
    assert_eq!(salvaged.clone().into_recording(), bytes);
    assert_eq!(salvage(salvaged.recording()), salvaged);
}

#[test]
fn damage_ends_it_at_its_place_in_the_file() {
    let file = [&S[..], &with(&[(64, 4)]), S].concat();
    let salvaged = salvage(&file);
    assert_eq!((salvaged.kept(), salvaged.dropped()), (1, 154));
    assert_eq!(salvaged.stop(), at(RefusalKind::Status, 77 + 64));
    assert_eq!(salvaged.recording(), recorded(&[S]));
    let nothing = salvage(b"no message");
    assert_eq!((nothing.kept(), nothing.dropped()), (0, 10));
    assert_eq!(nothing.stop(), at(RefusalKind::WrongStart, 0));
    assert_eq!(nothing.recording(), recorded(&[]));
}

#[test]
fn no_more_are_kept_than_a_recording_may_have() {
    let file = SHORT.repeat(MOST_MESSAGES);
    assert_eq!((salvage(&file).kept(), salvage(&file).stop()), (MOST_MESSAGES, Stop::AtEnd));
    let longer = [&file[..], S].concat();
    let salvaged = salvage(&longer);
    let kept = (salvaged.kept(), salvaged.dropped(), salvaged.stop());
    assert_eq!(kept, (MOST_MESSAGES, 77, Stop::AtMost));
    assert_eq!(Recording::open(salvaged.recording()).unwrap().len(), MOST_MESSAGES);
}
