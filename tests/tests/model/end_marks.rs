//! The marks that feoi sets on the model, worked out from document 01's text and document 02's Q-6.

use meskvorn_tests::lists::composer::Composer;
use meskvorn_tests::model::registers::{DATA_IN, FEOI, NBAF, SET, SIC, SWRST};
use meskvorn_tests::model::script::{
    BUILD, CLEAR, DROP, LISTEN, RESET, STANDBY, TAKE, TALK, WRITE,
};
use meskvorn_tests::model::{Access, Answer, Event, Refusal};

const NOTHING: Answer = Answer::NOTHING;

fn refused(refusal: Refusal) -> Answer {
    Answer::refused(refusal)
}

fn told(event: Event, byte: u8, end: bool) -> Answer {
    Answer::with_byte(event, byte, end)
}

/// Data in of party 1.
fn read(bus: &mut Composer) -> Answer {
    let (party, offset) = (1, DATA_IN);
    bus.access(Access::Read { party, offset })
}

fn built() -> Composer {
    let mut bus = Composer::new();
    bus.call(BUILD, 0, 2, 5);
    bus
}

/// Party 0 talks to party 1.
fn talking() -> Composer {
    let mut bus = built();
    bus.call(TALK, 0, 1, 0);
    bus.call(LISTEN, 1, 1, 0);
    bus
}

/// The END of the next byte that goes to party 1, written through offset 7.
fn next_end(bus: &mut Composer) -> bool {
    assert!(bus.data_out(0, 0x55).accepted());
    while bus.step(0).event != Event::Data {
        bus.step(1);
    }
    let end = bus.bus.standing.expect("a byte stands").end;
    assert!(bus.walk_until(Event::is_end));
    assert_eq!(read(bus), told(Event::Read, 0x55, end));
    end
}

#[test]
fn feoi_marks_one_byte_however_often_and_with_any_switch() {
    for value in [0x08, 0x88, 0x28, 0xE8] {
        let mut bus = talking();
        assert!(!next_end(&mut bus));
        for _ in 0..2 {
            assert_eq!(bus.auxiliary(0, value), NOTHING);
        }
        assert!(next_end(&mut bus));
        assert!(!next_end(&mut bus));
        bus.auxiliary(1, value);
        assert!(!next_end(&mut bus));
    }
}

/// What keeps a mark, on the bus that `talking` gives.
const KEEPERS: [fn(&mut Composer); 8] = [
    |bus| {
        bus.call(WRITE, 0, 0x41, 0);
        assert_eq!(bus.data_out(0, 0x42), refused(Refusal::Full));
        assert!(bus.walk_until(Event::is_end));
        assert_eq!(read(bus), told(Event::Read, 0x41, false));
    },
    |bus| {
        bus.call(WRITE, 0, 0x41, 1);
        bus.call(DROP, 0, 0, 0);
    },
    |bus| {
        bus.call(WRITE, 0, 0x41, 0);
        let dropped = bus.auxiliary(0, NBAF);
        assert_eq!((dropped.accepted(), dropped.dropped), (true, 1));
    },
    |bus| _ = bus.call(RESET, 1, 0, 0),
    |bus| _ = bus.call(CLEAR, 0, 0, 0),
    |bus| _ = bus.auxiliary(0, SIC | SET),
    |bus| {
        bus.call(CLEAR, 0, 0, 0);
        bus.call(STANDBY, 0, 0, 0);
        bus.call(TAKE, 0, 0, 0);
    },
    |bus| {
        bus.call(CLEAR, 0, 0, 0);
        bus.call(WRITE, 0, 0x3F, 0);
        assert!(bus.walk_until(Event::is_put));
        assert_eq!(bus.call(RESET, 0, 0, 0), refused(Refusal::Standing));
        assert_eq!(bus.auxiliary(0, SWRST | SET), refused(Refusal::Standing));
        assert!(bus.walk_until(Event::is_end));
    },
];

#[test]
fn a_mark_is_kept_by_all_but_a_byte_and_a_reset() {
    for keep in KEEPERS {
        let mut bus = talking();
        bus.auxiliary(0, FEOI);
        keep(&mut bus);
        bus.call(STANDBY, 0, 0, 0);
        bus.call(TALK, 0, 1, 0);
        bus.call(LISTEN, 1, 1, 0);
        assert!(next_end(&mut bus));
        assert!(!next_end(&mut bus));
    }
}

#[test]
fn every_reset_removes_a_mark() {
    for by_register in [false, true] {
        let mut bus = talking();
        bus.auxiliary(0, FEOI);
        if by_register {
            bus.auxiliary(0, SWRST | SET);
        } else {
            bus.call(RESET, 0, 0, 0);
        }
        bus.call(TALK, 0, 1, 0);
        assert!(!next_end(&mut bus));
    }
    let mut bus = talking();
    bus.auxiliary(0, FEOI);
    bus.call(BUILD, 0, 2, 5);
    assert_eq!(bus.bus, built().bus);
}

/// A command uses the mark up, and has END off.
#[test]
fn a_command_through_offset_7_uses_the_mark_up() {
    let mut bus = talking();
    bus.call(CLEAR, 0, 0, 0);
    bus.auxiliary(0, FEOI);
    assert_eq!(bus.data_out(0, 0x1F), NOTHING);
    bus.step(1);
    bus.step(0);
    assert_eq!(bus.step(0), told(Event::Cmd, 0x1F, false));
    assert!(bus.walk_until(Event::is_end));
    bus.call(STANDBY, 0, 0, 0);
    bus.call(TALK, 0, 1, 0);
    bus.call(LISTEN, 1, 1, 0);
    assert!(!next_end(&mut bus));
}

/// The mark's END is in the byte that is held, and none comes while it waits.
#[test]
fn feoi_does_not_mark_a_byte_that_is_held() {
    let mut bus = talking();
    bus.data_out(0, 0x41);
    bus.auxiliary(0, FEOI);
    assert!(bus.walk_until(Event::is_end));
    assert_eq!(read(&mut bus), told(Event::Read, 0x41, false));
    assert!(next_end(&mut bus));
}
