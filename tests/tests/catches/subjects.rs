//! Subjects that are wrong in their text, their builds or their numbers alone, and the right one.

use crate::findings::first_finding;
use meskvorn_tests::compare::subject::{ModelSubject, Orders, Stepped, Subject};
use meskvorn_tests::compare::{builds, Comparison, Difference};
use meskvorn_tests::lists::hex::records;
use meskvorn_tests::model::script::{Call, LINES, RECORD};
use meskvorn_tests::model::{Access, Answer, Drivers, Lists, Name, PollCall, Turns};

/// Agrees record by record and differs in the text alone.
struct WrongText(ModelSubject);

impl Subject for WrongText {
    fn run_script(&mut self, script: &[u8], out: &mut Vec<u8>) {
        self.0.run_script(script, out);
        out.make_ascii_uppercase();
    }
    fn start(&mut self) {
        self.0.start();
    }
    fn build(&mut self, addresses: &[u8], system: u8) -> Answer {
        self.0.build(addresses, system)
    }
    fn build_extended(&mut self, lists: &Lists, system: u8) -> Answer {
        self.0.build_extended(lists, system)
    }
    fn name(&self, party: u8) -> Option<Name> {
        self.0.name(party)
    }
    fn call(&mut self, call: Call) -> Answer {
        self.0.call(call)
    }
    fn give_turns(&mut self, turns: u16) -> Turns {
        self.0.give_turns(turns)
    }
    fn try_run(&self, turns: u16, order: &[u8]) -> (Vec<Answer>, bool) {
        self.0.try_run(turns, order)
    }
    fn try_orders(&self, orders: &Orders) -> Stepped {
        self.0.try_orders(orders)
    }
    fn drivers(&mut self) -> Drivers {
        self.0.drivers()
    }
    fn drivers_like_lines(&self) -> bool {
        self.0.drivers_like_lines()
    }
    fn access(&mut self, access: Access) -> Answer {
        self.0.access(access)
    }
    fn try_accesses(&self, accesses: &[Access], calls: &[Call]) -> (Vec<Answer>, bool) {
        self.0.try_accesses(accesses, calls)
    }
    fn poll_call(&mut self, call: PollCall) -> Answer {
        self.0.poll_call(call)
    }
    fn lay_aside(&mut self) {
        self.0.lay_aside();
    }
    fn is_as_laid_aside(&self) -> bool {
        self.0.is_as_laid_aside()
    }
}

#[test]
fn comparison_reads_the_text_too() {
    let mut subject = WrongText(ModelSubject::default());
    let finding = first_finding(&mut subject, 1000).expect("a difference");
    assert!(finding.list.len() <= RECORD);
    assert!(matches!(
        finding.difference,
        Difference::Text { line: 1, .. }
    ));
}

type AlterBuild = fn(&[u8], u8) -> (Vec<u8>, u8);
type AlterCall = fn(Call) -> Call;

/// Runs scripts well, and alters its builds or its calls before it answers them.
struct WrongByNumber {
    model: ModelSubject,
    build: AlterBuild,
    call: AlterCall,
}

impl Subject for WrongByNumber {
    fn run_script(&mut self, script: &[u8], out: &mut Vec<u8>) {
        self.model.run_script(script, out);
    }
    fn start(&mut self) {
        self.model.start();
    }
    fn build(&mut self, addresses: &[u8], system: u8) -> Answer {
        let (addresses, system) = (self.build)(addresses, system);
        self.model.build(&addresses, system)
    }
    fn build_extended(&mut self, lists: &Lists, system: u8) -> Answer {
        self.model.build_extended(lists, system)
    }
    fn name(&self, party: u8) -> Option<Name> {
        self.model.name(party)
    }
    fn call(&mut self, call: Call) -> Answer {
        self.model.call((self.call)(call))
    }
    fn give_turns(&mut self, turns: u16) -> Turns {
        self.model.give_turns(turns)
    }
    fn try_run(&self, turns: u16, order: &[u8]) -> (Vec<Answer>, bool) {
        self.model.try_run(turns, order)
    }
    fn try_orders(&self, orders: &Orders) -> Stepped {
        self.model.try_orders(orders)
    }
    fn drivers(&mut self) -> Drivers {
        self.model.drivers()
    }
    fn drivers_like_lines(&self) -> bool {
        self.model.drivers_like_lines()
    }
    fn access(&mut self, access: Access) -> Answer {
        self.model.access(access)
    }
    fn try_accesses(&self, accesses: &[Access], calls: &[Call]) -> (Vec<Answer>, bool) {
        self.model.try_accesses(accesses, calls)
    }
    fn poll_call(&mut self, call: PollCall) -> Answer {
        self.model.poll_call(call)
    }
    fn lay_aside(&mut self) {
        self.model.lay_aside();
    }
    fn is_as_laid_aside(&self) -> bool {
        self.model.is_as_laid_aside()
    }
}

fn sorted(addresses: &[u8], system: u8) -> (Vec<u8>, u8) {
    let mut addresses = addresses.to_vec();
    addresses.sort();
    (addresses, system)
}

fn shortened(addresses: &[u8], system: u8) -> (Vec<u8>, u8) {
    (addresses[..addresses.len().min(15)].to_vec(), system)
}

fn zero_is_lines(call: Call) -> Call {
    if call[0] == 0 {
        [LINES, 0, 0, 0]
    } else {
        call
    }
}

#[test]
fn comparison_catches_wrong_builds_and_wrong_numbers() {
    let same = |addresses: &[u8], system| (addresses.to_vec(), system);
    let wrong: [(AlterBuild, AlterCall); 4] = [
        (sorted, |call| call),
        (shortened, |call| call),
        (|addresses, _| (addresses.to_vec(), 0), |call| call),
        (same, zero_is_lines),
    ];
    for (place, (build, call)) in wrong.into_iter().enumerate() {
        let mut subject = WrongByNumber {
            model: ModelSubject::default(),
            build,
            call,
        };
        assert!(
            builds::run(&mut subject, 5).is_err(),
            "wrong subject {place}"
        );
    }
}

#[test]
fn the_model_agrees_with_itself() {
    let mut subject = ModelSubject::default();
    assert!(first_finding(&mut subject, 300_000).is_none());
    assert!(builds::run(&mut subject, 5).is_ok());
}

#[test]
fn a_comparison_counts_what_came() {
    let mut subject = ModelSubject::default();
    let mut comparison = Comparison::new(&mut subject);
    comparison
        .list(&records("00000205 01000000 03000000").concat())
        .unwrap();
    assert_eq!(comparison.tally.records, 3);
    assert_eq!(comparison.tally.refusals[0], 2);
    assert_eq!(comparison.tally.refusals[9], 1);
    assert_eq!(comparison.tally.events[0], 3);
    assert!(comparison.tally.missing().contains(&"NOPARTY"));
    assert!(!comparison.tally.missing().contains(&"EMPTY"));
}
