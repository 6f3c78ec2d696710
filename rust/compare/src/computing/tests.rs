use super::*;
use crate::faults::FAULTS;
use crate::library::Library::Faulty;

#[test]
fn the_judge_meets_the_card_and_all_is_met() {
    assert!(check(Judge).is_ok());
    let met = random::tried(&mut Both { library: Judge, calls: 0 }).unwrap();
    let counts = [met.products, met.extracted, met.rejected, met.later];
    assert!(counts.iter().all(|times| *times > 50), "{met:?}");
}

#[test]
fn impostors_do_not_meet_card_fourteen() {
    let place = |name| FAULTS.iter().position(|it| it.name == name).unwrap();
    let faults = &FAULTS[place("ledger-g-untested")..=place("write-refused-kind")];
    let met = faults.iter().filter(|it| check(Faulty(it.fault)).is_ok());
    let names: Vec<&str> = met.map(|planted| planted.name).collect();
    assert_eq!(names, [""; 0]);
}
