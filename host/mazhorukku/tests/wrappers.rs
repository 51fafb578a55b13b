//! The wrappers: what they build, hand in and give back. The calls themselves are compared in `differential.rs`.

use std::thread;

use mazhorukku::{
    limits, newer, older, other, read, Circuit, Expectation, Kind, Refusal, Sight, Stimulus, Task, Totals, Verdict,
};

/// `examples/first.circuit`, byte by byte.
const FIRST: [u8; 28] = [
    1, 1, 2, 0, // 1 input, 2 gates
    12, 0, 7, 0, 19, 0, 9, 0, // where their records are
    1, 2, 0, 0, 0, 0, 0, // NOT, d = 2, di = 0, reads net 0
    2, 1, 0, 1, 0, 0, 0, 1, 0, // AND, d = 1, di = 1, reads nets 0 and 1
];

/// The same, in the former edition.
const FORMER: [u8; 24] = [1, 0, 2, 0, 12, 0, 5, 0, 17, 0, 7, 0, 1, 2, 0, 0, 0, 2, 1, 1, 0, 0, 1, 0];

fn pulse_former() -> Circuit {
    let mut circuit = Circuit::new(1);
    let not_a = circuit.gate(Kind::Not, 2, 0, &[0]);
    circuit.gate(Kind::And, 1, 1, &[0, not_a]);
    circuit
}

/// In lane 0 the input rises, in lane 63 it falls, in the others it stays at 0.
fn rising_and_falling() -> Stimulus {
    Stimulus::once(&[(1 << 63, 1)])
}

#[test]
fn a_circuit_becomes_its_file_and_a_file_its_circuit() {
    assert_eq!(pulse_former().to_bytes(), FIRST);
    assert_eq!(Circuit::from_bytes(&FIRST), Ok(pulse_former()));
    assert_eq!(Circuit::from_bytes(&FIRST[..27]), Err(Refusal::Records));
    assert_eq!(Circuit::from_bytes(&[32, 1, 0, 0]), Ok(Circuit::new(32)));
}

#[test]
fn what_makes_no_sense_can_be_put_together_and_is_refused() {
    let refusal = |circuit: &Circuit| read(&circuit.to_bytes()).unwrap_err();
    assert_eq!(refusal(&Circuit::new(0)), Refusal::Inputs);
    assert_eq!(refusal(&Circuit::new(33)), Refusal::Inputs);
    assert_eq!(refusal(&Circuit::new(u16::MAX)), Refusal::Inputs);
    let one = |kind, delay, inertial, fanins: &[u16]| {
        let mut circuit = Circuit::new(2);
        assert_eq!(circuit.gate(kind, delay, inertial, fanins), 2);
        refusal(&circuit)
    };
    assert_eq!(one(Kind::Buf, 0, 0, &[0]), Refusal::Delay);
    assert_eq!(one(Kind::Buf, 1, 60_001, &[0]), Refusal::Delay);
    assert_eq!(one(Kind::Not, 1, 0, &[0, 1]), Refusal::FaninCount);
    assert_eq!(one(Kind::Xor, 1, 0, &[]), Refusal::FaninCount);
    assert_eq!(one(Kind::Or, 1, 0, &[0, 2]), Refusal::Fanin);
    // numbers that have no place in two bytes: the length of a record, an offset, a count, a net
    assert_eq!(one(Kind::And, 1, 0, &[0; 40_000]), Refusal::Records);
    let mut crowded = Circuit::new(32);
    for _ in 0..70_000 {
        crowded.gate(Kind::Buf, 1, 0, &[0]);
    }
    assert_eq!(crowded.gate(Kind::Buf, 1, 0, &[0]), u16::MAX);
    assert_eq!(refusal(&crowded), Refusal::Gates);
}

#[test]
fn a_run_shows_the_nets_of_the_first_example() {
    let stimulus = rising_and_falling();
    let run = Task::new(&FIRST, &stimulus).run().unwrap();
    assert_eq!(run.totals(), Totals { frames: 7, fanins: 8, last: 4 });
    let times: Vec<_> = (0..3).map(|net| run.net(net).unwrap().times()).collect();
    assert_eq!(times, [&[0, 1][..], &[0, 3], &[0, 2, 4]]);
    assert_eq!(run.plan().times_of(2), Some(&[0, 2, 4][..]));
    assert_eq!(run.net(3), None);
    assert_eq!(run.net(159), None);
    assert_eq!(run.net(160), None);
    assert_eq!(run.net(u16::MAX), None);

    let pulse = run.net(2).unwrap();
    assert_eq!(pulse.values(), [0, 1, 0]);
    assert_eq!(pulse.level(0, 3), Ok(Sight { level: true, begin: 2, end: Some(4) }));
    assert_eq!(pulse.level(0, u32::MAX), Ok(Sight { level: false, begin: 4, end: None }));
    assert_eq!((pulse.count(0), pulse.count(1), pulse.count(63)), (Ok(2), Ok(0), Ok(0)));
    assert_eq!(run.net(1).unwrap().count(63), Ok(1));
    assert_eq!(pulse.level(64, 0), Err(Refusal::Lane));
    assert_eq!(pulse.count(255), Err(Refusal::Lane));
}

#[test]
fn a_burst_keeps_its_order() {
    let mut circuit = Circuit::new(2);
    let late = circuit.gate(Kind::Buf, 100, 0, &[1]);
    let stimulus = Stimulus::new().input(9, &[(200, 8)]).input(1, &[(3, 2), (5, 4), (255, 6)]);
    let run = Task::new(&circuit.to_bytes(), &stimulus).run().unwrap();
    assert_eq!(run.net(0).unwrap().values(), [9, 8]);
    assert_eq!(run.net(late).unwrap().times(), [0, 103, 105, 355]);
    assert_eq!(run.net(late).unwrap().values(), [1, 2, 4, 6]);
}

#[test]
fn a_fitted_run_is_the_run_without_the_zeros_behind() {
    let stimulus = rising_and_falling();
    let task = Task::new(&FIRST, &stimulus);
    let (run, fitted, plan) = (task.run().unwrap(), task.run_fitted().unwrap(), task.plan().unwrap());
    assert_eq!(run.plan(), &plan);
    assert_eq!(task.size(), Ok(run.totals()));
    assert_eq!(fitted.totals(), run.totals());
    assert_eq!(fitted.plan().directory(), &plan.directory()[..6]);
    assert_eq!(fitted.plan().times(), &plan.times()[..7]);
    assert_eq!(fitted.plan().inertial(), &plan.inertial()[..7]);
    assert_eq!(fitted.plan().fanins(), &plan.fanins()[..8]);
    assert_eq!(fitted.values(), &run.values()[..7]);
    (0..4).for_each(|net| assert_eq!(fitted.net(net), run.net(net)));
    assert!(run.values()[7..].iter().all(|&word| word == 0));
}

#[test]
fn each_run_refuses_in_its_own_order() {
    // neither the number of inputs nor the change times suit, and the limit makes no sense
    let unsuited = Stimulus::new().input(0, &[(9, 1), (3, 0)]).input(0, &[]);
    let task = Task::new(&FIRST, &unsuited).with_limit(0);
    assert_eq!(task.run(), Err(Refusal::Words));
    assert_eq!(task.run_fitted(), Err(Refusal::Words));
    assert_eq!(task.plan(), Err(Refusal::Changes));
    assert_eq!(task.size(), Err(Refusal::Changes));
    let falling_times = Stimulus::new().input(0, &[(9, 1), (3, 0)]);
    assert_eq!(Task::new(&FIRST, &falling_times).with_limit(0).run_fitted(), Err(Refusal::Changes));
    let often: Vec<(u32, u64)> = (1..=256).map(|time| (time, 1)).collect();
    assert_eq!(Task::new(&FIRST, &Stimulus::new().input(0, &often)).run(), Err(Refusal::Changes));
    assert_eq!(Task::new(&FORMER, &unsuited).run_fitted(), Err(Refusal::Inputs));
}

#[test]
fn a_limit_is_kept() {
    let stimulus = rising_and_falling();
    let task = Task::new(&FIRST, &stimulus);
    for limit in [0, 6, 2049, u16::MAX] {
        assert_eq!(task.with_limit(limit).plan(), Err(Refusal::OverLimit));
        assert_eq!(task.with_limit(limit).run_fitted(), Err(Refusal::OverLimit));
    }
    assert_eq!(task.with_limit(7).run(), task.run());
}

#[test]
fn marking_names_the_place() {
    let stimulus = rising_and_falling();
    let task = Task::new(&FIRST, &stimulus);
    let expect = |lane, level, from, to| Expectation { net: 2, lane, level, from, to };
    let met = [expect(0, false, 0, 1), expect(0, true, 2, 3), expect(0, false, 4, u32::MAX), expect(63, false, 0, 9)];
    let marking = task.mark(&met).unwrap();
    assert_eq!(marking.verdict, Verdict::AllMet);
    assert_eq!(marking.run, task.run().unwrap());
    assert_eq!(task.mark(&[]).unwrap().verdict, Verdict::AllMet);
    let unmet = [met[0], expect(0, true, 3, 4), expect(0, true, 0, 0)];
    assert_eq!(task.mark(&unmet).unwrap().verdict, Verdict::Unmet { position: 1, frame: 2 });
    assert_eq!(task.mark(&[Expectation { net: 3, ..met[0] }]), Err(Refusal::Expectation));
    assert_eq!(task.mark(&vec![met[0]; 1024]).unwrap().verdict, Verdict::AllMet);
    assert_eq!(task.mark(&vec![met[0]; 1025]), Err(Refusal::NoRecords));
}

#[test]
fn an_expectation_has_every_number_at_its_place() {
    let expectation = Expectation { net: 0x0201, lane: 3, level: true, from: 0x0706_0504, to: 0x0b0a_0908 };
    assert_eq!(expectation.to_bytes(), [1, 2, 3, 1, 4, 5, 6, 7, 8, 9, 10, 11]);
}

#[test]
fn files_are_converted_there_and_back() {
    assert_eq!(newer(&FORMER).unwrap(), FIRST);
    assert_eq!(older(&FIRST).unwrap(), FORMER);
    assert_eq!((other(&FORMER).unwrap(), other(&FIRST).unwrap()), (FIRST.to_vec(), FORMER.to_vec()));
    assert_eq!(newer(&FIRST), Err(Refusal::Inputs));
    assert_eq!(older(&[]), Err(Refusal::FileLength));
}

#[test]
fn a_refusal_has_its_number_and_its_question() {
    let numbers: Vec<u32> = Refusal::ALL.iter().map(|refusal| refusal.number()).collect();
    assert_eq!(numbers, [1, 2, 3, 4, 5, 6, 7, 8, 9, 10, 11, 12, 13, 14, 15, 16, 20, 22, 23, 100]);
    for refusal in Refusal::ALL {
        assert_eq!(Refusal::from_number(refusal.number()), Some(refusal));
        assert_eq!(refusal.to_string(), format!("refused {}: {}", refusal.number(), refusal.question()));
        assert!(refusal.question().ends_with('?'));
    }
    assert_eq!(Refusal::from_number(0), None);
    assert_eq!(Refusal::from_number(17), None);
}

#[test]
fn threads_may_run_at_once() {
    let stimulus = rising_and_falling();
    let alone = Task::new(&FIRST, &stimulus).run().unwrap();
    thread::scope(|scope| {
        for _ in 0..4 {
            scope.spawn(|| (0..200).for_each(|_| assert_eq!(Task::new(&FIRST, &stimulus).run().unwrap(), alone)));
        }
    });
}

const SIZES: [(&str, usize); 20] = [
    ("MAZH_MOST_INPUTS", limits::MOST_INPUTS),
    ("MAZH_MOST_GATES", limits::MOST_GATES),
    ("MAZH_MOST_NETS", limits::MOST_NETS),
    ("MAZH_MOST_FANINS", limits::MOST_FANINS),
    ("MAZH_MOST_DELAY", limits::MOST_DELAY as usize),
    ("MAZH_FORMER_DELAY", limits::FORMER_DELAY as usize),
    ("MAZH_MOST_FILE", limits::MOST_FILE),
    ("MAZH_DIRECTORY_LENGTH", limits::DIRECTORY_LENGTH),
    ("MAZH_TIMES_LENGTH", limits::TIMES_LENGTH),
    ("MAZH_INERTIAL_LENGTH", limits::INERTIAL_LENGTH),
    ("MAZH_FANINS_LENGTH", limits::FANINS_LENGTH),
    ("MAZH_VALUES_LENGTH", limits::VALUES_LENGTH),
    ("MAZH_CONVERTER_LENGTH", limits::CONVERTER_LENGTH),
    ("MAZH_LANES", limits::LANES as usize),
    ("MAZH_MOST_CHANGES", limits::MOST_CHANGES),
    ("MAZH_LAST_CHANGE", limits::LAST_CHANGE as usize),
    ("MAZH_MOST_FRAMES", limits::MOST_FRAMES),
    ("MAZH_MOST_LIMIT", limits::MOST_LIMIT as usize),
    ("MAZH_RECORD_LENGTH", limits::RECORD_LENGTH),
    ("MAZH_MOST_RECORDS", limits::MOST_RECORDS),
];

#[test]
fn the_header_has_the_same_numbers() {
    let header = include_str!("../../include/mazhorukku.h");
    for (name, number) in SIZES {
        let line = header.lines().find_map(|line| line.strip_prefix("#define ")?.strip_prefix(name)?.strip_prefix(' '));
        let word = line.and_then(|line| line.split_whitespace().next());
        assert_eq!(word, Some(number.to_string().as_str()), "{name}");
    }
    let enum_of = |name: &str| -> Vec<u32> {
        let body = header.split(&format!("enum {name} {{")).nth(1).and_then(|rest| rest.split("};").next());
        let members =
            body.expect("the header has it").lines().filter_map(|line| line.trim().strip_prefix("MAZH_")?.split_once(" = "));
        members.map(|(_, rest)| rest.split([',', ' ']).next().expect("a number").parse().expect("a number")).collect()
    };
    let refusals = Refusal::ALL.iter().map(|refusal| refusal.number());
    assert_eq!(enum_of("mazh_answer"), [0].into_iter().chain(refusals).collect::<Vec<u32>>());
    assert_eq!(enum_of("mazh_kind"), Kind::ALL.map(|kind| kind.number().into()));
}
