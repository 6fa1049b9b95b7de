//! `Meter` of crates/meter: random lists of calls, to which the plain meter, the tally and the proved program `try_meter` answer alike.
//! `tools/build try_meter` builds that program.

mod calls;
mod cases;
mod plain;
mod random_calls;
mod records;

use calls::{analysis, call, Call};
use random_calls::random_single_call;
use records::Random;
use std::io::Write;
use std::path::Path;
use std::process::{Command, Stdio};

/// The proved program and its source, relative to the package folder, without which the comparison with it is left out, and the bytes of
/// calls that it reads at most.
const SOURCE: &str = "../crates/try_meter";
const PROVED: &str = "../target/bin/try_meter";
const INPUT: usize = 2_048;

const LISTS: usize = 400;
const SEED: u64 = 6976;

/// The streams that calls name, some more often than others.
const STREAMS: [usize; 9] = [0, 0, 0, 1, 1, 2, 15, 16, usize::MAX];

#[test]
fn random_lists() {
    let mut random = Random::new(SEED);
    let mut all = String::new();
    let with_program = Path::new(SOURCE).is_dir();
    if !with_program {
        println!("there is no {SOURCE}: the comparison with it is left out");
    }
    for number in 0..LISTS {
        let list = random_list(&mut random);
        let text = calls::printed(&list);
        if with_program {
            assert_eq!(proved(&calls::input(&list)), text, "list {number}");
        }
        all += &text;
    }
    for number in 1..=18 {
        assert!(all.contains(&format!(": refused {number}\n")), "{number}");
    }
}

/// What the proved program prints for its input.
fn proved(input: &[u8]) -> String {
    let mut command = Command::new(PROVED);
    command.stdin(Stdio::piped()).stdout(Stdio::piped());
    let mut program = command.spawn().expect("`tools/build try_meter` builds it");
    let mut pipe = program.stdin.take().expect("its input is a pipe");
    pipe.write_all(input).expect("it reads its input");
    drop(pipe);
    let output = program.wait_with_output().expect("it ends");
    String::from_utf8(output.stdout).expect("it prints text")
}

/// Calls on a few streams, as many as the proved program reads, and a reading of each stream at the end. One list of sixteen begins with a
/// stream that is almost full.
fn random_list(random: &mut Random) -> Vec<Call> {
    let readings = || (0..=16).map(|k| call(b'r', k, 0)).collect::<Vec<_>>();
    let mut list = Vec::new();
    if random.below(16) == 0 {
        list.extend([analysis(0, "", &cases::K2), call(b'f', 0, 0)]);
    }
    loop {
        list.push(random_single_call(random, &STREAMS));
        if calls::input(&list).len() + calls::input(&readings()).len() > INPUT {
            list.pop();
            list.extend(readings());
            return list;
        }
    }
}
