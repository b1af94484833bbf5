//! The programs against the reference, on inputs of all kinds.

mod common;

use common::{alike, answer, expected, told, Tally};
use reference::generate::{damaged, pair, sound, sound_plan, spoiled, Rng, Sound};
use reference::{find, pair_find, Part};
use station::Answer;
use std::io::{ErrorKind, Write};
use std::path::{Path, PathBuf};
use std::process::{ChildStdin, Command, Stdio};

/// The repository's folder.
fn repository() -> PathBuf {
    Path::new(env!("CARGO_MANIFEST_DIR")).join("../..")
}

/// A program in the folder that the variable names, or in the repository's own, where the command puts it.
fn built(variable: &str, own_folder: &str, command: &str, name: &str) -> PathBuf {
    let folder = match std::env::var_os(variable) {
        Some(folder) => PathBuf::from(folder),
        None => repository().join(own_folder),
    };
    let path = folder.join(name);
    let shown = path.display();
    assert!(path.is_file(), "{shown} is missing: run `{command}` first");
    path
}

/// A program of the proved code.
fn program(name: &str) -> PathBuf {
    built("ISO3561_BIN", "target/bin", "make programs", name)
}

/// A C program.
fn example(name: &str) -> PathBuf {
    built("ISO3561_EXAMPLES", "target/examples", "make examples", name)
}

/// Writes the input in pieces; a program that has seen enough may stop reading.
fn feed(mut stdin: ChildStdin, input: &[u8], piece: usize) {
    for bytes in input.chunks(piece) {
        match stdin.write_all(bytes) {
            Err(error) if error.kind() == ErrorKind::BrokenPipe => return,
            other => other.expect("the program's standard input takes bytes"),
        }
    }
}

/// What the program prints for an input.
fn printed(program: &Path, input: &[u8], piece: usize) -> Vec<u8> {
    let mut child = Command::new(program)
        .stdin(Stdio::piped())
        .stdout(Stdio::piped())
        .spawn()
        .expect("the program starts");
    feed(child.stdin.take().expect("piped"), input, piece);
    let output = child.wait_with_output().expect("the program ends");
    assert!(output.status.code().is_some(), "ended by {}", output.status);
    output.stdout
}

/// A pair in one piece.
fn joined((track, marks): (Vec<u8>, Vec<u8>)) -> Vec<u8> {
    [track, marks].concat()
}

/// Inputs that are no pair: empty, short, long, and those next to a limit.
fn misfit(rng: &mut Rng) -> Vec<u8> {
    let near = [7_628, 7_629, 7_630, 7_631, 8_003, 8_004, 8_005, 8_006];
    match rng.below(6) {
        0 => vec![],
        1 => vec![0; rng.pick(&[1, 2, 3, 50])],
        2 | 3 => vec![0; rng.pick(&near)],
        4 => vec![0; rng.pick(&[16_008, 65_536, 65_537, 131_072, 200_001])],
        _ => {
            let length = rng.below(9_000);
            rng.bytes(length)
        }
    }
}

/// A pair with a byte more or less, or with a track behind it.
fn altered(rng: &mut Rng, mut input: Vec<u8>) -> Vec<u8> {
    match rng.below(4) {
        0 => input.push(0),
        1 => drop(input.pop()),
        2 => input.truncate(rng.below(input.len())),
        _ => input.extend_from_within(..),
    }
    input
}

/// The input of a seed.
fn input_of(seed: u64, rng: &mut Rng) -> Vec<u8> {
    match seed % 8 {
        0 => joined(sound(seed)),
        1 => joined(spoiled(seed)),
        2..=5 => joined(damaged(seed)),
        6 => misfit(rng),
        _ => altered(rng, joined(sound(seed))),
    }
}

/// The answers that an output tells, and the output.
type Told = (Vec<Answer>, String);

/// What trackwalk prints by the reference: a line for each candidate, and the number that ends the walk.
fn walked(input: &[u8]) -> Told {
    if input.len() % 2 == 1 {
        return (vec![answer(1, 0)], "ended 1\n".to_string());
    }
    let (track, marks) = input.split_at(input.len() / 2);
    let _ = alike::candidates(track, marks);
    let mut walk = reference::Walk::new(track, marks);
    let mut lines = String::new();
    loop {
        match walk.step() {
            Ok(c) => lines += &format!("{} {} {} {} {}\n", c.place, c.flag, c.s, c.kl, c.dl),
            Err(end) => {
                return (
                    vec![expected(end)],
                    lines + &format!("ended {}\n", end.number),
                )
            }
        }
    }
}

/// Bytes in hexadecimal, or `-` where there are none.
fn hexadecimal(bytes: &[u8]) -> String {
    match bytes.is_empty() {
        true => "-".to_string(),
        false => bytes.iter().map(|byte| format!("{byte:02x}")).collect(),
    }
}

/// What trackdump prints of a part: its bytes, or the number that refuses it, with the second behind a dot.
fn dumped_part(track: &[u8], marks: &[u8], s: u8, part: Part) -> (Answer, String) {
    let (done, range) = find(track, marks, s, part);
    let done = expected(done);
    match done.is_done() {
        true => (done, hexadecimal(&track[range])),
        false => (done, format!("!{}", told(done))),
    }
}

/// What trackdump prints by the reference: S, key and data of each S that some candidate carries; it tells an answer for each part.
fn dumped(input: &[u8]) -> Told {
    let (track, marks) = input.split_at(input.len() / 2);
    if judged(input).number == 1 {
        return (vec![answer(1, 0)], "refused 1\n".to_string());
    }
    let (mut answers, mut lines) = (vec![], String::new());
    for s in 0..=255 {
        let parts = [Part::Key, Part::Data].map(|part| dumped_part(track, marks, s, part));
        let [(of_key, key), (of_data, data)] = parts;
        if key != "!12" {
            answers.extend([of_key, of_data]);
            lines += &format!("{s} {key} {data}\n");
        }
    }
    (answers, lines + "ended\n")
}

/// Runs a program on the inputs of the seeds and compares what it prints with what is expected.
fn compare(name: &'static str, runs: u64, numbers: &[u8], expected: fn(&[u8]) -> Told) {
    let program = program(name);
    let mut tally = Tally::new(name, runs);
    for seed in tally.seeds() {
        let mut rng = Rng::new(seed ^ 0x7AC1);
        let input = input_of(seed, &mut rng);
        let piece = rng.pick(&[1_000_000, 4_096, 1_000, 333]);
        let (answers, lines) = expected(&input);
        answers.into_iter().for_each(|answer| tally.count(answer));
        let text = printed(&program, &input, piece);
        assert_eq!(String::from_utf8_lossy(&text), lines, "seed {seed}");
    }
    tally.finish(300, numbers);
}

/// What tracklist prints by the reference, with Accept's answer; a refusal's line has the number and never the second.
fn listed(input: &[u8]) -> Told {
    let text = reference::tracklist(input);
    let text = String::from_utf8_lossy(&text).to_string();
    let done = judged(input);
    if !done.is_done() {
        assert_eq!(text, format!("refused {}\n", done.number));
    }
    (vec![done], text)
}

#[test]
fn tracklist_as_the_reference() {
    let numbers = [0, 1, 2, 3, 4, 5, 6, 7, 8, 9, 10, 11, 13];
    compare("tracklist", 1_600, &numbers, listed);
}

#[test]
fn trackdump_as_the_reference() {
    compare("trackdump", 400, &[0, 1, 9, 10, 11, 13], dumped);
}

#[test]
fn trackwalk_as_the_reference() {
    compare("trackwalk", 1_600, &[1, 12], walked);
}

/// The two files of a seed for trackpair: a generated pair, one with a damaged second track or a wrong block on it, or inputs of any kind.
fn two_inputs(seed: u64, rng: &mut Rng) -> [Vec<u8>; 2] {
    let pair = pair(seed);
    match seed % 8 {
        0 | 1 | 4 | 5 => [joined(pair.first), joined(pair.second)],
        2 => [joined(pair.first), joined(damaged(seed))],
        6 => [joined(pair.first), joined(spoiled(seed))],
        _ => [input_of(seed / 4, rng), input_of(seed / 4 + 1, rng)],
    }
}

/// The S of some candidate of the inputs, or any S.
fn some_number(rng: &mut Rng, inputs: &[Vec<u8>; 2]) -> u8 {
    let mut numbers = vec![rng.byte()];
    for input in inputs {
        let _ = judged(input);
        let (track, marks) = input.split_at(input.len() / 2);
        let mut walk = reference::Walk::new(track, marks);
        while let Ok(candidate) = walk.step() {
            numbers.push(candidate.s);
        }
    }
    rng.pick(&numbers)
}

/// What trackpair prints by the reference, with both answers: the key's answer and bytes, then the data's.
fn paired(inputs: &[Vec<u8>; 2], s: u8) -> (Vec<Answer>, Vec<u8>) {
    let [first, second] = inputs
        .each_ref()
        .map(|input| input.split_at(input.len() / 2));
    let (mut answers, mut printed) = (vec![], vec![]);
    for (name, part) in [("key", Part::Key), ("data", Part::Data)] {
        let (done, which, range) = pair_find(first, second, s, part);
        let bytes = if which == 0 {
            &first.0[range]
        } else {
            &second.0[range]
        };
        let (done, length) = (expected(done), bytes.len());
        let (number, place) = (told(done), done.place);
        printed.extend(format!("{name} {} {number} {place} {length}\n", which + 1).bytes());
        printed.extend(bytes.iter().chain(b"\n"));
        answers.push(done);
    }
    (answers, printed)
}

/// What trackpair writes to standard output and to standard error.
fn run_trackpair(arguments: &[String]) -> (Vec<u8>, String) {
    let output = Command::new(program("trackpair"))
        .args(arguments)
        .output()
        .expect("the program ends");
    assert!(output.status.code().is_some(), "ended by {}", output.status);
    (
        output.stdout,
        String::from_utf8_lossy(&output.stderr).to_string(),
    )
}

#[test]
fn trackpair_as_the_reference() {
    let mut tally = Tally::new("trackpair", 1_600);
    let folder = Path::new(env!("CARGO_TARGET_TMPDIR"));
    let files = ["first", "second"].map(|name| folder.join(format!("trackpair-{name}.bin")));
    for seed in tally.seeds() {
        let mut rng = Rng::new(seed ^ 0x2A17);
        let inputs = two_inputs(seed, &mut rng);
        for (file, input) in files.iter().zip(&inputs) {
            std::fs::write(file, input).expect("the folder takes a file");
        }
        let s = some_number(&mut rng, &inputs);
        let [one, two] = files.each_ref().map(|file| file.display().to_string());
        let (answers, expected) = paired(&inputs, s);
        answers.into_iter().for_each(|answer| tally.count(answer));
        let (printed, told) = run_trackpair(&[one, two, s.to_string()]);
        assert_eq!(told, "", "seed {seed}, S {s}");
        assert!(printed == expected, "seed {seed}, S {s}");
    }
    tally.finish(3_200, &[0, 1, 2, 3, 4, 5, 6, 7, 8, 9, 10, 11, 12, 13, 16]);
}

/// A wrong call prints nothing but what is wrong with it.
#[test]
fn trackpair_tells_what_is_wrong() {
    let sample = |name: &str| repository().join("samples").join(name);
    let sample = |name: &str| sample(name).display().to_string();
    let files = [sample("defective.bin"), sample("alternative.bin")];
    for s in ["256", "1000", "", "x", "1x", "-1"] {
        let (printed, told) = run_trackpair(&[&files[..], &[s.to_string()]].concat());
        assert!(printed.is_empty(), "{s}");
        assert!(told.starts_with("usage: trackpair"), "{s}: {told}");
    }
    let missing = sample("no such file");
    for names in [[&missing, &files[1]], [&files[0], &missing]] {
        let [one, two] = names.map(String::clone);
        let (printed, told) = run_trackpair(&[one, two, "1".to_string()]);
        assert!(printed.is_empty());
        assert!(told.contains("no such file: "), "{told}");
    }
}

/// The sample is listed as documented.
#[test]
fn sample_is_listed() {
    let sample = std::fs::read(repository().join("samples/case5.bin")).expect("the sample");
    let printed = printed(&program("tracklist"), &sample, sample.len());
    let lines = "100 7 0\n0 0 0 8 90\n1 128 3 80 182\n";
    assert_eq!(String::from_utf8_lossy(&printed), lines);
    assert_eq!(reference::tracklist(&sample), lines.as_bytes());
}

/// A piece of a layout: place, length and what it is.
type Piece = (usize, usize, String);

/// What the reader prints for these files, and its status.
fn run_reader(test: &str, inputs: &[Vec<u8>]) -> (String, Option<i32>) {
    let folder = Path::new(env!("CARGO_TARGET_TMPDIR"));
    let mut command = Command::new(example("reader"));
    for (nth, input) in inputs.iter().enumerate() {
        let file = folder.join(format!("reader-{test}-{nth}.bin"));
        std::fs::write(&file, input).expect("the folder takes a file");
        command.arg(file);
    }
    let output = command.output().expect("the program ends");
    assert!(output.stderr.is_empty(), "nothing is wrong with the call");
    let text = String::from_utf8(output.stdout).expect("the reader prints text");
    (text, output.status.code())
}

/// One line of a layout taken apart.
fn piece_of(line: &str) -> Piece {
    let mut words = line.split_whitespace();
    let mut number = || words.next()?.parse().ok();
    let (place, length) = (number().expect(line), number().expect(line));
    (place, length, words.collect::<Vec<_>>().join(" "))
}

/// The layouts that the reader printed; each must begin at index, its pieces follow on, and its last line have their sum and L.
fn layouts(text: &str) -> Vec<Vec<Piece>> {
    let (mut layouts, mut lines) = (vec![], text.lines());
    while lines.any(|line| line == "layout: place, length and what it is") {
        let (mut pieces, mut next) = (vec![], 0);
        let last = loop {
            let line = lines.next().expect("a layout has a last line");
            if !line.starts_with("  ") {
                break line;
            }
            let piece = piece_of(line);
            assert_eq!(piece.0, next, "{line}");
            next += piece.1;
            pieces.push(piece);
        };
        assert_eq!(last, format!("layout: sum {next}, L {next}"));
        layouts.push(pieces);
    }
    layouts
}

/// The pieces of a track as it was planned and built.
fn planned(Sound { plan, built }: &Sound) -> Vec<Piece> {
    let mut lengths = vec![(plan.home, "index gap".to_string())];
    let gap = |length| (length, "gap".to_string());
    lengths.extend([(14, "home".to_string()), gap(11)]);
    for (index, (sector, places)) in plan.sectors.iter().zip(&built.places).enumerate() {
        let of = |what: &str| format!("{what} of S {}", sector.s);
        lengths.extend([(if index == 0 { 18 } else { 20 }, of("count")), gap(11)]);
        if !sector.key.is_empty() {
            lengths.extend([(sector.key.len() + 9, of("key")), gap(11)]);
        }
        let data = match sector.data.len() {
            0 if places.is_ten() => 10,
            0 => 7,
            dl => dl + 9,
        };
        lengths.extend([(data, of("data")), gap(built.gap_after(index))]);
    }
    let mut next = 0;
    let with_place = |(length, what)| {
        next += length;
        (next - length, length, what)
    };
    lengths.into_iter().map(with_place).collect()
}

/// The reader's line for Accept's answer.
fn accept_line(done: Answer) -> String {
    let fault = done
        .fault
        .map_or(String::new(), |fault| format!(", {fault}"));
    format!("accept: {} at {}{fault}\n", done.number, done.place)
}

/// Accept's answer for an input, by all.
fn judged(input: &[u8]) -> Answer {
    let (track, marks) = input.split_at(input.len() / 2);
    let done = expected(reference::accept(track, marks));
    assert_eq!(alike::accept(track, marks), done);
    done
}

/// The reader prints the layout of an accepted track as it was planned, its pieces from index to index, and none of a refused one.
#[test]
fn reader_prints_the_layout() {
    let mut tally = Tally::new("reader", 2_400);
    for seed in tally.seeds() {
        let sound = sound_plan(seed);
        let input = match seed % 2 {
            0 => joined((sound.built.track.clone(), sound.built.marks.clone())),
            _ => input_of(seed / 2, &mut Rng::new(seed)),
        };
        let done = judged(&input);
        tally.count(done);
        let (text, status) = run_reader("layout", std::slice::from_ref(&input));
        assert!(text.starts_with(&accept_line(done)), "seed {seed}: {text}");
        assert_eq!(status, Some(i32::from(!done.is_done())), "seed {seed}");
        let layouts = layouts(&text);
        assert_eq!(layouts.len(), usize::from(done.is_done()), "seed {seed}");
        let lengths = layouts.iter().flatten().map(|piece| piece.1);
        assert!(!done.is_done() || lengths.sum::<usize>() == input.len() / 2);
        if seed % 2 == 0 {
            assert_eq!(layouts[0], planned(&sound), "seed {seed}");
        }
    }
    tally.finish(2_400, &[0, 1, 2, 3, 4, 5, 6, 7, 8, 9, 10, 11, 13]);
}

/// Of two files the reader prints the layout of each accepted track; its status is the first one's.
#[test]
fn reader_prints_both_layouts() {
    let mut tally = Tally::new("reader with two files", 800);
    let mut both = 0;
    for seed in tally.seeds() {
        let inputs = two_inputs(seed, &mut Rng::new(seed));
        let done = inputs.each_ref().map(|input| judged(input));
        done.iter().for_each(|&done| tally.count(done));
        let (text, status) = run_reader("layouts", &inputs);
        let lengths = layouts(&text).into_iter();
        let lengths = lengths.map(|pieces| pieces.iter().map(|piece| piece.1).sum());
        let accepted = inputs.iter().zip(done).filter(|(_, done)| done.is_done());
        let wanted: Vec<usize> = accepted.map(|(input, _)| input.len() / 2).collect();
        assert_eq!(lengths.collect::<Vec<usize>>(), wanted, "seed {seed}");
        assert_eq!(status, Some(i32::from(!done[0].is_done())), "seed {seed}");
        for done in done {
            assert!(text.contains(&accept_line(done)), "seed {seed}: {text}");
        }
        both += usize::from(wanted.len() == 2);
    }
    assert!(both > 100, "{both}");
    tally.finish(1_600, &[0, 1, 2, 3, 4, 5, 6, 7, 8, 9, 10, 11, 13]);
}

/// The beginning of what the reader prints for the sample, to the letter.
#[test]
fn layout_of_the_sample() {
    let sample = std::fs::read(repository().join("samples/case5.bin")).expect("the sample");
    let (text, status) = run_reader("sample", &[sample]);
    let lines = "accept: 0 at 0
layout: place, length and what it is
     0   30  index gap
    30   14  home
    44   11  gap
    55   18  count of S 0
    73   11  gap
    84   17  data of S 0
   101   21  gap
   122   20  count of S 1
   142   11  gap
   153   12  key of S 1
   165   11  gap
   176   89  data of S 1
   265 3641  gap
layout: sum 3906, L 3906
count at 55: flag 0, S 0, KL 0, DL 8
  data: 8 bytes
    49 53 4f 20 33 35 36 31
count at 122: flag 128, S 1, KL 3, DL 80
";
    assert!(text.starts_with(lines), "{text}");
    assert!(text.ends_with("\nwalk: 12\n"), "{text}");
    assert_eq!(status, Some(0));
}

/// Where the output cannot be written the reader says so, and its status is neither that of a sound track nor of a refused one.
#[test]
fn lost_output_is_told() {
    let full = std::fs::OpenOptions::new().write(true).open("/dev/full");
    let output = Command::new(example("reader"))
        .arg(repository().join("samples/case5.bin"))
        .stdout(full.expect("a file that is always full"))
        .output()
        .expect("the program ends");
    let told = String::from_utf8_lossy(&output.stderr);
    assert!(told.contains("could not be written"), "{told}");
    assert_eq!(output.status.code(), Some(2));
}

/// Where the input cannot be read or the output not be written, each program says so, and its status is not that of a finished job.
#[test]
fn failed_reads_and_writes_are_told() {
    let samples = repository().join("samples");
    let open = |name: &str| std::fs::File::open(samples.join(name)).expect("a sample opens");
    let full = || {
        let opened = std::fs::OpenOptions::new().write(true).open("/dev/full");
        opened.expect("a file that is always full")
    };
    let told = |name: &str, command: &mut Command, wanted: &str| {
        let output = command.output().expect("the program ends");
        let error = String::from_utf8_lossy(&output.stderr);
        assert!(error.contains(wanted), "{name}: {error}");
        assert_eq!(output.status.code(), Some(1), "{name}: {error}");
        output.stdout
    };
    for name in ["tracklist", "trackwalk", "trackdump"] {
        let mut reading = Command::new(program(name));
        let written = told(name, reading.stdin(open(".")), "Is a directory");
        assert!(
            written.is_empty(),
            "{name} went on with what it had not read"
        );
        let mut writing = Command::new(program(name));
        let writing = writing.stdin(open("case5.bin")).stdout(full());
        told(name, writing, "No space left");
    }
    let pair = |first: &Path| {
        let mut command = Command::new(program("trackpair"));
        command.args([first, &samples.join("alternative.bin"), Path::new("1")]);
        command
    };
    let written = told("trackpair", &mut pair(&samples), "Is a directory");
    assert!(
        written.is_empty(),
        "trackpair went on with what it had not read"
    );
    let mut writing = pair(&samples.join("defective.bin"));
    told("trackpair", writing.stdout(full()), "No space left");
}
