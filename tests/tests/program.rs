//! Tests of the page program: a table goes in on standard input, and what comes out is compared
//! with the text that the model gives. BALDUQEN_PAGES names the program, if it is another than the
//! one that was built here.

use balduqen_tests::cases::*;
use balduqen_tests::check::{show, Seen};
use balduqen_tests::gen::*;
use balduqen_tests::kept::kept;
use balduqen_tests::model::{pages, read, scratch_length, word, Answer};
use std::fs::{self, OpenOptions};
use std::io::{self, ErrorKind, Read, Seek, Write};
use std::process::{Child, Command, Stdio};
use std::time::{Duration, Instant};
use std::{env, thread};

/// The planner whose plan the program writes.
const KIND: Kind = Kind::Best;

/// What the program reads at most.
const MOST_INPUT: usize = 16389;

/// The scratch words that it lends.
const SCRATCH: usize = 10240;

/// The stack that the program must do with, in KiB: it used 340 in version 0.8.0, with the report lent.
const STACK: usize = 512;

fn program() -> String {
    env::var("BALDUQEN_PAGES").unwrap_or("../crates/pages/out/pages".to_string())
}

fn start(input: impl Into<Stdio>) -> Child {
    spawn(Command::new(program()), input)
}

/// The program with no more stack than that.
fn start_with_little_stack(input: impl Into<Stdio>) -> Child {
    let mut shell = Command::new("sh");
    shell.args(["-c", "ulimit -s \"$1\" && exec \"$0\"", &program()]);
    shell.arg(STACK.to_string());
    spawn(shell, input)
}

fn spawn(mut program: Command, input: impl Into<Stdio>) -> Child {
    program
        .stdin(input)
        .stdout(Stdio::piped())
        .stderr(Stdio::piped())
        .spawn()
        .unwrap_or_else(|error| panic!("{program:?}: {error}"))
}

/// What the program writes, once it ends.
fn text_of(child: Child) -> String {
    let output = child.wait_with_output().expect("the program ends");
    assert!(output.status.success(), "{:?}", output.status);
    assert!(output.stderr.is_empty(), "{}", show(&output.stderr));
    String::from_utf8(output.stdout).expect("text")
}

/// Runs the program on an input that comes in pieces.
fn run_on_pieces(pieces: &[&[u8]]) -> String {
    feed(start(Stdio::piped()), pieces)
}

fn feed(mut child: Child, pieces: &[&[u8]]) -> String {
    let mut input = child.stdin.take().expect("a pipe");
    for (index, piece) in pieces.iter().enumerate() {
        if index > 0 {
            thread::sleep(Duration::from_millis(2));
        }
        match input.write_all(piece) {
            // It has read all it wants and is gone.
            Err(error) if error.kind() == ErrorKind::BrokenPipe => break,
            result => result.expect("the input is written"),
        }
    }
    drop(input);
    text_of(child)
}

fn run(input: &[u8]) -> String {
    run_on_pieces(&[input])
}

/// The model's answer to what is read of an input, and its text.
fn expected(input: &[u8]) -> (Answer, String) {
    let table = &input[..input.len().min(MOST_INPUT)];
    let count = if table.len() < 2 { 0 } else { word(table, 0) };
    let mut marks = vec![0; count];
    let answer = KIND.model()(table, &mut marks, &mut [0; SCRATCH]);
    if !answer.is_accepted() {
        let text = format!("refused {} at {}\n", answer.number, answer.place);
        return (answer, text);
    }
    let tree = read(table).expect("an accepted table");
    let mut text = format!(
        "pages {} root {} limit {}\n",
        answer.pages, answer.root, tree.limit
    );
    for (number, page) in (1..).zip(pages(&tree, &marks)) {
        text += &format!(
            "page {number} first {} last {} weight {}\n",
            page.first, page.last, page.weight
        );
    }
    (answer, text)
}

/// Compares what the program writes with what the model gives, and hands the answer back.
fn check(input: &[u8]) -> Answer {
    let (answer, text) = expected(input);
    assert_eq!(run(input), text, "{}", show(input));
    answer
}

/// Document 01's text for case E, letter by letter.
#[test]
fn case_e_whole() {
    let text = "pages 3 root 5 limit 5\n\
                page 1 first 1 last 1 weight 5\n\
                page 2 first 2 last 6 weight 4\n\
                page 3 first 4 last 5 weight 4\n";
    assert_eq!(run(&case_e().bytes()), text);
    let too_low = Table {
        limit: 4,
        ..case_e()
    };
    assert_eq!(run(&too_low.bytes()), "refused 7 at 1\n");
}

#[test]
fn cases() {
    for made in made().into_iter().filter(|made| made.kind == KIND) {
        let answer = check(&made.table.bytes());
        assert_eq!(answer, Answer::accepted(made.pages, made.root));
    }
    for (table, number, place) in refused_tables() {
        assert_eq!(check(&table), Answer::refused(number, place));
        assert_eq!(run(&table), format!("refused {number} at {place}\n"));
    }
}

/// Case E with every selection of faults 1 to 4, 6, 7 and 14.
#[test]
fn order_of_the_checks() {
    for (table, number, _) in faulty_tables() {
        assert_eq!(check(&table).number, number);
    }
}

/// Trees with weights of 0: what was refused for them, a run of more nodes than the limit, also
/// where it takes a second plan, and the most nodes of weight 0 that the scratch serves.
#[test]
fn notes() {
    for (table, number, place) in once_refused_tables() {
        let answer = check(&table);
        assert_eq!((answer.number, answer.place), (number, place as u32));
    }
    let text = "pages 2 root 2 limit 2\n\
                page 1 first 1 last 1 weight 2\n\
                page 2 first 2 last 4 weight 2\n";
    assert_eq!(run(&note_between().bytes()), text);
    let text = "pages 3 root 5 limit 5\n\
                page 1 first 1 last 1 weight 5\n\
                page 2 first 2 last 11 weight 4\n\
                page 3 first 6 last 8 weight 4\n";
    assert_eq!(run(&case_e_with_notes().bytes()), text);
    let random = &mut Random::new(908);
    for form in FORMS {
        let parents = random_parents(random, form, 640);
        let notes = Table::new(1, &parents, &[0; 640]);
        let text = "pages 1 root 0 limit 1\npage 1 first 1 last 1 weight 0\n";
        assert_eq!(run(&notes.bytes()), text);
    }
}

/// Lots that nobody has filed: at any node, and in trees that older film has.
#[test]
fn unfiled_lots() {
    for node in 1..=6 {
        let mut table = case_e();
        table.records[node - 1].label = 0;
        assert_eq!(run(&table.bytes()), format!("refused 14 at {node}\n"));
    }
    for film in kept() {
        assert_eq!(
            run(&film.table),
            format!("refused 14 at {}\n", film.unfiled)
        );
    }
    // Here the scratch that is lent would be too little.
    let mut largest = random_table(&mut Random::new(907), Form::Mixed, 2048, 1);
    largest.records[2047].label = 0;
    assert_eq!(run(&largest.bytes()), "refused 14 at 2048\n");
}

#[test]
fn no_input_and_short_input() {
    assert_eq!(run(&[]), "refused 1 at 0\n");
    let table = case_e().bytes();
    for length in 0..table.len() {
        let number = if length < 4 { 1 } else { 4 };
        assert_eq!(check(&table[..length]).number, number);
    }
}

/// What is longer than the longest table is refused for its length, if for nothing before that.
#[test]
fn long_input() {
    let random = &mut Random::new(901);
    let mut largest = random_table(random, Form::Mixed, 2048, 1).bytes();
    assert_eq!(largest.len(), MOST_INPUT - 1);
    assert_eq!(run(&largest), "refused 9 at 32768\n");
    assert_eq!(run(&largest[..16387]), "refused 4 at 16388\n");
    for length in [MOST_INPUT, MOST_INPUT + 1, 20000, 60000] {
        largest.resize(length, 0);
        assert_eq!(run(&largest), "refused 4 at 16388\n");
        let mut small = case_e().bytes();
        small.resize(length, 0);
        assert_eq!(run(&small), "refused 4 at 52\n");
        assert_eq!(run(&vec![0; length]), "refused 2 at 0\n");
        assert_eq!(run(&vec![255; length]), "refused 2 at 65535\n");
    }
}

/// As many nodes as a table has, whose scratch is too little, up to one more.
#[test]
fn long_trees() {
    let random = &mut Random::new(909);
    for form in FORMS {
        for (count, limit, text) in [
            (640, 1, ""),
            (641, 1, "refused 9 at 10256\n"),
            (1024, 1, "refused 9 at 16384\n"),
            (1025, 1, "refused 9 at 16400\n"),
            (2047, 1, "refused 9 at 32752\n"),
            (2048, 1, "refused 9 at 32768\n"),
            (2048, 2, "refused 9 at 40960\n"),
            (2048, 1024, "refused 9 at 8413184\n"),
            (2049, 1, "refused 2 at 2049\n"),
            (2049, 1024, "refused 2 at 2049\n"),
            (2050, 1, "refused 2 at 2050\n"),
        ] {
            let table = random_table(random, form, count, limit).bytes();
            match text {
                "" => assert!(check(&table).is_accepted()),
                _ => assert_eq!(run(&table), text),
            }
        }
    }
}

/// A page for each of the most nodes that the scratch serves.
#[test]
fn most_pages() {
    let parents: Parents = (0..640).collect();
    let lines = (1..=640).map(|page| format!("page {page} first {page} last {page} weight 1\n"));
    let text = "pages 640 root 1 limit 1\n".to_string() + &lines.collect::<String>();
    assert_eq!(run(&Table::new(1, &parents, &[1; 640]).bytes()), text);
}

/// Inputs of this length that begin differently, and what the model says of each.
fn inputs_of(length: usize) -> Vec<(Vec<u8>, String)> {
    let random = &mut Random::new(906);
    let [largest, long] = [2048, 1024].map(|count| random_table(random, Form::Mixed, count, 1));
    let tables = [largest, long, case_e()].map(|table| table.bytes());
    let heads = [vec![0, 6, 255, 255], vec![]];
    let inputs = tables.into_iter().chain(heads);
    inputs
        .map(|mut input| {
            input.resize(length, 1);
            let text = expected(&input).1;
            (input, text)
        })
        .collect()
}

/// Of a file the program reads all, but no more than 16,389 bytes. The test and the program share
/// one place in the file, so afterwards it is where the program stopped.
#[test]
fn what_is_read_of_a_file() {
    let path = concat!(env!("CARGO_TARGET_TMPDIR"), "/what_is_read_of_a_file");
    for length in [0, 3, 52, 8196, 8197, 16387, 16388, 16389, 16390, 100_000] {
        for (input, text) in inputs_of(length) {
            let mut options = OpenOptions::new();
            options.read(true).write(true).create(true).truncate(true);
            let mut file = options.open(path).expect("a new file");
            fs::remove_file(path).expect("the file is there");
            file.write_all(&input).expect("the file is written");
            file.rewind().expect("a file");
            let child = start(file.try_clone().expect("the same place in the file"));
            assert_eq!(text_of(child), text);
            let place = file.stream_position().expect("a place in a file");
            assert_eq!(place, length.min(MOST_INPUT) as u64);
        }
    }
}

/// So it is of a pipe: what lies beyond is left in it.
#[test]
fn what_is_read_of_a_pipe() {
    // A pipe takes 65,536 bytes before they are read.
    for length in [8196, 8197, 8198, 16387, 16388, 16389, 16390, 20_000, 60_000] {
        for (input, text) in inputs_of(length) {
            let (mut output_end, mut input_end) = io::pipe().expect("a pipe");
            input_end.write_all(&input).expect("the pipe has room");
            drop(input_end);
            let child = start(output_end.try_clone().expect("the same pipe"));
            assert_eq!(text_of(child), text);
            let mut left = vec![];
            output_end.read_to_end(&mut left).expect("the rest");
            assert!(left == input[length.min(MOST_INPUT)..], "{}", show(&left));
        }
    }
}

/// Nor does it wait for more, where the pipe stays open.
#[test]
fn no_wait_for_more() {
    for (input, text) in inputs_of(MOST_INPUT) {
        let mut child = start(Stdio::piped());
        let mut open = child.stdin.take().expect("a pipe");
        open.write_all(&input).expect("the input is written");
        let began = Instant::now();
        while child.try_wait().expect("a process").is_none() {
            if began.elapsed() > Duration::from_secs(20) {
                child.kill().expect("a process");
                panic!("it waits for more than {MOST_INPUT} bytes");
            }
            thread::sleep(Duration::from_millis(1));
        }
        assert_eq!(text_of(child), text);
        drop(open);
    }
}

/// A pipe gives what is there; the program waits for the rest, up to the most that it reads.
#[test]
fn input_in_pieces() {
    let random = &mut Random::new(902);
    for _ in 0..40 {
        let table = any_table(random, 60, 30).bytes();
        let (low, high) = (random.between(0, 8), random.between(9, table.len()));
        let pieces = [&table[..low], &table[low..high], &table[high..]];
        assert_eq!(run_on_pieces(&pieces), expected(&table).1);
    }
    // A long table, where the pieces end before, at and behind half of it and its end.
    let largest = random_table(random, Form::Mixed, 2048, 1).bytes();
    for ends in [[8196, 8197], [8197, 16387], [1, 16388], [4096, 12288]] {
        let [low, high] = ends;
        let pieces = [&largest[..low], &largest[low..high], &largest[high..]];
        assert_eq!(run_on_pieces(&pieces), "refused 9 at 32768\n");
        let pieces = [&largest[..low], &largest[low..high], &largest[high..], &[0]];
        assert_eq!(run_on_pieces(&pieces), "refused 4 at 16388\n");
    }
}

/// 10,240 words serve N x (K + 3) up to 2,560.
#[test]
fn scratch_that_is_lent() {
    let random = &mut Random::new(903);
    let mut seen = Seen::default();
    let sizes = [
        (640, 1),
        (641, 1),
        (512, 2),
        (513, 2),
        (512, 3),
        (256, 7),
        (257, 7),
        (256, 8),
        (2, 1024),
        (3, 1024),
        (1024, 1),
        (1024, 1024),
        (1025, 1),
        (2048, 1),
        (2048, 1024),
    ];
    for (count, limit) in sizes {
        for form in FORMS {
            let table = random_table(random, form, count, limit).bytes();
            let answer = check(&table);
            let asked = scratch_length(count, limit);
            if asked > SCRATCH {
                assert_eq!(answer, Answer::refused(9, asked));
            } else {
                assert!(answer.is_accepted());
            }
            seen.add(answer);
        }
    }
    seen.expect(&[0, 9], 20);
}

#[test]
fn small_trees() {
    let mut seen = Seen::default();
    for_each_table(1..=4, &[1, 2, 3], &[2, 4], |table| seen.add(check(table)));
    for_each_table(1..=4, &[0, 1, 2], &[1, 2], |table| seen.add(check(table)));
    seen.expect(&[0, 7], 100);
}

/// All labels of 0 and 1, with weights of 0 and over the limit.
#[test]
fn all_labels_of_small_trees() {
    let mut seen = Seen::default();
    for_each_table(1..=3, &[0, 1, 2, 3], &[2], |table| {
        for_each_labelling(table, |table| seen.add(check(table)));
    });
    seen.expect(&[0, 7, 14], 20);
}

#[test]
fn random_trees() {
    let random = &mut Random::new(904);
    let mut seen = Seen::default();
    for _ in 0..500 {
        let limit = random.pick(&[6, 12, 30]);
        seen.add(check(&any_table(random, 70, limit).bytes()));
    }
    // Numbers of one to four digits.
    for _ in 0..100 {
        let (form, count) = (random.pick(&FORMS), random.between(1, 4));
        let limit = random.pick(&[9, 10, 99, 100, 637, 999, 1000, 1024]);
        seen.add(check(&random_table(random, form, count, limit).bytes()));
    }
    seen.expect(&[0, 9], 10);
}

#[test]
fn damaged_tables() {
    let random = &mut Random::new(905);
    let mut seen = Seen::default();
    for _ in 0..1000 {
        let table = any_table(random, 12, 12);
        seen.add(check(&damaged(random, &table)));
    }
    seen.expect(&[0, 1, 2, 3, 4, 6, 7, 9, 14], 5);
}

/// The frames are the same for every input, so that an empty one, case E and a long report tell.
#[test]
fn little_stack() {
    let flat = random_table(&mut Random::new(906), Form::Flat, 640, 1);
    for table in [vec![], case_e().bytes(), flat.bytes()] {
        let text = feed(start_with_little_stack(Stdio::piped()), &[&table]);
        assert_eq!(text, expected(&table).1);
    }
}
