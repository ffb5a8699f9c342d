//! The command line, run as a program, and the drivers, run with this program in the place of
//! those they are for.

use std::io::Write;
use std::process::{Command, Output, Stdio};
use std::time::Duration;

use compare::generate::{file_job, flip_pair, job, page_input, question, tray_call};
use compare::trial::Trial;
use compare::{file_list, job_list, program, question_list, tray_list};

const COMPARE: &str = env!("CARGO_BIN_EXE_compare");

fn compare(words: &[&str], input: &[u8]) -> Output {
    let mut command = Command::new(COMPARE);
    command.args(words).stdin(Stdio::piped()).stdout(Stdio::piped()).stderr(Stdio::null());
    let mut child = command.spawn().expect("compare starts");
    let mut stdin = child.stdin.take().expect("standard input is piped");
    stdin.write_all(input).expect("the input is short");
    drop(stdin);
    child.wait_with_output().expect("compare ends")
}

#[test]
fn words_that_print() {
    assert_eq!(compare(&["make", "1", "5"], b"").stdout, page_input(1, 5));
    let jobs = [5, 6].map(|index| job_list::entry(&job(1, index))).concat();
    assert_eq!(compare(&["make-jobs", "1", "5", "2"], b"").stdout, jobs);
    let flips = flip_pair(1, 5).map(|job| job_list::entry(&job)).concat();
    assert_eq!(compare(&["make-flips", "1", "5", "1"], b"").stdout, flips);
    let files = [5, 6].map(|index| file_list::entry(&file_job(1, index).job)).concat();
    assert_eq!(compare(&["make-files", "1", "5", "2"], b"").stdout, files);
    let lists = [5, 6].map(|index| tray_list::entry(&tray_call(1, index))).concat();
    assert_eq!(compare(&["make-lists", "1", "5", "2"], b"").stdout, lists);
    let questions = [5, 6].map(|index| question_list::entry(&question(1, index))).concat();
    assert_eq!(compare(&["make-questions", "1", "5", "2"], b"").stdout, questions);
    assert_eq!(compare(&["page"], b"\0\x03\0").stdout, b"bad input\n");
    assert_eq!(compare(&["ticket"], b"").stdout, b"refused 1 at 0\n");
    let ticket = b"\x01\0\x01\x04\x02\0\x01\x02\x03\0\x04\0\x03\xFF\xFE\x04\0\x02\0\x07\
        \x05\0\x02\0\x06\x06\0\x02\0\0\x07\0\x08\xFF\xFF\0\x02\0\x03\x01\0";
    let line = "ticket 4 2 3 -2 7 6 0 1 65535,2,3,256\n";
    assert_eq!(compare(&["ticket"], ticket).stdout, line.as_bytes());
    let list = [b"\0\0\0\x29", &ticket[..], b"\0\x01"].concat();
    let lines = format!("refused 1 at 0\n{line}cut\n");
    assert_eq!(compare(&["ticket-list"], &list).stdout, lines.as_bytes());
    assert_eq!(compare(&["number-list"], b"\x01\0\x01\0\0\0\0\0\x02\0\x01").stdout, b"0/1 1/0\n");
    assert_eq!(compare(&["job-list"], &[0; 80]).stdout, b"1 0 0 output  scratch \n");
    let line = b"read 15 0 0 0 0 0 run 1 0 0 0 output  scratch \n";
    assert_eq!(compare(&["file-list"], &[0; 32]).stdout, line);
    let line = b"100 768 0 answers output  scratch \n";
    assert_eq!(compare(&["tray-list"], &[0; 56]).stdout, line);
    assert_eq!(compare(&["question-list"], &[0; 96]).stdout, b"1 0 0 0 0 0 0 0 0\n");
}

#[test]
fn words_that_say_nothing() {
    let no_number = ["tickets", "1", "x", "true"];
    let no_list = ["make-paper", "1", "2", "3"];
    let short = [&[][..], &["paper"], &["make", "1"], &["make-jobs", "1", "2"]];
    for words in [&short[..], &[&no_number, &no_list]].concat() {
        assert_eq!(compare(words, b"").status.code(), Some(2));
    }
    for word in ["pages", "tickets", "numbers", "jobs", "flips", "files", "lists", "questions"] {
        assert_eq!(compare(&[word, "1", "1"], b"").status.code(), Some(2));
        assert_eq!(compare(&[word, "1", "1", "/no/such/program"], b"").status.code(), Some(2));
    }
}

/// What a driver prints of a program, and how many differences; these decide its exit status.
fn driven(word: &str, count: u64, program: &[&str]) -> (String, u64) {
    let output = compare(&[&[word, "2", &count.to_string()], program].concat(), b"");
    let text = String::from_utf8_lossy(&output.stdout).to_string();
    let number =
        |line: &str| line.strip_suffix(" differences")?.split(' ').next_back()?.parse().ok();
    let differences = text.lines().find_map(number).expect("a summary");
    assert_eq!(output.status.code(), Some(i32::from(differences > 0)));
    (text, differences)
}

/// The same of a shell's text, in which `compare` is this program.
fn by_shell(word: &str, count: u64, text: &str) -> (String, u64) {
    let text = text.replace("compare", &format!("'{COMPARE}'"));
    driven(word, count, &["sh", "-c", &text])
}

#[test]
fn drivers_agree_with_this_reading() {
    for (word, count, answers, what) in [
        ("pages", 60, "page", "60 inputs"),
        ("tickets", 3000, "ticket-list", "3000 tickets"),
        ("numbers", 60, "number-list", "60 line samples"),
        ("jobs", 120, "job-list", "120 jobs"),
        ("flips", 120, "job-list", "120 jobs and their flipped jobs"),
        ("files", 120, "file-list", "120 files"),
        ("lists", 120, "tray-list", "120 lists of jobs"),
        ("questions", 120, "question-list", "120 questions"),
    ] {
        let (text, _) = driven(word, count, &[COMPARE, answers]);
        assert!(text.starts_with(&format!("{what}, 0 differences\n")), "{text}");
        // A program that reads nothing and prints nothing blocks nobody.
        assert!(driven(word, count, &["true"]).1 > 0);
        assert!(by_shell(word, count, &format!("compare {answers}; kill -9 $$")).1 > 0);
    }
    assert_eq!(driven("pages", 60, &["true"]).1, 60);
}

#[test]
fn wrong_texts_are_told() {
    let refused_3 = "compare ticket-list | sed 's/^refused 5/refused 3/'";
    let (told, differences) = by_shell("tickets", 4000, refused_3);
    assert!(differences > 0 && told.contains(&format!("\nrefused 5: {differences}\n")));
    assert_eq!(told.matches("difference at seed 2 index").count(), 3);
    let texts = "due:\nrefused 5 at 734\n\nprinted, right up to byte 8:\nrefused 3 at 734\n";
    assert!(told.contains(texts));
    let (told, differences) = by_shell("tickets", 4000, "compare ticket-list | sed '/cut/d'");
    assert!(differences > 0 && told.contains(&format!("\ncut: {differences}\n")));
    let (told, differences) = by_shell("tickets", 4000, "compare ticket-list; echo");
    assert!(told.contains(&format!("\nruns: {differences}\n")));
    let swapped = r"compare number-list | sed 's#\([0-9]*\)/\([0-9]*\)#\2/\1#g'";
    assert!((20..100).contains(&by_shell("numbers", 100, swapped).1));
}

#[test]
fn lines_of_jobs_are_compared_whole() {
    for (wrong, least) in
        [("/..$/00/", 20), ("/^0 0 [0-9]*/0 0 7/", 20), ("/$/ source changed/", 120)]
    {
        assert!(by_shell("jobs", 120, &format!("compare job-list | sed 's{wrong}'")).1 >= least);
    }
    // The eleventh job of each run crashes.
    let (told, _) = by_shell("jobs", 120, "compare job-list | sed -n 1,10p; kill -SEGV $$");
    assert!([10, 60, 110].iter().all(|at| told.contains(&format!("at seed 2 index {at}\n"))));
    assert_eq!(told.matches("the program ended by signal 11").count(), 3);
    assert!(told.contains("120 jobs, 3 differences\n") && told.ends_with("time limit: 3\n"));
}

#[test]
fn lines_of_flipped_jobs_are_held_to_those_of_the_jobs() {
    let wrong = |lines: &str, edit: &str| {
        by_shell("flips", 120, &format!("compare job-list | sed '{lines}s/{edit}/'"))
    };
    // No job works so much, so both lines of each pair are wrong, yet alike.
    let much = "^0 0 [0-9]*/0 0 99999999";
    assert_eq!(wrong("", much).1, 240);
    // In each of five runs one line of the first pair is wrong, and differs from the other.
    for line in ["1", "2"] {
        let (told, differences) = wrong(line, much);
        let to = told.split("\nto: ticket ").nth(1).expect("both jobs are told");
        let page = to.split("\ndue:\n0 0 ").nth(1).and_then(|text| text.split(' ').nth(1));
        assert_eq!((differences, page), (10, Some("page")));
    }
    // A line that cannot be read differs by itself, and is held to no other.
    assert_eq!(wrong("1~2", "$/ source changed").1, 120);
}

#[test]
fn lines_of_files_are_compared_whole() {
    for (wrong, least) in [
        ("/..$/00/", 20),
        ("/run 0 0 [0-9]* [0-9]*/run 0 0 7 7/", 20),
        ("/read 15 [0-9]*/read 15 7/", 10),
        ("/ff\\(.*scratch\\)/fe\\1/", 20),
        ("/$/ file changed/", 120),
    ] {
        assert!(by_shell("files", 120, &format!("compare file-list | sed 's{wrong}'")).1 >= least);
    }
}

#[test]
fn lines_of_lists_are_compared_whole() {
    for (wrong, least) in [
        ("/..$/00/", 20),
        ("/^0 0 0/0 0 7/", 60),
        ("/0\\(\\*[0-9]* output\\)/7\\1/", 60),
        ("/answers [0-9]*/answers 7/", 60),
        ("/.. scratch/00 scratch/", 60),
        ("/ output/ jobs changed output/", 120),
    ] {
        assert!(by_shell("lists", 120, &format!("compare tray-list | sed 's{wrong}'")).1 >= least);
    }
}

#[test]
fn every_number_of_a_reason_is_compared() {
    for number in 1..=9 {
        let wrong = format!("compare question-list | awk '{{ ${number} += 1; print }}'");
        assert_eq!(by_shell("questions", 120, &wrong).1, 120);
    }
    let (told, _) = by_shell("questions", 120, "compare question-list | sed 's/^19 0/19 1/'");
    assert!(told.contains("due:\n19 0 0 0 0 0 0 0 0\n\nprinted, right up to byte 3:\n19 1 0 "));
}

#[test]
fn a_long_run_without_a_required_kind_fails() {
    let mut trial = Trial::new(1, 5000, "inputs");
    trial.require("done");
    trial.require("refused 1");
    trial.count("done", 1);
    assert!(trial.failed() && trial.summary().contains("\nnever met: refused 1\n"));
    trial.inputs = 4999;
    assert!(!trial.failed() && !trial.summary().contains("never met"));
    trial.inputs = 5000;
    trial.count("refused 1", 1);
    assert!(!trial.failed() && !trial.summary().contains("never met"));
}

#[test]
fn bad_ends_are_told() {
    let flaw = |text: &str| {
        let limit = Duration::from_secs(1);
        let ran = program::run(&["sh", "-c", text], &[1; 100_000], limit).expect("it starts");
        (String::from_utf8_lossy(&ran.printed).to_string(), ran.flaw)
    };
    let stopped = Some("was stopped after 1s".to_string());
    assert_eq!(flaw("echo 5"), ("5\n".to_string(), None));
    assert_eq!(flaw("echo 5; exit 3"), ("5\n".to_string(), None));
    assert_eq!(flaw("echo 5; exec sleep 9"), ("5\n".to_string(), stopped.clone()));
    assert_eq!(flaw("echo 5; exec sleep 9 >&-"), ("5\n".to_string(), stopped));
    let killed = Some("ended by signal 6".to_string());
    assert_eq!(flaw("echo 5; kill -ABRT $$"), ("5\n".to_string(), killed));
}
