//! Scripts: the worked replay, every refusal, and the forms that lines may take.

use resolver::made::Generator;
use resolver::script::{self, Answer, Command, Fault, Outcome, Replay, print, replay};

const SCRIPT: &str = "P\tF\nE\t0\t0\tR1W1E1E1\nQ\t2\nE\t0\t1\t\nE\t9\t0\tL1\nZ\n";
const PRINTED: &str = "P\t0\nE\t4\t1\t0\t4\nR\t0\t2\t1\nR\t2\t4\t2\nQ\t2\t0\n\
                       E\t3\t0\t0\t3\nR\t0\t3\t0\n!\t5\tP\t11\t-\nZ\t1\n";

/// What a replay that has been opened to the left prints for further lines.
fn opened(lines: &str) -> String {
    let printed = replay(format!("P\tL\n{lines}").as_bytes());
    printed.strip_prefix("P\t0\n").expect("an opening").to_owned()
}

#[test]
fn the_worked_script_prints_byte_for_byte() {
    assert_eq!(replay(SCRIPT.as_bytes()), PRINTED);
    assert_eq!(replay(SCRIPT.trim_end().as_bytes()), PRINTED);
}

#[test]
fn lines_are_counted_from_1_and_the_last_may_lack_its_line_feed() {
    let lines: Vec<_> = script::lines(b"one\n\ntwo").collect();
    assert_eq!(lines, [(1, &b"one"[..]), (2, b""), (3, b"two")]);
    assert_eq!(script::lines(b"").count(), 0);
    assert_eq!(script::lines(b"\n").count(), 1);
    assert_eq!(replay(b""), "");
}

#[test]
fn a_command_holds_its_fields_unread() {
    let edit = Command::Edit { place: b"x", removed: b"", items: b"L" };
    assert_eq!(script::command(b"E\tx\t\tL"), Ok(edit));
    assert_eq!(script::command(b"Z"), Ok(Command::End));
    for line in ["", "X", "P", "P\tL\t", "E\t0\t0", "E\t0\t0\t\t", "Z\t", "Q", "D", "p\tL", " Z"] {
        assert_eq!(script::command(line.as_bytes()), Err(Fault::Command), "{line:?}");
    }
}

#[test]
fn numbers_have_one_to_nine_digits() {
    assert_eq!(script::number(b"0"), Ok(0));
    assert_eq!(script::number(b"999999999"), Ok(999_999_999));
    for field in ["", "00", "01", "1000000000", "-1", "+1", "1 ", "x"] {
        assert_eq!(script::number(field.as_bytes()), Err(Fault::Number), "{field:?}");
    }
}

#[test]
fn items_are_a_letter_and_a_digit() {
    let letters = "LRAESTNCMGWO";
    let field: String = letters.chars().map(|letter| format!("{letter}9")).collect();
    let items = script::items(field.as_bytes()).expect("good items");
    let back: String = items.iter().map(|item| script::class_letter(item.class)).collect();
    assert_eq!(back, letters);
    assert!(items.iter().all(|item| item.width == 9));
    assert_eq!(script::items(b""), Ok(vec![]));
    for (field, position) in [("L1L", 1), ("X1", 0), ("L1LL", 1), ("1L", 0), ("L1L2l1", 2)] {
        assert_eq!(script::items(field.as_bytes()), Err(Fault::Item { position }), "{field:?}");
    }
}

#[test]
fn a_replay_waits_then_is_open_then_has_ended() {
    let printed = replay(b"Q\t0\nZ\nP\tX\nP\tR\nP\tL\nZ\nP\tL\nZ\nnonsense\n");
    let expected = "!\t1\tS\t26\t-\n!\t2\tS\t26\t-\n!\t3\tS\t23\t-\nP\t1\n!\t5\tS\t26\t-\n\
                    Z\t4\n!\t7\tS\t26\t-\n!\t8\tS\t26\t-\n!\t9\tS\t21\t-\n";
    assert_eq!(printed, expected);
}

#[test]
fn a_step_refuses_in_its_order() {
    assert_eq!(replay(b"E\tx\tx\tx\n"), "!\t1\tS\t26\t-\n");
    assert_eq!(opened("E\tx\tx\tx\n"), "!\t2\tS\t22\t-\n");
    assert_eq!(opened("E\t9\tx\tx\n"), "!\t2\tS\t22\t-\n");
    assert_eq!(opened("E\t9\t9\tL1x\n"), "!\t2\tS\t24\t1\n");
    assert_eq!(opened("D\tX\n"), "!\t2\tS\t23\t-\n");
    let too_many = "L3".repeat(257);
    assert_eq!(opened(&format!("E\t9\t9\t{too_many}x\n")), "!\t2\tS\t24\t257\n");
    assert_eq!(opened(&format!("E\t9\t9\t{too_many}\n")), "!\t2\tS\t25\t-\n");
    assert_eq!(opened("E\t9\t9\tL1L3\n"), "!\t2\tP\t11\t-\n");
    assert_eq!(opened("E\t0\t9\tL1L3\n"), "!\t2\tP\t12\t-\n");
    assert_eq!(opened("E\t0\t0\tL1L3\n"), "!\t2\tP\t13\t1\n");
    assert_eq!(opened("Q\t0\n"), "!\t2\tP\t11\t-\n");
    let most = "L1".repeat(256);
    let full = format!("E\t0\t0\t{most}\nE\t0\t0\tL1\nE\t256\t0\tL3\n");
    let expected = "E\t256\t0\t0\t256\nR\t0\t256\t0\n!\t3\tT\t2\t-\n!\t4\tP\t13\t0\n";
    assert_eq!(opened(&full), expected);
}

#[test]
fn a_change_tells_its_runs_whole() {
    let printed = opened("E\t0\t0\tL1L1R1R1\nE\t3\t0\tR1\nE\t5\t0\t\nD\tR\nD\tF\nD\tL\n");
    let expected = "E\t4\t0\t0\t4\nR\t0\t2\t0\nR\t2\t4\t1\n\
                    E\t5\t0\t3\t4\nR\t2\t5\t1\n\
                    E\t5\t0\t-\t-\n\
                    D\t5\t1\t0\t2\nR\t0\t2\t2\n\
                    D\t5\t0\t0\t2\nR\t0\t2\t0\n\
                    D\t5\t0\t-\t-\n";
    assert_eq!(printed, expected);
}

#[test]
fn a_script_has_at_most_16384_bytes() {
    let longest = "\n".repeat(16_384);
    assert!(replay(longest.as_bytes()).ends_with("!\t16384\tS\t21\t-\n"));
    let too_long = format!("{longest}\n");
    assert_eq!(replay(too_long.as_bytes()), "!\t0\tS\t28\t-\n");
}

#[test]
fn an_outcome_that_exceeds_the_buffer_is_not_written() {
    let outcome = Outcome { line: 3, result: Ok(Answer::Asked { level: 2, column: 10 }) };
    let mut buffer = *b"..........";
    assert_eq!(print(&outcome, &mut buffer[..6]), Err(Fault::Buffer));
    assert_eq!(&buffer, b"..........");
    assert_eq!(print(&outcome, &mut buffer[..7]), Ok(7));
    assert_eq!(&buffer, b"Q\t2\t10\n...");
    assert_eq!(Fault::Buffer.number(), 27);
}

#[test]
fn made_scripts_meet_every_refusal_of_a_step() {
    let mut met = [false; 32];
    for seed in 0..300 {
        let mut replay = Replay::new(script::ROWS, script::ITEMS);
        let text = Generator::new(seed).script(60);
        for (_, line) in script::lines(&text) {
            if let Err(fault) = replay.step(line) {
                met[fault.number() as usize] = true;
            }
        }
    }
    let met: Vec<usize> = (0..met.len()).filter(|&number| met[number]).collect();
    assert_eq!(met, [2, 11, 12, 13, 21, 22, 23, 24, 25, 26]);
}
