//! The program `desk` as people call it.

mod common;

use std::fs;
use std::io::Write;
use std::path::PathBuf;
use std::process::{Command, Output, Stdio};

use common::*;
use desk::changes::Change;
use desk::entry_tables::AnswersAndEntries;
use desk::requests::{adler32, Call, Request};
use desk::show::hex;
use desk::tables::TableAndBuffer;

const DESK: &str = env!("CARGO_BIN_EXE_desk");

fn desk(arguments: &[&str], input: &[u8]) -> Output {
    let mut child = Command::new(DESK)
        .args(arguments)
        .stdin(Stdio::piped())
        .stdout(Stdio::piped())
        .stderr(Stdio::piped())
        .spawn()
        .expect("desk starts");
    let mut to_child = child.stdin.take().expect("piped");
    let input = input.to_vec();
    let feeding = std::thread::spawn(move || {
        let _ = to_child.write_all(&input);
    });
    let output = child.wait_with_output().expect("desk ends");
    feeding.join().expect("fed");
    output
}

fn text_of(bytes: &[u8]) -> String {
    String::from_utf8(bytes.to_vec()).expect("readable output")
}

/// A file of this test run.
fn file(name: &str, contents: &[u8]) -> String {
    let path = PathBuf::from(env!("CARGO_TARGET_TMPDIR")).join(name);
    fs::write(&path, contents).expect("a file can be written");
    path.to_str().expect("a plain path").to_string()
}

/// The third input of a run of a table, with so many answers that are all 1.
fn answers_and_entries(answers: usize, entries: &[Vec<u8>]) -> Vec<u8> {
    let (answers, entries) = (vec![1; answers], entries.concat());
    AnswersAndEntries { answers, entries }.to_bytes()
}

fn bytes(requests: &[Request]) -> Vec<u8> {
    let mut bytes = Vec::new();
    for request in requests {
        request.write(&mut bytes).expect("a vector takes all");
    }
    bytes
}

#[test]
fn answer_lines() {
    let text = |text: &str| text.as_bytes().to_vec();
    let none = Vec::new;
    let block = translated("v == 1", &list());
    let joined = translated("false && true", &list());
    let change = |earlier| {
        let (old, new) = (entry(), entry());
        Change { earlier, old, new }.to_bytes()
    };
    let recheck = |third| Request::new(Call::Recheck, text("v == 1"), list(), third);
    let lent = |table: &[u64], buffer: usize| {
        let (table, buffer) = (table.to_vec(), vec![1; buffer]);
        TableAndBuffer { table, buffer }.to_bytes()
    };
    let pact =
        |contract: &[u8], third| Request::new(Call::Pact, contract.to_vec(), inputs(1), third);
    let compare = |of: &str, blocks| Request::new(Call::Compare, text(of), list(), blocks);
    let count = |of: &str, entries| Request::new(Call::Count, text(of), list(), entries);
    let run_all = |third| Request::new(Call::RunAll, list(), block.clone(), third);
    let table = answers_and_entries(3, &[entry(), entry()]);
    let requests = [
        Request::new(Call::Read, text("true && true"), none(), none()),
        Request::new(Call::Check, text("v == 1"), list(), none()),
        Request::new(Call::Judge, text("v == 1"), list(), entry()),
        Request::new(Call::Judge, text("d == 1"), list(), entry()),
        Request::new(Call::Translate, text("v == 1"), list(), vec![0; 512]),
        Request::new(Call::Translate, text("v == 1"), list(), vec![1; 3]),
        Request::new(Call::Load, list(), block.clone(), none()),
        Request::new(Call::Run, list(), block.clone(), entry()),
        Request::new(Call::Run, list(), joined, entry()),
        Request::new(Call::Read, text("@"), none(), none()),
        Request::new(Call::Load, vec![0; 3], none(), none()),
        Request::new(Call::Run, list(), block.clone(), none()),
        Request::new(Call::Load, list(), none(), none()),
        Request::new(Call::Print, text("a;b"), none(), vec![1; 6]),
        Request::new(Call::Print, text("a;b"), vec![0; 3], vec![1; 3]),
        Request::new(Call::Print, text("@"), none(), vec![1; 3]),
        Request::new(Call::Explain, text("true;(false)"), list(), entry()),
        Request::new(Call::Explain, text("true"), list(), vec![0; 184]),
        Request::new(Call::Explain, text("true"), list(), entry()),
        Request::new(Call::Explain, text("@"), list(), entry()),
        Request::new(Call::Summarize, text("o==1;::priority<1"), list(), none()),
        Request::new(Call::Summarize, text("d > 3"), list(), vec![0; 3]),
        recheck(change(1)),
        recheck(change(2)),
        recheck(change(7)),
        recheck(change(1)[..189].to_vec()),
        recheck(change(1)[..188].to_vec()),
        Request::new(Call::Recheck, text("@"), none(), vec![0; 4]),
        Request::new(Call::FixOctal, text(")0O10 'x"), none(), vec![1; 9]),
        Request::new(Call::FixOctal, text(")0O10"), none(), vec![1; 5]),
        Request::new(Call::FixOctal, text(")0O10"), vec![0; 3], vec![1; 3]),
        Request::new(Call::FixOctal, none(), none(), none()),
        Request::new(Call::Print, text(")0O10"), none(), vec![1; 3]),
        pact(&[0x00, 0x01], lent(&[5, 6], 8)),
        pact(&[0x00, 0x02], lent(&[5, 6], 3)),
        pact(&[0x00, 0x01], lent(&[5, 6], 3)),
        pact(&[0x00], lent(&[0; 17], 3)),
        pact(&[], lent(&[], 0)),
        pact(&[0x00], lent(&[5], 0)[..9].to_vec()),
        pact(&[0x00], vec![0]),
        Request::new(Call::Pact, none(), vec![0; 3], none()),
        compare("v == 1;", block.clone()),
        compare("v == 0", block.clone()),
        compare("", none()),
        compare("v == 1", none()),
        count(
            "v == 1; ::priority < 10",
            [entry(), entry(), vec![0; 3]].concat(),
        ),
        count("(false; true);", none()),
        count("true; @", vec![0; 3]),
        Request::new(Call::Count, text("true"), vec![0; 3], entry()),
        run_all(answers_and_entries(3, &[entry(), vec![0; 184]])),
        run_all(answers_and_entries(3, &[])),
        run_all(vec![0; 4]),
        run_all(table[..table.len() - 1].to_vec()),
        run_all(answers_and_entries(3, &vec![entry(); 4])),
        run_all(table[..6].to_vec()),
        run_all(table[..3].to_vec()),
        Request::new(Call::RunAll, list(), none(), table.clone()),
        Request::new(Call::RunAll, vec![0; 3], none(), table),
        Request::new(Call::RunAll, vec![0; 3], none(), none()),
    ];
    let output = desk(&["answer"], &bytes(&requests));
    let sum = adler32(&block);
    let print_sum = adler32(b"a ; b\x01");
    let part_sum = adler32(b"(false)");
    let key_sum = adler32(b"v");
    let [ones_sum, fixed_sum] = [&[1; 9], &b")0x8\x01"[..]].map(adler32);
    let draft_sum = adler32(b"i0 == 6\x01");
    let table_sum = adler32(&[1, 0, 1]);
    let wanted = format!(
        "read 3\npassed\naccepted\nviolated\ntranslated 4 {sum}\nrefused 15 buffer 3 589828\n\
         loaded 4\naccepted 4\nviolated 2\nrefused 5 text 0\nrefused 2 list 3\nrefused 19 entry 0\n\
         refused 16 blocks 0\nprinted 5 {print_sum}\nrefused 21 buffer 3 589828\n\
         refused 5 text 0 589828\npart 2 at 6 5 7 {part_sum}\nkey at 4 16 1 {key_sum}\n\
         nothing accepted\nnothing refused 5 text 0\nsummary 16 1 1\nrefused 13 text 2\n\
         reused accepted\nreused violated\nreused refused 20 entry 0\n\
         judged refused 19 entry 0\nmalformed\nmalformed\n\
         refused 5 text 6 {ones_sum}\nfixed 4 {fixed_sum}\nrefused 21 buffer 3 589828\n\
         fixed 0 1\nrefused 22 text 1 589828\n\
         drafted 7 {draft_sum}\nrefused 24 contract 1 589828\nrefused 21 buffer 3 589828\n\
         refused 24 table 16 589828\nrefused 21 buffer 0 1\nmalformed\nmalformed\nmalformed\n\
         agrees\ndiffers\nrefused 8 text 0\nrefused 16 blocks 0\n\
         counted 0 2 0 3 0 2\ncounted 0 0 0 0 0\nrefused 5 text 6\nrefused 2 list 3\n\
         ran 2 4 {table_sum}\nran 0 0 589828\nran 0 0 1\nrefused 19 entry 367 589828\n\
         refused 15 buffer 3 589828\nmalformed\nmalformed\n\
         refused 16 blocks 0 589828\nrefused 2 list 3 589828\nmalformed\n"
    );
    assert_eq!(text_of(&output.stdout), wanted);
}

/// Adler-32 of known bytes.
#[test]
fn sums() {
    assert_eq!(adler32(b""), 1);
    assert_eq!(adler32(b"Wikipedia"), 0x11e6_0398);
    assert_eq!(adler32(&[1; 3]), 589_828);
}

#[test]
fn odd_requests() {
    let long = vec![b' '; 65_537];
    let limit = vec![b' '; 65_536];
    let beyond = Call::ALL.len() as u8 + 1;
    let mut input = bytes(&[
        Request::new(Call::Read, long, Vec::new(), Vec::new()),
        Request::new(Call::Read, limit, Vec::new(), Vec::new()),
        Request {
            call: beyond,
            inputs: Default::default(),
        },
        Request {
            call: 0,
            inputs: Default::default(),
        },
    ]);
    let wanted = "too long\nrefused 1 text 4096\nunknown\nunknown\n";
    assert_eq!(text_of(&desk(&["answer"], &input).stdout), wanted);
    // A last request cut in its call, a length or an input.
    let whole = bytes(&[Request::new(
        Call::Read,
        b"true".to_vec(),
        Vec::new(),
        Vec::new(),
    )]);
    for length in 1..whole.len() {
        let lines = text_of(&desk(&["answer"], &whole[..length]).stdout);
        assert_eq!(lines, "cut\n", "{length} bytes");
    }
    input.extend_from_slice(&whole[..9]);
    let lines = text_of(&desk(&["answer"], &input).stdout);
    assert_eq!(lines, format!("{wanted}cut\n"));
    assert_eq!(text_of(&desk(&["answer"], &[]).stdout), "");
}

/// The third input of a run of a table, cut at every place: malformed as long as the
/// answers are not whole.
#[test]
fn tables_that_are_cut() {
    let list = list_of("v exact 1");
    let blocks = translated("true", &list);
    let third = answers_and_entries(3, &[vec![0xff; 40], vec![0xff; 40]]);
    let requests: Vec<Request> = (0..=third.len())
        .map(|length| {
            let third = third[..length].to_vec();
            Request::new(Call::RunAll, list.clone(), blocks.clone(), third)
        })
        .collect();
    let lines = text_of(&desk(&["answer"], &bytes(&requests)).stdout);
    let sums = [[1, 1, 1], [0, 1, 1], [0, 0, 1]].map(|answers| adler32(&answers));
    for (length, line) in lines.lines().enumerate() {
        let wanted = match length.checked_sub(4 + 3) {
            None => "malformed".to_string(),
            Some(entries) if entries.is_multiple_of(40) => {
                let whole = entries / 40;
                format!("ran {whole} 0 {}", sums[whole])
            }
            Some(entries) => format!("refused 19 entry {entries} {}", sums[0]),
        };
        assert_eq!(line, wanted, "{length} bytes");
    }
    assert_eq!(lines.lines().count(), third.len() + 1);
}

/// Lengths of the answers on both sides of what there is, up to the largest.
#[test]
fn answers_that_are_too_long() {
    let blocks = translated("true", &[]);
    let asking = |length: u32, rest: usize| {
        let third = [&length.to_be_bytes()[..], &vec![1; rest]].concat();
        Request::new(Call::RunAll, Vec::new(), blocks.clone(), third)
    };
    let ones = adler32(&[1; 8]);
    let four = adler32(&[1; 4]);
    for (length, rest, wanted) in [
        (0, 0, "ran 0 0 1".to_string()),
        (1, 0, "malformed".to_string()),
        (8, 7, "malformed".to_string()),
        (8, 8, format!("ran 0 0 {ones}")),
        (8, 9, format!("refused 19 entry 1 {ones}")),
        (4, 8, format!("ran 1 1 {four}")),
        (0, 4, "refused 15 buffer 0 1".to_string()),
        (1 << 24, 8, "malformed".to_string()),
        (1 << 31, 8, "malformed".to_string()),
        (u32::MAX, 8, "malformed".to_string()),
        (u32::MAX - 3, 8, "malformed".to_string()),
    ] {
        let output = desk(&["answer"], &bytes(&[asking(length, rest)]));
        assert_eq!(text_of(&output.stdout), format!("{wanted}\n"));
    }
    // The longest input of all, and one byte more.
    for (rest, wanted) in [(65_532, "refused 19 entry 65531"), (65_533, "too long")] {
        let output = desk(&["answer"], &bytes(&[asking(1, rest)]));
        assert!(text_of(&output.stdout).starts_with(wanted));
    }
}

/// A request to run a table that is cut in its call, a length or an input.
#[test]
fn cut_requests_to_run_a_table() {
    let third = answers_and_entries(1, &[vec![0; 4]]);
    let request = Request::new(Call::RunAll, Vec::new(), translated("true", &[]), third);
    let whole = bytes(&[request]);
    let lines = text_of(&desk(&["answer"], &whole).stdout);
    assert_eq!(lines, format!("ran 1 1 {}\n", adler32(&[1])));
    let near_the_end = whole.len() - 15..whole.len();
    for length in (1..12).chain([520, 521, 522]).chain(near_the_end) {
        let lines = text_of(&desk(&["answer"], &whole[..length]).stdout);
        assert_eq!(lines, "cut\n", "{length} bytes");
    }
}

#[test]
fn generate_histogram_and_show() {
    let output = desk(&["generate", "--seed", "3", "--count", "300"], &[]);
    let again = desk(&["generate", "--count", "300", "--seed", "3"], &[]);
    assert_eq!(output.stdout, again.stdout);
    let lines = text_of(&desk(&["answer"], &output.stdout).stdout);
    assert_eq!(lines.lines().count(), 300);
    let table = text_of(&desk(&["histogram"], &output.stdout).stdout);
    let last: Vec<&str> = table.lines().last().unwrap().split_whitespace().collect();
    assert_eq!(last[..2], ["all", "300"]);
    assert!(desk(&["show"], &output.stdout).status.success());
}

#[test]
fn show_a_request() {
    let request = Request::new(Call::Judge, b"ipv4('x') == v".to_vec(), list(), entry());
    let shown = text_of(&desk(&["show"], &bytes(&[request])).stdout);
    let wanted = format!(
        "judge\n  text, 14 bytes: \"ipv4('x') == v\"\n  key list, 400 bytes:\n    v exact 1\n    \
         d ternary 8\n    p lpm 8\n    r range 16\n    o optional 4\n  entry, 184 bytes: {ENTRY}\n  \
         answer: refused 10 text 5\n\n"
    );
    assert_eq!(shown, wanted);
}

#[test]
fn show_required_keys() {
    let keys = "v exact 1\nd ternary 8 required";
    let (list, entry) = (list_of(keys), entry_of(keys, "v 1"));
    let request = Request::new(Call::Judge, b"true".to_vec(), list, entry);
    let shown = text_of(&desk(&["show"], &bytes(&[request])).stdout);
    let list = "  key list, 160 bytes:\n    v exact 1\n    d ternary 8 required\n";
    assert!(shown.contains(list), "{shown}");
    assert!(
        shown.ends_with("  answer: refused 20 entry 40\n\n"),
        "{shown}"
    );
}

#[test]
fn show_a_print() {
    let request = |between| Request::new(Call::Print, b"a;b".to_vec(), between, vec![1; 9]);
    let requests = bytes(&[request(Vec::new()), request(vec![2; 3])]);
    let shown = text_of(&desk(&["show"], &requests).stdout);
    let sum = adler32(b"a ; b\x01\x01\x01\x01");
    let text = "print\n  text, 3 bytes: \"a;b\"\n";
    let between = "  passed over, 3 bytes: 020202...\n";
    let rest = format!("  buffer, 9 bytes: 0101010101010101...\n  answer: printed 5 {sum}\n\n");
    assert_eq!(shown, format!("{text}{rest}{text}{between}{rest}"));
}

#[test]
fn show_a_fix() {
    let request = Request::new(Call::FixOctal, b"0o10".to_vec(), Vec::new(), vec![1; 4]);
    let shown = text_of(&desk(&["show"], &bytes(&[request])).stdout);
    let sum = adler32(b"0x8\x01");
    let wanted = format!(
        "fix_octal\n  text, 4 bytes: \"0o10\"\n  buffer, 4 bytes: 01010101...\n  \
         answer: fixed 3 {sum}\n\n"
    );
    assert_eq!(shown, wanted);
}

#[test]
fn show_a_contract() {
    let contract = vec![0x04, 0x01, 0xc0, 0x68, 0x13, 0x00, 0x02, 0x84, 0x0c, 0x00];
    let (table, buffer) = (vec![7, 8], vec![0x61; 3]);
    let third = TableAndBuffer { table, buffer }.to_bytes();
    let cut = vec![0x88, 0x00];
    let requests = [
        Request::new(Call::Pact, contract, inputs(2), third),
        Request::new(Call::Pact, cut, Vec::new(), vec![0]),
    ];
    let shown = text_of(&desk(&["show"], &bytes(&requests)).stdout);
    let sum = adler32(b"aaa");
    let wanted = format!(
        "pact\n  contract, 10 bytes:\n    0401 Input(0) Greater User(1)\n    c0 Not And\n    \
         6813 Not Input(1) GreaterEqual Input(3)\n    0002 Input(0) Equal User(2)\n    \
         84 Or\n    0c00 from here no opcode\n  key list, 160 bytes:\n    \
         i0 exact 64\n    i1 exact 64\n  table, 2 numbers: 7 8\n  \
         buffer, 3 bytes: 616161...\n  answer: refused 24 contract 4 {sum}\n\n\
         pact\n  contract, 2 bytes:\n    88 Xor\n    00 cut after its opcode\n  \
         key list, 0 bytes:\n  no table, 1 bytes: 00...\n  answer: malformed\n\n"
    );
    assert_eq!(shown, wanted);
}

#[test]
fn show_an_explanation() {
    let keys = "v exact 1";
    let (list, entry) = (list_of(keys), entry_of(keys, "v 1"));
    let request = Request::new(Call::Explain, b"false".to_vec(), list, entry);
    let shown = text_of(&desk(&["show"], &bytes(&[request])).stdout);
    let sum = adler32(b"false");
    let wanted = format!(
        "explain\n  text, 5 bytes: \"false\"\n  key list, 80 bytes:\n    v exact 1\n  \
         entry, 40 bytes: priority 0; v 1\n  answer: part 1 at 0 0 5 {sum}\n\n"
    );
    assert_eq!(shown, wanted);
}

#[test]
fn show_a_file_of_entries() {
    let keys = "v exact 1";
    let whole = ["v 1; priority 3", "priority 4"].map(|entry| entry_of(keys, entry));
    let entries = [whole.concat(), vec![0, 0, 0, 5, 1]].concat();
    let request = Request::new(Call::Count, b"v == 1".to_vec(), list_of(keys), entries);
    let shown = text_of(&desk(&["show"], &bytes(&[request])).stdout);
    let wanted = format!(
        "count\n  text, 6 bytes: \"v == 1\"\n  key list, 80 bytes:\n    v exact 1\n  \
         entries laid end to end, 85 bytes:\n  entry, 40 bytes: priority 3; v 1\n  \
         entry, 40 bytes: \n    00000004\n    {}\n  cut entry, 5 bytes: \n    00000005\n    01\n  \
         answer: counted 1 0 1 5 0\n\n",
        "00".repeat(36)
    );
    assert_eq!(shown, wanted);
}

#[test]
fn show_a_table() {
    let keys = "v exact 1";
    let entries = [entry_of(keys, "v 1; priority 3"), vec![0, 0, 0, 5, 1]];
    let (list, blocks) = (list_of(keys), translated("true", &list_of(keys)));
    let asking = |third| Request::new(Call::RunAll, list.clone(), blocks.clone(), third);
    let requests = [
        asking(answers_and_entries(2, &entries)),
        asking(answers_and_entries(1, &entries[..1])),
        asking(vec![0, 0, 0, 1]),
    ];
    let shown = text_of(&desk(&["show"], &bytes(&requests)).stdout);
    let head = format!(
        "run_all\n  key list, 80 bytes:\n    v exact 1\n  blocks, 512 bytes:\n    \
         number 0, count 1, total 1, keys 1, check {} (good)\n      01000001 {} PushBool(true)\n",
        hex(&blocks[508..]),
        "00".repeat(16)
    );
    let entry = "  entry, 40 bytes: priority 3; v 1\n";
    let cut = "  cut entry, 5 bytes: \n    00000005\n    01\n";
    let [two_sum, one_sum] = [&[1, 1][..], &[1]].map(adler32);
    let wanted = format!(
        "{head}  answers, 2 bytes: 0101...\n  entries laid end to end, 45 bytes:\n{entry}{cut}  \
         answer: refused 19 entry 45 {two_sum}\n\n\
         {head}  answers, 1 bytes: 01...\n  entries laid end to end, 40 bytes:\n{entry}  \
         answer: ran 1 1 {one_sum}\n\n\
         {head}  no answers, 4 bytes: 00000001...\n  answer: malformed\n\n"
    );
    assert_eq!(shown, wanted);
}

#[test]
fn show_a_recheck() {
    let keys = "v exact 1";
    let change = Change {
        earlier: 2,
        old: entry_of(keys, "v 1"),
        new: vec![0; 3],
    };
    let request = |third| Request::new(Call::Recheck, b"true".to_vec(), list_of(keys), third);
    let requests = bytes(&[request(change.to_bytes()), request(vec![9; 4])]);
    let shown = text_of(&desk(&["show"], &requests).stdout);
    let head = "recheck\n  text, 4 bytes: \"true\"\n  key list, 80 bytes:\n    v exact 1\n";
    let change = "  earlier answer: violated\n  old entry, 40 bytes: priority 0; v 1\n  \
                  new entry, 3 bytes: \n    000000\n  answer: judged refused 19 entry 3\n\n";
    let none = "  no change, 4 bytes: 09090909...\n  answer: malformed\n\n";
    assert_eq!(shown, format!("{head}{change}{head}{none}"));
}

/// What an explanation shows is a row of its own; what shows nothing counts as
/// its answer.
#[test]
fn histogram_of_explanations() {
    let explain = |text: &str| {
        let text = text.as_bytes().to_vec();
        Request::new(Call::Explain, text, Vec::new(), vec![0; 4])
    };
    let requests = bytes(&["false", "true;false", "true", "@"].map(explain));
    let table = text_of(&desk(&["histogram"], &requests).stdout);
    let rows: Vec<Vec<&str>> = table
        .lines()
        .map(|line| line.split_whitespace().collect())
        .collect();
    let column = 1 + usize::from(Call::Explain.byte());
    let counted: Vec<(&str, &str)> = rows[1..4]
        .iter()
        .map(|row| (row[0], row[row.len() - rows[0].len() + column]))
        .collect();
    assert_eq!(rows[0][column], "explain");
    assert_eq!(
        counted,
        [("accepted", "1"), ("part", "2"), ("refused", "1")]
    );
}

/// A reused answer is a row of its own; a recheck that judges counts as its answer.
#[test]
fn histogram_of_rechecks() {
    let recheck = |old: [u8; 4]| {
        let (earlier, old, new) = (1, old.to_vec(), vec![0; 4]);
        let third = Change { earlier, old, new }.to_bytes();
        Request::new(Call::Recheck, b"false".to_vec(), Vec::new(), third)
    };
    let requests = bytes(&[[0; 4], [1; 4], [255; 4]].map(recheck));
    let table = text_of(&desk(&["histogram"], &requests).stdout);
    let rows: Vec<Vec<&str>> = table
        .lines()
        .map(|line| line.split_whitespace().collect())
        .collect();
    let column = 1 + usize::from(Call::Recheck.byte());
    assert_eq!(rows[0][column], "recheck");
    assert_eq!((rows[1][0], rows[1][column]), ("reused", "2"));
    assert_eq!((rows[2][0], rows[2][column]), ("violated", "1"));
}

#[test]
fn compare_with_itself() {
    let output = desk(
        &[
            "compare", "--seed", "1", "--count", "5000", "--", DESK, "answer",
        ],
        &[],
    );
    assert_eq!(text_of(&output.stdout), "5000 requests, no difference\n");
    assert_eq!(output.status.code(), Some(0));
}

/// Compares with a program whose lines a sed script has changed.
fn compare_with_sed(script: &str) -> String {
    let command = format!("'{DESK}' answer | sed '{script}'");
    let arguments = [
        "compare", "--seed", "3", "--count", "20000", "--", "sh", "-c", &command,
    ];
    let output = desk(&arguments, &[]);
    assert_eq!(output.status.code(), Some(1));
    text_of(&output.stdout)
}

#[test]
fn differences_are_found_and_made_small() {
    let found = compare_with_sed("s/^refused 13/refused 11/");
    assert!(found.contains("difference at request"));
    let smallest = found
        .split("the smallest found:")
        .nth(1)
        .expect("a smallest");
    let text = smallest
        .lines()
        .find(|line| line.starts_with("  text, "))
        .expect("a text");
    let length = text
        .trim_start_matches("  text, ")
        .split(' ')
        .next()
        .unwrap();
    assert!(length.parse::<usize>().unwrap() <= 7, "{smallest}");
    assert!(smallest.contains("reference: refused 13"));
    assert!(smallest.contains("program:   refused 11"));
}

/// Contract, names, table and buffer: all become small.
#[test]
fn a_wrong_draft_is_made_small() {
    let found = compare_with_sed("s/^drafted/Drafted/");
    let (_, smallest) = found.split_once("the smallest found:\n").expect("one");
    let sum = adler32(b"true");
    let wanted = format!(
        "pact\n  contract, 0 bytes:\n  key list, 0 bytes:\n  table, 0 numbers: \n  \
         buffer, 4 bytes: 00000000...\n  reference: drafted 4 {sum}\n  \
         program:   Drafted 4 {sum}\n  in hex: 0c{}06{}\n",
        "00".repeat(11),
        "00".repeat(6)
    );
    assert_eq!(smallest, wanted);
}

/// Text, key list and blocks become small together, so that they still agree.
#[test]
fn a_wrong_agreement_is_made_small() {
    for (script, byte, check) in [
        ("s/^agrees/Agrees/", "01", "fdfa0103"),
        ("s/^differs/Differs/", "00", "fcff0102"),
    ] {
        let found = compare_with_sed(script);
        let (_, smallest) = found.split_once("the smallest found:\n").expect("one");
        let wanted = format!(
            "compare\n  text, 4 bytes: \"true\"\n  key list, 0 bytes:\n  \
             blocks, 512 bytes:\n    number 0, count 1, total 1, keys 0, check {check} (good)\n      \
             010000{byte} {} PushBool(",
            "00".repeat(16)
        );
        assert!(smallest.starts_with(&wanted), "{smallest}");
    }
}

/// Text, key list and entries become small together, and so does the cut entry.
#[test]
fn a_wrong_count_is_made_small() {
    let totals = "^counted [0-9]* [0-9]*";
    for (pattern, text, file, line) in [
        ("^counted".to_string(), "true", "", "0 0 0 0 0"),
        // Cut bytes, a part that is false behind one that is not, and refused entries.
        (
            format!("{totals} [0-9]* [1-9]"),
            "true",
            "  cut entry, 1 bytes: \n    00\n",
            "0 0 0 1 0",
        ),
        (
            format!("{totals} [0-9]* 0 0 1"),
            "true;false",
            "  entry, 4 bytes: priority 0\n",
            "0 1 0 0 0 1",
        ),
        (
            format!("{totals} [1-9]"),
            "true",
            "  entry, 4 bytes: \n",
            "0 0 1 0 0",
        ),
    ] {
        let found = compare_with_sed(&format!("s/{pattern}/&9/"));
        let (_, smallest) = found.split_once("the smallest found:\n").expect("one");
        let length = text.len();
        let head =
            format!("count\n  text, {length} bytes: \"{text}\"\n  key list, 0 bytes:\n  entries");
        assert!(smallest.starts_with(&head), "{smallest}");
        let (_, shown) = smallest.split_once("end to end, ").expect("a file");
        let (_, shown) = shown.split_once(" bytes:\n").expect("a length");
        assert!(shown.starts_with(file), "{smallest}");
        let line = format!("  reference: counted {line}\n");
        assert!(shown.contains(&line), "{smallest}");
    }
}

/// Key list, code, entries and answers become small together, and so does a cut entry.
#[test]
fn a_wrong_table_is_made_small() {
    let ran = "  entry, 4 bytes: priority 0\n";
    for (pattern, keys, answers, entries, line) in [
        ("^ran", 0, 0, String::new(), "ran 0 0"),
        ("^ran [0-9]* [1-9]", 0, 1, ran.to_string(), "ran 1 1"),
        ("^ran [2-9] [1-9]", 0, 2, ran.repeat(2), "ran 2 2"),
        // One that is refused for its key, which stays with it.
        (
            "^ran [1-9][0-9]* 0",
            1,
            1,
            "  entry, 40 bytes: \n".to_string(),
            "ran 1 0",
        ),
        // Of the calls with a 19, this one alone tells a sum behind it.
        (
            "^refused 19 entry [0-9]* [0-9]",
            0,
            0,
            "  cut entry, 1 bytes: \n    00\n".to_string(),
            "refused 19 entry 1",
        ),
    ] {
        let found = compare_with_sed(&format!("s/{pattern}/&9/"));
        let (_, smallest) = found.split_once("the smallest found:\n").expect("one");
        let list = format!("run_all\n  key list, {} bytes:\n", 80 * keys);
        assert!(smallest.starts_with(&list), "{smallest}");
        let blocks = format!("  blocks, 512 bytes:\n    number 0, count 1, total 1, keys {keys}, ");
        assert!(smallest.contains(&blocks), "{smallest}");
        let lent = format!("  answers, {answers} bytes: ");
        let (_, shown) = smallest.split_once(&lent).expect(smallest);
        let (_, shown) = shown.split_once(" bytes:\n").expect("a length");
        assert!(shown.starts_with(&entries), "{smallest}");
        let line = format!("  reference: {line} ");
        assert!(shown.contains(&line), "{smallest}");
    }
}

/// Text, buffer and what is passed over: all become small.
#[test]
fn a_wrong_print_is_made_small() {
    let found = compare_with_sed("s/^printed/Printed/");
    let (_, smallest) = found.split_once("the smallest found:\n").expect("one");
    let wanted = "print\n  text, 1 bytes: \"0\"\n  buffer, 1 bytes: 00...\n  \
                  reference: printed 1 3211313\n  program:   Printed 1 3211313\n  \
                  in hex: 070000000130000000000000000100\n";
    assert_eq!(smallest, wanted);
}

/// Key list, both entries and the earlier answer become small together.
#[test]
fn a_wrong_recheck_is_made_small() {
    let found = compare_with_sed("s/^reused/Reused/");
    let (_, smallest) = found.split_once("the smallest found:\n").expect("one");
    let wanted = "recheck\n  text, 4 bytes: \"true\"\n  key list, 0 bytes:\n  \
                  earlier answer: refused 20 entry 0\n  old entry, 4 bytes: priority 0\n  \
                  new entry, 4 bytes: priority 0\n  \
                  reference: reused refused 20 entry 0\n  \
                  program:   Reused refused 20 entry 0\n";
    assert!(smallest.starts_with(wanted), "{smallest}");
}

/// Code, key list and entry become small together.
#[test]
fn a_wrong_run_is_made_small() {
    let found = compare_with_sed("s/^violated [0-9]/&0/");
    let (_, smallest) = found.split_once("the smallest found:\n").expect("one");
    let wanted = "run\n  key list, 0 bytes:\n  blocks, 512 bytes:\n    \
                  number 0, count 1, total 1, keys 0, check fcff0102 (good)\n      \
                  01000000 00000000000000000000000000000000 PushBool(false)\n  \
                  entry, 4 bytes: priority 0\n  \
                  reference: violated 1\n  program:   violated 10\n";
    assert!(smallest.starts_with(wanted), "{smallest}");
}

#[test]
fn a_program_that_stops_is_found() {
    let found = compare_with_sed("/refused 9/,$d");
    let smallest = found
        .split("the smallest found:")
        .nth(1)
        .expect("a smallest");
    assert!(smallest.contains("reference: refused 9"), "{smallest}");
    assert!(smallest.contains("program:   (no line)"), "{smallest}");
}

#[test]
fn a_wrong_line_for_a_cut_request_is_found() {
    assert!(compare_with_sed("s/^cut/kut/").contains("not [\"cut\"]"));
}

/// What the program `count` writes, for files.
#[test]
fn count_files() {
    let text = file("count.text", b"v == 1; ::priority < 10");
    let keys = file("count.keys", &list());
    let entries = file("count.entries", &[entry(), entry(), vec![0; 3]].concat());
    let output = desk(&["count", &text, &keys, &entries], &[]);
    let wanted = "part 1 0\npart 2 2\naccepted 0\nviolated 2\nrefused 0\ncut 3\n";
    assert_eq!(text_of(&output.stdout), wanted);
    assert_eq!(output.status.code(), Some(0));
    // No key list, and so entries of 4 bytes.
    let none = file("count.none", &[]);
    let million = file("count.million", &[0; 4_000_004]);
    let always = file("count.always", b"true");
    for (arguments, wanted) in [
        ([&always, &none, &million], "refusal 25\n"),
        ([&always, &entries, &million], "refusal 2 371\n"),
        ([&none, &keys, &million], "refusal 8 0\n"),
        ([&text, &none, &million], "refusal 11 0\n"),
        (
            [&always, &none, &none],
            "part 1 0\naccepted 0\nviolated 0\nrefused 0\n",
        ),
    ] {
        let [text, keys, entries] = arguments;
        let output = desk(&["count", text, keys, entries], &[]);
        assert_eq!(text_of(&output.stdout), wanted);
        assert_eq!(output.status.code(), Some(0));
    }
    // A file that is not there: nothing is written, even if the text is refused.
    let output = desk(&["count", &none, &keys, "/no/such/file"], &[]);
    assert_eq!(output.status.code(), Some(2));
    assert_eq!(text_of(&output.stdout), "");
    assert!(text_of(&output.stderr).starts_with("desk: /no/such/file: "));
}

#[test]
fn pack_and_unpack() {
    let keys = file("keys", KEYS.as_bytes());
    let entries = file("entries", format!("{ENTRY}\n").as_bytes());
    let packed = desk(&["pack", "keys", &keys], &[]).stdout;
    assert_eq!(packed, list());
    let list = file("list", &packed);
    assert_eq!(text_of(&desk(&["unpack", "keys", &list], &[]).stdout), KEYS);
    let packed = desk(&["pack", "entries", &keys, &entries], &[]).stdout;
    assert_eq!(packed, entry());
    let packed = file("packed", &packed);
    let text = desk(&["unpack", "entries", &keys, &packed], &[]).stdout;
    assert_eq!(text_of(&text), format!("{ENTRY}\n"));
}

/// The word for a required key goes there and back; an entry without the key is
/// refused, and packed all the same where that is asked for.
#[test]
fn pack_and_unpack_required_keys() {
    let text = "v exact 1\nipv6.dst lpm 128 required\n";
    let keys = file("keys-required", text.as_bytes());
    let packed = desk(&["pack", "keys", &keys], &[]).stdout;
    assert_eq!((packed[3], packed[83]), (0, 1));
    let list = file("list-required", &packed);
    assert_eq!(text_of(&desk(&["unpack", "keys", &list], &[]).stdout), text);
    let entries = file("entries-required", b"v 1; ipv6.dst ::/0\nv 1\n");
    let output = desk(&["pack", "entries", &keys, &entries], &[]);
    assert_eq!(output.status.code(), Some(2));
    assert!(output.stdout.is_empty());
    let told = text_of(&output.stderr);
    let wanted = "entries-required:2: ipv6.dst: a required key must be given\n";
    assert!(told.ends_with(wanted), "{told}");
    let any = desk(&["pack", "entries", "--any", &keys, &entries], &[]).stdout;
    assert_eq!(any.len(), 2 * 76);
    let missing = file("missing-required", &any);
    let output = desk(&["unpack", "entries", &keys, &missing], &[]);
    assert_eq!(output.status.code(), Some(2));
    let told = text_of(&output.stderr);
    let wanted = "missing-required: entry 2: the record of key ipv6.dst breaks its rule\n";
    assert!(told.ends_with(wanted), "{told}");
    let mut wrong = packed;
    wrong[83] = 2;
    let output = desk(&["unpack", "keys", &file("list-wrong-flag", &wrong)], &[]);
    assert!(text_of(&output.stderr).contains("byte 80: this record breaks its layout (refusal 3)"));
}

#[test]
fn pack_and_unpack_into_files() {
    let keys = file("keys-out", KEYS.as_bytes());
    let entries = file("entries-out", format!("{ENTRY}\n").as_bytes());
    let out = file("out", b"what was there before");
    for (words, said, wanted) in [
        (&["pack", "keys", &keys][..], "packed 5 keys", list()),
        (
            &["pack", "entries", &keys, &entries],
            "packed 1 entry",
            entry(),
        ),
    ] {
        let output = desk(&[words, &[&out]].concat(), &[]);
        assert_eq!(text_of(&output.stdout), format!("{said}: {out}\n"));
        assert_eq!(fs::read(&out).expect("written"), wanted);
    }
    let packed = file("list-out", &list());
    let output = desk(&["unpack", "keys", &packed, &out], &[]);
    assert_eq!(text_of(&output.stdout), format!("unpacked 5 keys: {out}\n"));
    assert_eq!(fs::read(&out).expect("written"), KEYS.as_bytes());
    assert!(!PathBuf::from(format!("{out}.part")).exists());
}

#[test]
fn what_cannot_be_written_stays_as_it_was() {
    let keys = file("keys-kept", KEYS.as_bytes());
    let wrong = file("keys-kept-wrong", b"v exact 0\n");
    let kept = file("kept", b"as it was");
    let part = file("kept.part", b"of somebody else");
    let link = format!("{kept}-link");
    let _ = fs::remove_file(&link);
    std::os::unix::fs::symlink("/dev/full", &link).expect("a link");
    for (from, out) in [
        (&keys, "/no/such/folder/out"),
        (&keys, env!("CARGO_TARGET_TMPDIR")),
        (&keys, "/dev/full"),
        (&keys, &link),
        (&keys, &kept),
        (&wrong, &kept),
    ] {
        let output = desk(&["pack", "keys", from, out], &[]);
        assert_eq!(output.status.code(), Some(2), "{out}");
        assert!(output.stdout.is_empty(), "{out}");
    }
    assert_eq!(fs::read(&kept).expect("there"), b"as it was");
    assert_eq!(fs::read(&part).expect("there"), b"of somebody else");
    assert!(fs::symlink_metadata(&link).expect("there").is_symlink());
}

#[test]
fn trouble_is_told_with_its_line() {
    let keys = file("keys-good", KEYS.as_bytes());
    let wrong = file("keys-wrong", b"v exact 1\nd ternary 200\n");
    let output = desk(&["pack", "keys", &wrong], &[]);
    assert_eq!(output.status.code(), Some(2));
    let told = text_of(&output.stderr);
    assert!(
        told.ends_with("keys-wrong:2: 200 is no width from 1 to 128\n"),
        "{told}"
    );
    let turned = file("turned-range", b"v 1\nv 1; r 444..443\n");
    let output = desk(&["pack", "entries", &keys, &turned], &[]);
    assert_eq!(output.status.code(), Some(2));
    assert!(output.stdout.is_empty());
    assert!(text_of(&output.stderr).contains("turned-range:2: r: low 444"));
    let any = desk(&["pack", "entries", "--any", &keys, &turned], &[]);
    assert_eq!(any.stdout.len(), 2 * 184);
    let cut = file("cut-list", &list()[..100]);
    let output = desk(&["unpack", "keys", &cut], &[]);
    assert_eq!(output.status.code(), Some(2));
    assert!(text_of(&output.stderr).contains("refusal 2"));
    let output = desk(&["pack", "keys", "/no/such/file"], &[]);
    assert_eq!(output.status.code(), Some(2));
}

#[test]
fn wrong_command_lines() {
    for arguments in [
        &[][..],
        &["nothing"],
        &["answer", "x"],
        &["generate", "--seed", "1"],
        &["generate", "--seed", "x", "--count", "1"],
        &["generate", "--seed"],
        &["compare", "--seed", "1", "--count", "1"],
        &["compare", "--seed", "1", "--count", "1", "--"],
        &[
            "compare",
            "--seed",
            "1",
            "--count",
            "1",
            "--",
            "/no/such/program",
        ],
        &["pack"],
        &["pack", "keys", "/dev/null", "/dev/null", "x"],
        &["unpack", "entries", "x"],
        &["count", "x", "y"],
        &["count", "/dev/null", "/dev/null", "/dev/null", "x"],
    ] {
        let output = desk(arguments, &[]);
        assert_eq!(output.status.code(), Some(2), "{arguments:?}");
        assert!(
            text_of(&output.stderr).starts_with("desk: "),
            "{arguments:?}"
        );
    }
}
