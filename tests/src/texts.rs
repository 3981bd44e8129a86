//! The printing program, run as a process, against the second program: bytes in, bytes out.

use crate::found;
use crate::random::Random;
use crate::second::text::print;
use crate::sheets::{self, KINDS};
use crate::tally::{each, same, test, Outcome};
use crate::worked::{S1, S2};
use std::fs::File;
use std::io::{self, Write};
use std::os::unix::io::OwnedFd;
use std::os::unix::net::UnixStream;
use std::process::{Command, Stdio};
use std::thread;

pub fn run(command: &[&str], seed: u64, cases: usize) {
    let mut random = Random::new(seed + 300);
    let known: Vec<Vec<u8>> = [S1.to_vec(), S2.to_vec()].iter().map(|s| text_of(s)).collect();
    test("prints the worked sheets", all_same(command, &known));
    test("prints the answers worked by hand", worked_by_hand(command));
    let limits: Vec<Vec<u8>> = found::all().iter().map(|s| text_of(&s.numbers())).collect();
    test("prints the sheets at the limits", all_same(command, &limits));
    let later: Vec<Vec<u8>> =
        found::MOST_LIVE.iter().map(|sheet| text_of(&sheet.one_tick_later())).collect();
    test("refuses the sheets past the limits", all_same(command, &later));
    test("refuses texts of another form", all_same(command, &other_forms()));
    test("refuses an input that can't be read", not_read(command, directory()));
    test("refuses a sheet after which a read fails", not_read(command, broken_off(b"0 1 1 1\n")));
    let sheets: Vec<Vec<u8>> = (0..cases).map(|_| random_text(&mut random)).collect();
    test("prints random sheets", all_same(command, &sheets));
    let changed: Vec<Vec<u8>> = sheets.iter().map(|text| change(text, &mut random)).collect();
    test("answers texts with a byte changed", all_same(command, &changed));
}

/// 01's example whole, and what 01 says of sheets 3, 8, 10 and 11.
fn worked_by_hand(command: &[&str]) -> Outcome {
    let shown = |text: &str| {
        printed(command, text.as_bytes()).map(|bytes| String::from_utf8_lossy(&bytes).into_owned())
    };
    let example = "jobs 1 states 5\n0 0 0 - none\n0 0 1 1 held\n0 0 2 - open\n0 0 3 - open\n\
                   1 1 2 - none\n";
    let whole = [
        ("0 1 1 1\n", example),
        ("0 1 2 2\n0 1 1 2\n", "refused 5 0\n"),
        ("0 255 255 255\n", "refused 4 0\n"),
        ("1 255 255 255\n", "refused 2 1\n"),
        ("0 0 1 1\n", "refused 2 1\n"),
    ];
    for (text, wanted) in whole {
        same(text, shown(text)?, wanted.to_string())?;
    }
    let table = shown("0 2 4 7\n1 1 2 4\n")?;
    let lines = ["jobs 2 states 20", "0 0 10 - open", "1 0 11 2 held", "7 4 23 - none"];
    match lines.into_iter().find(|line| !table.lines().any(|printed| printed == *line)) {
        Some(line) => Err(format!("S2's table has no line {:?}", line)),
        None => Ok(()),
    }
}

fn all_same(command: &[&str], texts: &[Vec<u8>]) -> Outcome {
    each(texts, |text| same_text(command, text))
}

fn same_text(command: &[&str], text: &[u8]) -> Outcome {
    let found = printed(command, text)?;
    let wanted = print(text);
    if found == wanted {
        return Ok(());
    }
    let shown = |bytes: &[u8]| String::from_utf8_lossy(bytes).into_owned();
    Err(format!("{:?} prints {:?}, not {:?}", shown(text), shown(&found), shown(&wanted)))
}

/// What a command, a program and its words, prints for a text.
pub fn printed(command: &[&str], text: &[u8]) -> Result<Vec<u8>, String> {
    let mut child = Command::new(command[0])
        .args(&command[1..])
        .stdin(Stdio::piped())
        .stdout(Stdio::piped())
        .spawn()
        .map_err(|why| format!("{} does not run: {}", command[0], why))?;
    let input = child.stdin.take();
    let bytes = text.to_vec();
    // Beside the reading of what it prints, and with no word if the program stops reading early.
    let writer = thread::spawn(move || input.map(|mut input| input.write_all(&bytes)));
    let output = child.wait_with_output().map_err(|why| why.to_string())?;
    drop(writer.join());
    match output.status.code() {
        Some(0) => Ok(output.stdout),
        _ => Err(format!(
            "{:?} ends the program with {}",
            String::from_utf8_lossy(text),
            output.status
        )),
    }
}

/// An input of which no byte can be read.
fn directory() -> io::Result<Stdio> {
    File::open("/").map(Stdio::from)
}

/// An input that fails behind these bytes: its other end is gone, and has left a byte unread.
fn broken_off(bytes: &[u8]) -> io::Result<Stdio> {
    let (mut ours, mut read_from) = UnixStream::pair()?;
    read_from.write_all(b"?")?;
    ours.write_all(bytes)?;
    drop(ours);
    Ok(Stdio::from(OwnedFd::from(read_from)))
}

/// No table is printed for what came before, and the reason is told.
fn not_read(command: &[&str], input: io::Result<Stdio>) -> Outcome {
    let ran =
        input.and_then(|input| Command::new(command[0]).args(&command[1..]).stdin(input).output());
    let output = ran.map_err(|why| why.to_string())?;
    let shown = |bytes: &[u8]| String::from_utf8_lossy(bytes).into_owned();
    same("the text", shown(&output.stdout), "refused 1 0\n".to_string())?;
    let told = "print_table: standard input can't be read\n";
    same("what is told", shown(&output.stderr), told.to_string())
}

/// A line a job, each ended by byte 10.
pub fn text_of(numbers: &[u16]) -> Vec<u8> {
    let line = |job: &[u16]| format!("{} {} {} {}\n", job[0], job[1], job[2], job[3]);
    numbers.chunks(4).map(line).collect::<String>().into_bytes()
}

fn other_forms() -> Vec<Vec<u8>> {
    let line = "255 255 255 255\n";
    let mut texts: Vec<String> = [
        "",
        "\n",
        " ",
        "0",
        "0 1 1 1",
        "0 1 1 1\r\n",
        "0 1 1 1\n\n",
        "\n0 1 1 1\n",
        "0  1 1 1\n",
        " 0 1 1 1\n",
        "0 1 1 1 \n",
        "0\t1 1 1\n",
        "0 1 1\n",
        "0 1 1 1 1\n",
        "0 1 1 -1\n",
        "0 1 1 +1\n",
        "0 1 1 0x1\n",
        "0 1 1 a\n",
        "0 1 1 1,\n",
        "0 1 1 0001\n",
        "0 1 1 1000\n",
        "0 1 1 1\n0 1 1 1",
        "0 1 1 1\n0 1 1\n",
        "0 1 1 1\u{0}\n",
        "0 1 1 1\n\u{0}",
        "0 1 1 1\n ",
        "0 1 1 1\n0",
        "0 1 1 1 0 1 1 1\n",
        "0 1\n1 1\n",
        "0 1 1 \u{661}\n",
        "0 1 1 1\n0 1 1 1\n\n",
        "000 001 01 1\n",
        "0 1 1 999\n",
        "999 999 999 999\n",
        "0 0 0 0\n",
        "0 1 1 1\n0 0 1 1\n",
    ]
    .map(String::from)
    .to_vec();
    for lines in [7, 8, 9, 16, 500] {
        texts.push("0 1 1 9\n".repeat(lines));
        texts.push(line.repeat(lines));
        texts.push(line.repeat(lines) + "0");
        texts.push(line.repeat(lines) + "\n");
    }
    texts.push("0 1 1 9\n".repeat(8) + &" ".repeat(300));
    texts.push("1".repeat(70_000));
    texts.push("\n".repeat(70_000));
    texts.into_iter().map(String::into_bytes).collect()
}

fn random_text(random: &mut Random) -> Vec<u8> {
    let kind = *random.pick(&KINDS);
    text_of(&sheets::of_kind(kind, random))
}

/// A byte taken out, put in or replaced.
fn change(text: &[u8], random: &mut Random) -> Vec<u8> {
    let mut changed = text.to_vec();
    let at = random.below(text.len());
    let byte = *random.pick(b"0123456789 \n\r\t-a\0");
    match random.below(3) {
        0 => drop(changed.remove(at)),
        1 => changed.insert(at, byte),
        _ => changed[at] = byte,
    }
    changed
}
