//! Checks the prologues in an object file of a compiler for MIPS.
//!
//! `prologues TABLE SET OBJECT`: a line of the table has the set that it is for,
//! a routine, the request that fits it, the verdict that its prologue must have,
//! and a sentence that says why. In the object file each routine has a section of
//! its own, `.text.NAME`. The last line is "N passed, M failed".

use std::collections::BTreeSet;
use std::env;
use std::fs;
use std::process::ExitCode;

use compare::elf;
use o32::{Device, Request};

/// The upper eleven bits of `sw`, `swc1` and `sdc1` with `$sp` as base.
const SW_SP: u32 = 0b10_1011 << 5 | 29;
const SWC1_SP: u32 = 0b11_1001 << 5 | 29;
const SDC1_SP: u32 = 0b11_1101 << 5 | 29;

/// The upper sixteen bits of `addiu $sp,$sp`.
const ADDIU_SP: u32 = 0x27BD;

/// `$16` to `$23`, `$28`, `$30` and `$31`.
const SAVED_REGISTERS: u32 = 0xD0FF_0000;

/// A line of the table.
struct Row {
    routine: String,
    request: Request,
    verdict: u32,
    why: String,
}

fn main() -> ExitCode {
    let arguments: Vec<String> = env::args().skip(1).collect();
    let [table, set, object] = &arguments[..] else {
        eprintln!("usage: prologues TABLE SET OBJECT");
        return ExitCode::from(2);
    };
    match check_set(table, set, object) {
        Ok((passed, failed)) => {
            println!("{passed} passed, {failed} failed");
            ExitCode::from(u8::from(failed != 0))
        }
        Err(message) => {
            eprintln!("{message}");
            ExitCode::from(2)
        }
    }
}

/// Checks all routines of a set, and counts the verdicts that are as the table
/// says and those that aren't.
fn check_set(table: &str, set: &str, object: &str) -> Result<(usize, usize), String> {
    let table = fs::read_to_string(table).map_err(|error| format!("{table}: {error}"))?;
    let object = fs::read(object).map_err(|error| format!("{object}: {error}"))?;
    let rows = rows_of(&table, set)?;
    let mut passed = 0;
    for row in &rows {
        let agrees =
            check_routine(&object, row).map_err(|why| format!("{}: {why}", row.routine))?;
        passed += usize::from(agrees);
    }
    Ok((passed, rows.len() - passed))
}

/// The lines of a set, of which there must be some.
fn rows_of(table: &str, set: &str) -> Result<Vec<Row>, String> {
    let rows: Vec<Row> = table
        .lines()
        .filter(|line| line.split_whitespace().next() == Some(set))
        .map(|line| row_of(line).ok_or(format!("no line of a table: {line}")))
        .collect::<Result<_, _>>()?;
    if rows.is_empty() {
        return Err(format!("the table has no line for {set}"));
    }
    Ok(rows)
}

/// Masks are in hexadecimal, the other numbers in decimal.
fn row_of(line: &str) -> Option<Row> {
    let mut words = line.split_whitespace().skip(1);
    let routine = String::from(words.next()?);
    let request = Request {
        leaf: words.next()? != "0",
        locals: words.next()?.parse().ok()?,
        outgoing: words.next()?.parse().ok()?,
        general: u32::from_str_radix(words.next()?, 16).ok()?,
        pairs: u32::from_str_radix(words.next()?, 16).ok()?,
    };
    let verdict = words.next()?.parse().ok()?;
    let why = words.collect::<Vec<_>>().join(" ");
    Some(Row {
        routine,
        request,
        verdict,
        why,
    })
}

/// Whether the prologue of a routine has the verdict that the table says.
fn check_routine(object: &[u8], row: &Row) -> Result<bool, String> {
    let section = format!(".text.{}", row.routine);
    let code = elf::section(object, &section).ok_or("it has no section of its own")?;
    let words = words_of(code);
    let words = &words[..prologue_length(&words)];
    let prologue = &code[..4 * words.len()];
    let verdict = o32::check_prologue(Device::Fpu, row.request, prologue)
        .map_err(|refusal| refusal.to_string())?;

    let text: Vec<String> = words.iter().map(|word| format!("{word:08X}")).collect();
    println!("{}: {}", row.routine, text.join(" "));
    let agrees = verdict.number() == row.verdict;
    if agrees {
        println!("  {verdict}: {}", row.why);
    } else {
        println!("  FAILED: {verdict}, the table says {}", row.verdict);
    }
    Ok(agrees)
}

fn words_of(code: &[u8]) -> Vec<u32> {
    code.chunks_exact(4)
        .map(|bytes| u32::from_be_bytes([bytes[0], bytes[1], bytes[2], bytes[3]]))
        .collect()
}

/// How many words of a routine are its prologue: all up to the last that saves a
/// register, up to the `addiu` where none is saved, and none without a frame.
fn prologue_length(words: &[u32]) -> usize {
    let moves_sp = |&word: &u32| word >> 16 == ADDIU_SP && word & 0x8000 != 0;
    last_save(words)
        .or_else(|| words.iter().position(moves_sp))
        .map_or(0, |index| index + 1)
}

/// Where the last register is saved. It is the first store of a register that
/// saves it; a later one is of the body, which may put the new content of the
/// register on the stack.
fn last_save(words: &[u32]) -> Option<usize> {
    let mut saved = BTreeSet::new();
    let mut last = None;
    for (index, &word) in words.iter().enumerate() {
        if stores_saved_register(word) && saved.insert(word >> 16) {
            last = Some(index);
        }
    }
    last
}

/// Whether a word stores a register that a routine must leave as it was.
fn stores_saved_register(word: u32) -> bool {
    let register = word >> 16 & 31;
    match word >> 21 {
        SW_SP => SAVED_REGISTERS >> register & 1 == 1,
        SWC1_SP | SDC1_SP => register >= 20,
        _ => false,
    }
}
