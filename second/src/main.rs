//! An independent second program for the line protocol of `desk` and of the C
//! client: it answers the same lines straight from the documents, and it keeps
//! and makes the loads on which the programs are compared.

mod bank;
mod book;
mod canonical;
mod fragment;
mod frozen;
mod judge;
mod layout;
mod lines;
mod loads;
mod mask;
mod mma;
mod notation;
mod plans;
mod swizzle;
mod values;
mod verdict;
mod words;

use lines::{answer_line, answers_of, client_answer_line, number, tables_answer_line, AnswerLine};
use loads::every;
use std::env;
use std::io::{self, BufWriter, Read, Write};
use std::process::ExitCode;
use verdict::MOST_ENTRIES;

const USAGE: &str = "usage: second answer [MOST]
       second client [MOST]
       second tables [MOST]
       second blocks
       second large
       second values
       second values-all
       second judge
       second judge-each
       second judge-inputs
       second judge-random SEED COUNT
       second lister
       second lister-input
       second book SEED COUNT
       second book-changes
       second book-unused
       second mutations
       second exhaustive
       second mma-all
       second masks SEED
       second random SEED COUNT
       second block WORD SEED COUNT
       second block large SEED COUNT
       second larger SEED COUNT
       second plans-accepted SEED COUNT
       second follow-plans SEED COUNT
";

/// More than this may not be asked for: a line could ask for all of it.
const MOST_ASKED: u64 = 1 << 20;

/// Standard input to its end.
fn input() -> io::Result<Vec<u8>> {
    let mut input = Vec::new();
    io::stdin().lock().read_to_end(&mut input)?;
    Ok(input)
}

/// Answers standard input to its end as a program does, with so many entries
/// at most lent to a table.
fn answer(program: AnswerLine, out: &mut impl Write, most: u64) -> io::Result<()> {
    let input = input()?;
    for text in answers_of(program, &input, most) {
        out.write_all(text.as_bytes())?;
    }
    Ok(())
}

fn most_asked(text: &[u8]) -> Option<u64> {
    number(text).filter(|most| *most <= MOST_ASKED)
}

fn print(out: &mut impl Write, lines: impl Iterator<Item = Vec<u8>>) -> io::Result<()> {
    for line in lines {
        out.write_all(&line)?;
    }
    Ok(())
}

/// Does what the arguments ask; none when they ask nothing known.
fn run(arguments: &[&[u8]], out: &mut impl Write) -> Option<io::Result<()>> {
    Some(match *arguments {
        [b"answer"] => answer(answer_line, out, MOST_ENTRIES),
        [b"answer", most] => answer(answer_line, out, most_asked(most)?),
        [b"client"] => answer(client_answer_line, out, MOST_ENTRIES),
        [b"client", most] => answer(client_answer_line, out, most_asked(most)?),
        [b"tables"] => answer(tables_answer_line, out, MOST_ENTRIES),
        [b"tables", most] => answer(tables_answer_line, out, most_asked(most)?),
        [b"blocks"] => out.write_all(&frozen::blocks()),
        [b"large"] => out.write_all(&frozen::large()),
        [b"values"] => out.write_all(&frozen::values()),
        [b"values-all"] => out.write_all(&loads::values::all()),
        [b"judge"] => input().and_then(|input| out.write_all(judge::answer(&input).as_bytes())),
        [b"judge-each"] => input().and_then(|lines| out.write_all(&judge::answer_each(&lines))),
        [b"judge-inputs"] => out.write_all(&frozen::judge_inputs()),
        [b"judge-random", seed, count] => print(out, loads::judge_inputs(seed, number(count)?)),
        [b"lister"] => input().and_then(|book| print(out, book::listed(&book))),
        [b"lister-input"] => out.write_all(&frozen::book()),
        [b"book", seed, count] => print(out, loads::books::book(seed, number(count)?)),
        [b"book-changes"] => print(out, loads::books::changes()),
        [b"book-unused"] => print(out, loads::books::unused()),
        [b"mutations"] => print(out, loads::texts::mutations()),
        [b"exhaustive"] => out.write_all(&every::fragments()),
        [b"mma-all"] => out.write_all(&loads::kinds::all()),
        [b"masks", seed] => out.write_all(&every::masks(seed)),
        [b"random", seed, count] => print(out, loads::random_lines(seed, number(count)?)),
        [b"block", b"large", seed, count] => print(out, loads::large_block(seed, number(count)?)),
        [b"larger", seed, count] => print(out, loads::larger_lines(seed, number(count)?)),
        [b"plans-accepted", seed, count] => print(out, loads::written_plans(seed, number(count)?)),
        [b"follow-plans", seed, count] => print(out, loads::followed_plans(seed, number(count)?)),
        [b"block", word, seed, count] => print(out, loads::block(word, seed, number(count)?)?),
        _ => return None,
    })
}

fn main() -> ExitCode {
    let arguments: Vec<_> = env::args_os().skip(1).collect();
    let arguments: Vec<&[u8]> = arguments
        .iter()
        .map(|text| text.as_encoded_bytes())
        .collect();
    let mut out = BufWriter::new(io::stdout().lock());
    match run(&arguments, &mut out).map(|done| done.and_then(|()| out.flush())) {
        Some(Ok(())) => ExitCode::SUCCESS,
        Some(Err(error)) => {
            // Nothing is left to be done if this cannot be written either.
            let _ = writeln!(io::stderr(), "second: {error}");
            ExitCode::FAILURE
        }
        None => {
            let _ = io::stderr().write_all(USAGE.as_bytes());
            ExitCode::from(2)
        }
    }
}
