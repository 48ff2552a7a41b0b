//! Writes C text that asserts what the library answers to descriptions.
//!
//! Random structures are described to the library. Those that it accepts are
//! declared in C, each with an assertion that its size and alignment are the
//! ones answered. A C compiler that lays structures out by natural alignment
//! accepts the text only if it finds the same numbers. The structures follow
//! from a seed: `layouts [SEED]`, decimal or `0x...`.

use std::collections::BTreeSet;
use std::env;
use std::io::{self, Write};
use std::process::ExitCode;

use compare::rng::{seed_from, Rng};
use compare::trees::{Content, Member, Shape, Tree, DEPTH_LIMIT};
use o32::Structure;

/// How many structures are declared.
const STRUCTURES: usize = 6_000;

/// More random structures than it takes until so many are accepted.
const TRIES: usize = 20 * STRUCTURES;

const ALIGNMENTS: [u32; 4] = [1, 2, 4, 8];

fn main() -> ExitCode {
    match seed_from(env::args().nth(1)).and_then(write_layouts) {
        Ok(()) => ExitCode::SUCCESS,
        Err(message) => {
            eprintln!("{message}");
            ExitCode::FAILURE
        }
    }
}

fn write_layouts(seed: u64) -> Result<(), String> {
    let mut rng = Rng::for_part(seed, "layouts");
    let accepted: Vec<(Tree, Structure)> = (0..TRIES)
        .filter_map(|round| accepted_tree(&mut rng, Shape::ALL[round % Shape::ALL.len()]))
        .take(STRUCTURES)
        .collect();
    check_variety(&accepted)?;
    let text: String = accepted
        .iter()
        .enumerate()
        .map(|(index, (tree, structure))| declaration(index, tree, structure))
        .collect();
    io::stdout()
        .write_all(text.as_bytes())
        .map_err(|error| error.to_string())
}

/// A structure with what the library answers, unless it refuses it.
fn accepted_tree(rng: &mut Rng, shape: Shape) -> Option<(Tree, Structure)> {
    let tree = shape.tree(rng);
    let structure = o32::describe(&tree.description()).ok()?;
    Some((tree, structure))
}

/// Asks for enough structures, and one of each alignment at each depth.
fn check_variety(accepted: &[(Tree, Structure)]) -> Result<(), String> {
    if accepted.len() < STRUCTURES {
        return Err(format!("only {} structures are accepted", accepted.len()));
    }
    let seen: BTreeSet<(usize, u32)> = accepted
        .iter()
        .map(|(tree, structure)| (tree.depth(), structure.alignment))
        .collect();
    let wanted = (1..=DEPTH_LIMIT).flat_map(|depth| ALIGNMENTS.map(|alignment| (depth, alignment)));
    for (depth, alignment) in wanted {
        if !seen.contains(&(depth, alignment)) {
            return Err(format!("none has depth {depth} and alignment {alignment}"));
        }
    }
    Ok(())
}

/// A structure in C and the assertion about it, one to a line.
fn declaration(index: usize, tree: &Tree, structure: &Structure) -> String {
    let name = format!("s{index}");
    let Structure {
        size, alignment, ..
    } = structure;
    format!(
        "struct {name} {};\n\
         _Static_assert(sizeof(struct {name}) == {size} && \
         _Alignof(struct {name}) == {alignment}, \"{name}\");\n",
        members(tree)
    )
}

fn members(tree: &Tree) -> String {
    let members: String = tree
        .members
        .iter()
        .enumerate()
        .map(|(index, member)| member_text(index, member))
        .collect();
    format!("{{ {members}}}")
}

fn member_text(index: usize, member: &Member) -> String {
    let kind = match &member.content {
        Content::Scalar(byte) => String::from(scalar(*byte)),
        Content::Structure(tree) => format!("struct {}", members(tree)),
    };
    match member.repeats {
        None => format!("{kind} m{index}; "),
        Some(count) => format!("{kind} m{index}[{count}]; "),
    }
}

/// The type of a scalar in C.
fn scalar(byte: u8) -> &'static str {
    match byte {
        0x01 => "signed char",
        0x02 => "unsigned char",
        0x03 => "short",
        0x04 => "unsigned short",
        0x05 => "unsigned int",
        0x06 => "unsigned long long",
        0x07 => "float",
        _ => "double",
    }
}
