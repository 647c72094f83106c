//! An example client of Tusvlane in Rust.
//!
//! It checks a tree, reads the same tree from its text, judges a move for four
//! partitions, makes the move, and has a wrong move and a wrong text refused.
//! Each line that it prints starts with the number that matters.
//! clients/run-rust builds and runs it.

/// The library's calls as safe functions over slices.
mod tusvlane {
    /// The C names, as include/tusvlane.h declares them.
    mod c {
        use super::Move;

        #[repr(C)]
        pub struct Answer {
            pub refusal: u64,
            pub value: u64,
        }

        #[repr(C)]
        pub struct Comparison {
            pub refusal: u64,
            pub distance: u64,
            pub missing: u64,
        }

        #[repr(C)]
        pub struct Placed {
            pub refusal: u64,
            pub place: usize,
        }

        #[link(name = "tusvlane", kind = "static")]
        extern "C" {
            pub fn tusvlane_check_tree(
                taxa: usize,
                table: *const u8,
                table_bytes: usize,
            ) -> u32;

            pub fn tusvlane_compare(
                taxa: usize,
                first: *const u8,
                first_bytes: usize,
                second: *const u8,
                second_bytes: usize,
                partition: u64,
            ) -> Comparison;

            pub fn tusvlane_apply_move(
                taxa: usize,
                table: *mut u8,
                table_bytes: usize,
                change: Move,
            ) -> u32;

            pub fn tusvlane_judge_move(
                taxa: usize,
                table: *const u8,
                table_bytes: usize,
                partitions: *const u64,
                partition_count: usize,
                change: Move,
                out: *mut u64,
                out_numbers: usize,
            ) -> Answer;

            pub fn tusvlane_read_newick(
                taxa: usize,
                text: *const u8,
                text_bytes: usize,
                out: *mut u8,
                out_bytes: usize,
            ) -> Placed;
        }
    }

    /// A move: 1 for NNI, 2 for SPR, 3 for TBR, then three row numbers.
    #[repr(C)]
    #[derive(Clone, Copy)]
    pub struct Move {
        pub kind: u8,
        pub first: u8,
        pub second: u8,
        pub third: u8,
    }

    /// The number of a refusal.
    pub type Refusal = u64;

    /// The refusal of a text that is no tree.
    pub const TEXT: Refusal = 14;

    /// What was answered, unless the number is that of a refusal.
    fn unless_refused<T>(refusal: u64, answered: T) -> Result<T, Refusal> {
        match refusal {
            0 => Ok(answered),
            number => Err(number),
        }
    }

    /// Whether the table is a tree.
    pub fn check_tree(taxa: usize, table: &[u8]) -> Result<(), Refusal> {
        // SAFETY: the pointer and the length are those of one slice.
        let refusal = unsafe {
            c::tusvlane_check_tree(taxa, table.as_ptr(), table.len())
        };
        unless_refused(refusal.into(), ())
    }

    /// How many splits over the partition are on the list of one of the two
    /// trees alone.
    pub fn compare(
        taxa: usize,
        first: &[u8],
        second: &[u8],
        partition: u64,
    ) -> Result<u64, Refusal> {
        // SAFETY: each pointer stands with the length of its slice.
        let answer = unsafe {
            c::tusvlane_compare(
                taxa,
                first.as_ptr(),
                first.len(),
                second.as_ptr(),
                second.len(),
                partition,
            )
        };
        unless_refused(answer.refusal, answer.distance)
    }

    /// Makes the move on the table. A refused one changes no byte.
    pub fn apply_move(
        taxa: usize,
        table: &mut [u8],
        change: Move,
    ) -> Result<(), Refusal> {
        // SAFETY: the pointer and the length are those of one slice, which
        // nothing else can reach while it is lent.
        let refusal = unsafe {
            c::tusvlane_apply_move(
                taxa,
                table.as_mut_ptr(),
                table.len(),
                change,
            )
        };
        unless_refused(refusal.into(), ())
    }

    /// Writes the distance over each partition to the start of `out`, and
    /// gives how many partitions are the same. The tree is not moved. A
    /// refused call writes nothing.
    pub fn judge_move(
        taxa: usize,
        table: &[u8],
        partitions: &[u64],
        change: Move,
        out: &mut [u64],
    ) -> Result<u64, Refusal> {
        // SAFETY: each pointer stands with the length of its slice, and no
        // other slice overlaps `out`, since it is lent alone.
        let answer = unsafe {
            c::tusvlane_judge_move(
                taxa,
                table.as_ptr(),
                table.len(),
                partitions.as_ptr(),
                partitions.len(),
                change,
                out.as_mut_ptr(),
                out.len(),
            )
        };
        unless_refused(answer.refusal, answer.value)
    }

    /// Reads a tree from its text into `out`. A refusal comes with its place
    /// in the text, and writes nothing.
    pub fn read_newick(
        taxa: usize,
        text: &[u8],
        out: &mut [u8],
    ) -> Result<(), (Refusal, usize)> {
        // SAFETY: each pointer stands with the length of its slice, and the
        // text does not overlap `out`, since it is lent alone.
        let answer = unsafe {
            c::tusvlane_read_newick(
                taxa,
                text.as_ptr(),
                text.len(),
                out.as_mut_ptr(),
                out.len(),
            )
        };
        unless_refused(answer.refusal, ())
            .map_err(|refusal| (refusal, answer.place))
    }
}

use tusvlane::{Move, Refusal};

const TAXA: usize = 6;

/// The tree: taxa 0 to 5, inner nodes 6 to 9, a row for each edge.
const TREE_S: [u8; 18] =
    [0, 6, 1, 6, 6, 7, 2, 7, 7, 8, 3, 8, 8, 9, 4, 9, 5, 9];

/// The same tree as Newick text.
const TEXT_S: &str = "((((0,1),2),3),4,5);";

/// The text with taxon 4 named twice.
const WRONG_TEXT: &str = "((((0,1),2),3),4,4);";

/// Bit i stands for taxon i: all taxa; 0, 2, 3, 4; 0, 1, 4, 5; none.
const PARTITIONS: [u64; 4] = [0x3f, 0x1d, 0x33, 0x00];

/// NNI of row 4 that exchanges rows 3 and 5.
const GOOD: Move = Move {
    kind: 1,
    first: 4,
    second: 3,
    third: 5,
};

/// The same with row 3 named twice. An NNI wants a row at each end of row 4.
const WRONG: Move = Move {
    kind: 1,
    first: 4,
    second: 3,
    third: 3,
};

/// Prints what a call answered: 0 when it is accepted, else its refusal.
fn print_answer<T>(answer: &Result<T, Refusal>, what: &str) {
    match answer {
        Ok(_) => println!("0 accepted: {what}"),
        Err(number) => println!("{number} refused: {what}"),
    }
}

/// Prints the distance over each partition. One with 0 keeps its score; any
/// other must be scored again.
fn print_distances(distances: &[u64]) {
    for (i, distance) in distances.iter().enumerate() {
        let word = if *distance == 0 { "same" } else { "changed" };
        println!("{distance} {word}: partition {}", i + 1);
    }
}

/// Prints how many rows differ between two tables.
fn print_rows(before: &[u8], after: &[u8]) {
    let rows = before.chunks(2).zip(after.chunks(2));
    println!(
        "{} rows differ",
        rows.filter(|(old, new)| old != new).count()
    );
}

/// Asks how far a tree is from tree S over all taxa.
fn compare(table: &[u8]) {
    let answer = tusvlane::compare(TAXA, table, &TREE_S, PARTITIONS[0]);
    print_answer(&answer, "compared with tree S");
    if let Ok(distance) = answer {
        println!("{distance} splits differ");
    }
}

/// Reads a tree from its text and compares it with tree S. For a text that is
/// no tree, prints the place where it goes wrong.
fn read_text(text: &str, what: &str) {
    let mut table = [0; TREE_S.len()];
    let answer = tusvlane::read_newick(TAXA, text.as_bytes(), &mut table);
    print_answer(&answer.map_err(|(refusal, _)| refusal), what);
    match answer {
        Ok(()) => compare(&table),
        Err((tusvlane::TEXT, place)) => println!("{place} is the place"),
        Err(_) => {}
    }
}

/// Asks which partitions the move changes. The tree is not moved.
fn judge(table: &[u8]) {
    let mut distances = [0; PARTITIONS.len()];
    let answer =
        tusvlane::judge_move(TAXA, table, &PARTITIONS, GOOD, &mut distances);
    print_answer(&answer, "NNI 4 3 5 judged");
    if let Ok(same) = answer {
        println!("{same} partitions of {} are the same", PARTITIONS.len());
        print_distances(&distances);
    }
}

/// Makes a move on the table, and counts the rows that it changed. A refused
/// move changes none.
fn apply(table: &mut [u8], change: Move, what: &str) {
    let before = table.to_vec();
    print_answer(&tusvlane::apply_move(TAXA, table, change), what);
    print_rows(&before, table);
}

fn main() {
    let mut table = TREE_S;
    print_answer(&tusvlane::check_tree(TAXA, &table), "tree S of 6 taxa");
    read_text(TEXT_S, "text of tree S");
    judge(&table);
    apply(&mut table, GOOD, "NNI 4 3 5 made");
    apply(&mut table, WRONG, "NNI 4 3 3");
    read_text(WRONG_TEXT, "text with taxon 4 twice");
}
