// Prints the report of a drawing: of the file that is named, or of standard input where none is.
//
//     rustc -L crates/allocate_c/out examples/link/report.rs -o report
//     ./report examples/district.drawing
//
// With a second word, a number, only so many bytes of the report are asked for; the exit status is then 3 where the report
// is longer. A name of - is standard input. Where the drawing is refused, a line on standard error says so.

use std::fs::File;
use std::io::{self, Read, Write};
use std::process::ExitCode;

// A refusal, as examples/link/allocate.h has it.
#[repr(C)]
#[derive(Default)]
struct AllocateRefusal {
    number: u8,
    part: u8,
    has_place: u8,
    place: usize,
}

// The functions of the library. Nothing checks that these declarations fit it.
#[link(name = "allocate_c", kind = "static")]
unsafe extern "C" {
    safe fn allocate_most_bytes() -> usize;
    fn allocate_check(drawing: *const u8, drawing_len: usize, refusal: *mut AllocateRefusal) -> bool;
    fn allocate_report(drawing: *const u8, drawing_len: usize, out: *mut u8, out_len: usize) -> usize;
}

// Whether the drawing is accepted, or else the refusal that is its whole report.
fn check(drawing: &[u8]) -> Result<(), AllocateRefusal> {
    let mut refusal = AllocateRefusal::default();
    // SAFETY: the pointers are those of a slice and of a struct, which are there for the call.
    if unsafe { allocate_check(drawing.as_ptr(), drawing.len(), &mut refusal) } {
        Ok(())
    } else {
        Err(refusal)
    }
}

// Writes as much of the report as `out` has room for, and gives the length of the whole.
fn report(drawing: &[u8], out: &mut [u8]) -> usize {
    // SAFETY: the pointers are those of two slices, of which one is borrowed for this call alone.
    unsafe { allocate_report(drawing.as_ptr(), drawing.len(), out.as_mut_ptr(), out.len()) }
}

// As many bytes of a drawing as may be looked at: one more than it may have, so that a longer one is refused.
fn read_all(name: Option<&str>) -> io::Result<Vec<u8>> {
    let mut bytes = Vec::new();
    let most = allocate_most_bytes() as u64 + 1;
    match name {
        Some(name) if name != "-" => File::open(name)?.take(most).read_to_end(&mut bytes)?,
        _ => io::stdin().take(most).read_to_end(&mut bytes)?,
    };
    Ok(bytes)
}

fn main() -> io::Result<ExitCode> {
    let words: Vec<String> = std::env::args().collect();
    let drawing = read_all(words.get(1).map(String::as_str))?;
    if let Err(refusal) = check(&drawing) {
        eprintln!("refused: {}, part {}, place {}", refusal.number, refusal.part, refusal.place);
    }

    // First how long the report is, and then the report.
    let whole = report(&drawing, &mut []);
    let room = words.get(2).and_then(|word| word.parse().ok()).unwrap_or(whole);
    let mut out = vec![0; room];
    if report(&drawing, &mut out) != whole {
        return Ok(ExitCode::from(2));
    }
    io::stdout().write_all(&out[..whole.min(room)])?;
    Ok(ExitCode::from(if whole <= room { 0 } else { 3 }))
}
