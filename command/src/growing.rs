//! `sotjarn grow`: a wood made to measure, as CSV. Its stems, stands and diameters are those of the engine's call; the names are given here.

use std::fmt::Write;

use sotjarn::{TableWords, Term};

use crate::faults::Fault;

/// The numbers that a grown wood has its first stem and its first stand under.
const FIRST_STEM: u32 = 1_000_000;
const FIRST_STAND: u32 = 100;

/// The wood of a seed, a line for each stem.
pub fn grow(seed: u32, stems: u32, year: u32) -> Result<String, Fault> {
    let wood = TableWords::grow(seed, stems, year).map_err(|refusal| Fault::Command(refusal.to_string()))?;
    let mut out = String::from("stem,stand:ref,dbh_mm,year\n");
    for rows in wood.rows.chunks_exact(8) {
        let terms: Vec<Term> = rows.iter().map(|&word| Term::read(word)).collect();
        let (Term::Name(stem), Term::Name(stand), Term::Number(size)) = (terms[1], terms[3], terms[7]) else {
            return Err(Fault::Command(
                "the engine grew a wood of another form: it is of another version".to_owned(),
            ));
        };
        let _ = writeln!(
            out,
            "stem-{:05},stand-{:02},{size},{year}",
            stem - FIRST_STEM + 1,
            stand - FIRST_STAND + 1
        );
    }
    Ok(out)
}
