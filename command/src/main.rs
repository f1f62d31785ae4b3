//! The command `sotjarn`: from a tablet's CSV to an answer with names.

use std::process::ExitCode;

use clap::{Args, Parser, Subcommand};

use sotjarn_command::faults::Fault;
#[cfg(feature = "store")]
use sotjarn_command::importing::{self, Manner};
use sotjarn_command::tablet::Reading;
use sotjarn_command::{checking, growing};

/// Ask shared tables of stems, stands and diameters, with answers that a machine has proved.
#[derive(Parser)]
#[command(name = "sotjarn", version, arg_required_else_help = true)]
struct Arguments {
    #[command(subcommand)]
    command: Command,
}

/// How a CSV file is read, beside what its header says.
#[derive(Args)]
struct CsvArguments {
    /// The prefix that names get
    #[arg(long, value_name = "IRI")]
    base: Option<String>,
    /// The column that names what a line is about, instead of the first
    #[arg(long, value_name = "COLUMN")]
    subject: Option<String>,
    /// A column whose cells are names, as COLUMN:ref in the header marks it
    #[arg(long = "ref", value_name = "COLUMN")]
    references: Vec<String>,
    /// A column of decimals, scaled to whole numbers under another name: dbh_cm*10=dbh_mm
    #[arg(long = "scale", value_name = "COLUMN*FACTOR=NAME")]
    scales: Vec<String>,
    /// The year of files that have no column year
    #[arg(long, value_parser = clap::value_parser!(u16).range(1..=9999))]
    year: Option<u16>,
}

impl CsvArguments {
    fn reading(self) -> Reading {
        Reading {
            base: self.base,
            subject: self.subject,
            references: self.references,
            scales: self.scales,
            year: self.year,
        }
    }
}

#[derive(Subcommand)]
enum Command {
    /// Say whether files are right, and if not, where; and what in them a cruiser should look at
    #[command(after_help = "Example: sotjarn check cruise.csv --year 2026")]
    Check {
        /// CSV, N-Triples (.nt) or N-Quads (.nq) files
        #[arg(required = true)]
        files: Vec<String>,
        #[command(flatten)]
        csv: CsvArguments,
    },
    /// Write a wood made to measure as CSV, for trials
    #[command(after_help = "Example: sotjarn grow --stems 1000 --seed 7 > wood.csv")]
    Grow {
        /// How many stems it has, at most 32768
        #[arg(long)]
        stems: u32,
        /// The same seed gives the same wood
        #[arg(long, default_value_t = 1)]
        seed: u32,
        /// The year of its rows
        #[arg(long, default_value_t = 2026)]
        year: u32,
    },
    #[cfg(feature = "store")]
    #[command(flatten)]
    Store(StoreCommand),
}

/// What is done with a store.
#[cfg(feature = "store")]
#[derive(Subcommand)]
enum StoreCommand {
    /// Add files to a store as a new survey: all of them or none
    #[command(after_help = "Example: sotjarn import wood.store cruise.csv --year 2026")]
    Import {
        /// The store, an SQLite file; it is made if it is not there
        store: String,
        /// CSV, N-Triples (.nt) or N-Quads (.nq) files
        #[arg(required = true)]
        files: Vec<String>,
        /// Take the files alone, without the rows of the current survey
        #[arg(long, conflicts_with = "remove")]
        replace: bool,
        /// Take the files' rows away from the current survey
        #[arg(long)]
        remove: bool,
        #[command(flatten)]
        csv: CsvArguments,
    },
    /// Write a survey as N-Quads; imported again it is the same survey
    #[command(after_help = "Example: sotjarn export wood.store > wood.nq")]
    Export {
        /// The store
        store: String,
        /// The survey's number, instead of the current one
        #[arg(long)]
        survey: Option<u32>,
    },
    /// List the surveys of a store
    #[command(after_help = "Example: sotjarn surveys wood.store")]
    Surveys {
        /// The store
        store: String,
        /// Make the former survey current again, under a new number
        #[arg(long, conflicts_with = "keep")]
        undo: bool,
        /// Let go of all surveys but the last N
        #[arg(long, value_name = "N")]
        keep: Option<u32>,
    },
}

#[cfg(feature = "store")]
fn run_store(command: StoreCommand) -> Result<String, Fault> {
    match command {
        StoreCommand::Import {
            store,
            files,
            replace,
            remove,
            csv,
        } => {
            let manner = if replace {
                Manner::Replace
            } else if remove {
                Manner::Remove
            } else {
                Manner::Add
            };
            importing::import(&store, &files, &csv.reading(), manner)
        }
        StoreCommand::Export { store, survey } => importing::export(&store, survey),
        StoreCommand::Surveys { store, undo: true, .. } => importing::undo(&store),
        StoreCommand::Surveys {
            store, keep: Some(keep), ..
        } => importing::keep(&store, keep),
        StoreCommand::Surveys { store, .. } => importing::surveys(&store),
    }
}

fn run(command: Command) -> Result<String, Fault> {
    match command {
        Command::Check { files, csv } => checking::check(&files, csv.reading()),
        Command::Grow { stems, seed, year } => growing::grow(seed, stems, year),
        #[cfg(feature = "store")]
        Command::Store(command) => run_store(command),
    }
}

fn main() -> ExitCode {
    use std::io::Write;
    let outcome = run(Arguments::parse().command).and_then(|text| {
        let written = std::io::stdout().write_all(text.as_bytes());
        written.map_err(|error| Fault::file("standard output", &error))
    });
    match outcome {
        Ok(()) => ExitCode::SUCCESS,
        Err(fault) => {
            eprintln!("sotjarn: {fault}");
            ExitCode::from(fault.code())
        }
    }
}
