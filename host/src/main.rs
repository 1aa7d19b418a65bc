//! The desk tool: reads, judges and draws runs of X-ray angiography.
//!
//! It decides nothing itself: it reads files, lends buffers to the proved library, and prints the answers.

#![deny(unsafe_code)]

mod buffer;
mod canonical;
mod codes;
mod comparing;
mod demo;
mod files;
mod finding;
mod found;
mod frames;
mod head;
mod identity;
mod image;
mod judging;
mod keeping;
mod library;
mod listing;
mod looking;
mod looks;
mod memory;
mod names;
mod other;
mod output;
mod picture;
mod report;
mod results;
mod run;
mod sampling;
mod sentences;
mod settling;
mod table;
mod values;

use std::fmt::Display;
use std::io::{self, Write};
use std::path::{Path, PathBuf};
use std::process::ExitCode;
use std::time::Duration;

use clap::error::ErrorKind;
use clap::{CommandFactory, Parser, Subcommand};
use globset::Glob;

use finding::{Choice, Inputs};
use frames::frame_number;
use head::Form;
use library::STACK;
use output::{note, Status};

const STATUSES: &str = "\
Exit status:
  0  all runs were accepted (judge, slip read), read (rows, duplicates), written (canonical, report), drawn (show, movie, contact),
     counted (sheet), within the tolerance (compare) or mapped (linear)
  1  something was refused; its line says why
  2  wrong usage, nothing to judge, or a file that cannot be read, written or moved

Run luux COMMAND --help for the options of a command.";

#[derive(Parser)]
#[command(
    name = "luux",
    version,
    about = "Reads, judges and draws runs of X-ray angiography (Enhanced XA and XRF)",
    long_about = "Reads, judges and draws runs of X-ray angiography (Enhanced XA and XRF).\n\n\
        A run is a DICOM file in Explicit VR Little Endian or, with --bare, a data set without a file head. Every verdict, row and \
        picture comes from a library that is proved to follow its rules and drawing steps for any bytes it is given.",
    after_help = STATUSES
)]
struct Arguments {
    #[command(subcommand)]
    command: Command,
    #[command(flatten)]
    lending: Lending,
}

/// How files are taken into memory.
#[derive(clap::Args)]
struct Lending {
    /// Memory for all files in use at the same time, such as 800M or 2G [default: a quarter of the machine's]
    ///
    /// A file needs its own size and 28 bytes for each of its elements and items. Large files wait until there is room; a file that needs
    /// more than SIZE by itself is not read.
    #[arg(long, global = true, value_name = "SIZE", value_parser = memory::bytes)]
    memory: Option<u64>,
    /// Map files instead of reading them into memory; only for storage that nobody writes to
    ///
    /// Every answer is proved for bytes that do not change. If another process writes to a mapped file, luux may crash or draw a picture that
    /// belongs to no run; if the disk fails, luux ends at once.
    #[arg(long, global = true)]
    map: bool,
}

/// The run that a command is about.
#[derive(clap::Args)]
struct OneRun {
    /// The DICOM file
    file: PathBuf,
    /// Read FILE as a data set without a file head, whatever its bytes are
    #[arg(long)]
    bare: bool,
}

impl OneRun {
    fn form(&self) -> Form {
        Form::of(self.bare)
    }
}

/// The files that a command is about, and which of them it looks at.
#[derive(clap::Args)]
struct ManyRuns {
    /// Files, and folders to search for files
    #[arg(required = true, value_name = "FILE|DIR")]
    paths: Vec<PathBuf>,
    /// Read the files as data sets without a file head, whatever their bytes are
    #[arg(long)]
    bare: bool,
    /// Look only at files that match GLOB; may be repeated
    ///
    /// A GLOB with a slash must match the whole path, one without a slash the name.
    #[arg(long, value_name = "GLOB", value_parser = finding::pattern)]
    include: Vec<Glob>,
    /// Leave out files and folders that match GLOB; may be repeated
    #[arg(long, value_name = "GLOB", value_parser = finding::pattern)]
    exclude: Vec<Glob>,
    /// Do not read files that were written to less than SECONDS ago or are still growing; list them as arriving
    ///
    /// Each file is checked twice for that, a second apart, or SECONDS if that is less. A file that another program has open for writing is
    /// arriving too.
    #[arg(long, value_name = "SECONDS", value_parser = seconds)]
    settle: Option<Duration>,
    /// Give up on a file after SECONDS and go on with the next; each file is then read in a process of its own
    #[arg(long, value_name = "SECONDS", value_parser = seconds)]
    timeout: Option<Duration>,
}

impl From<ManyRuns> for Inputs {
    fn from(given: ManyRuns) -> Inputs {
        let choice = Choice::of(&given.include, &given.exclude).unwrap_or_else(|text| misuse(text));
        let form = Form::of(given.bare);
        Inputs { named: given.paths, form, choice, settle: given.settle, timeout: given.timeout }
    }
}

/// How many files are looked at together.
#[derive(clap::Args)]
struct Jobs {
    /// How many files to look at in parallel [default: one for each processor]
    #[arg(long, value_name = "N", value_parser = clap::value_parser!(u16).range(1..=256))]
    jobs: Option<u16>,
}

impl Jobs {
    fn count(&self) -> usize {
        self.jobs.map_or_else(processors, usize::from)
    }
}

#[derive(Subcommand)]
enum Command {
    /// List the elements and items of a data set
    ///
    /// The first line is `rows N`. A line for each row follows: tag, VR (-- for an item), depth, offset of the value,
    /// length of the value, number of rows below it, and its parent: the row, counted from 1, of the item or sequence that
    /// directly contains it, or 0 at the root.
    Rows {
        #[command(flatten)]
        run: OneRun,
        /// Draw the nesting as a tree: row number, tag and VR or item number, length and offset of the value
        #[arg(long)]
        tree: bool,
        /// Add the name of each attribute and a short value; values of group 0010, the patient's, are left out
        #[arg(long)]
        names: bool,
        /// With --names, show the patient's values too
        #[arg(long, requires = "names")]
        patient: bool,
    },
    /// Judge files by all rules, one line for each
    ///
    /// A line says that the run is accepted; or it gives the first broken rule, the lowest frame that breaks it (0 if the rule is not about
    /// single frames), the item and row of that frame, what the rule asks, and what was found; or the code and the byte at which reading
    /// stopped, and what was found there. The last line is a summary.
    ///
    /// Folders are searched in the order of names. Links to folders are not followed. A file that is certainly no run (a DICOMDIR, an empty
    /// file, text, a picture, another SOP class) is listed and counted as not ours; it is refused only if it was named itself.
    Judge {
        #[command(flatten)]
        runs: ManyRuns,
        #[command(flatten)]
        keeping: keeping::Keeping,
        /// Print one JSON object per line; the summary goes to standard error
        #[arg(long, group = "identity")]
        json: bool,
        /// Print what identifies the run below each line: SOP Instance and Study Instance UID, institution, station, time
        #[arg(long, group = "identity")]
        long: bool,
        /// With --long or --json, print the patient's name, ID and birth date too
        #[arg(long, requires = "identity")]
        patient: bool,
        /// For accepted runs, print the sum of the searches, as docs/SEARCHES.md defines it; --json always does
        #[arg(long)]
        searches: bool,
        #[command(flatten)]
        jobs: Jobs,
    },
    /// Draw frames
    ///
    /// A frame is drawn with the mask, shift and window that the run gives it. Several frames go to a folder, each in a file of its own, or
    /// one after the other to standard output.
    Show {
        #[command(flatten)]
        run: OneRun,
        /// A frame, counted from 1, a range such as 1-24, or all
        #[arg(value_name = "FRAMES", value_parser = frames::frames)]
        frames: frames::Frames,
        /// The picture, .png or .pgm, or a folder, or - for standard output [default: FILE.frame-FRAME.png in the current folder]
        #[arg(short, long, value_name = "PICTURE|DIR|-")]
        output: Option<PathBuf>,
        /// The format of pictures in a folder or on standard output [default: png]
        #[arg(long = "as", value_name = "FORMAT")]
        format: Option<image::Format>,
        #[command(flatten)]
        halves: Halves,
    },
    /// Draw frames as an animated PNG, to scroll through a run
    Movie {
        #[command(flatten)]
        run: OneRun,
        /// A frame, counted from 1, a range such as 5-12, or all
        #[arg(value_name = "FRAMES", value_parser = frames::frames, default_value = "all")]
        frames: frames::Frames,
        /// The picture, .png [default: FILE.movie.png in the current folder]
        #[arg(short, long, value_name = "PICTURE")]
        output: Option<PathBuf>,
        /// Frames per second [default: what the run says, or 10]
        #[arg(long, value_name = "N", value_parser = clap::value_parser!(u16).range(1..=1000))]
        rate: Option<u16>,
        #[command(flatten)]
        halves: Halves,
    },
    /// Draw a contact sheet of up to 24 frames, for sampling by eye
    ///
    /// The frames are spread evenly over the run, from the first to the last, each with its number below it. A frame larger than 192 x 192
    /// is reduced to every second, third, ... pixel.
    Contact {
        #[command(flatten)]
        run: OneRun,
        /// The picture, .png or .pgm [default: FILE.contact.png in the current folder]
        #[arg(short, long, value_name = "PICTURE")]
        output: Option<PathBuf>,
    },
    /// Count how often each grey level is drawn, for sampling by numbers
    ///
    /// The first line says which frames were drawn, how many of them are native, and the lowest, highest and mean level. A small
    /// plot of the 256 counts follows, four levels to a column.
    Sheet {
        #[command(flatten)]
        run: OneRun,
        /// A frame, counted from 1, a range such as 5-12, or all
        #[arg(value_name = "FRAMES", value_parser = frames::frames, default_value = "all")]
        frames: frames::Frames,
        /// Print all numbers instead, one per line: 256 counts, native frames, lowest and highest level, sum of all levels
        #[arg(long, conflicts_with = "json")]
        numbers: bool,
        /// Print one JSON object instead
        #[arg(long)]
        json: bool,
        /// Also write a plot of the counts, .png or .pgm, that marks the lowest, highest and mean level
        #[arg(short, long, value_name = "PICTURE")]
        output: Option<PathBuf>,
    },
    /// Compare another workstation's pictures with ours
    ///
    /// The line says yes if every cell is within the tolerance. If not, it says how many cells are not, and gives the first of them by row
    /// and column, counted from 0, with both levels. A picture is an 8-bit grey PNG (.png), a PGM (.pgm), or under any other name plain
    /// cells, one byte each, row by row. Each picture in a folder is compared with the frame that the last number in its name gives.
    Compare {
        #[command(flatten)]
        run: OneRun,
        /// A frame, counted from 1, or a folder of pictures
        #[arg(value_name = "FRAME|DIR")]
        what: PathBuf,
        /// The other workstation's picture of the frame
        picture: Option<PathBuf>,
        /// How far a level may be from ours, 0 to 255
        #[arg(long, value_name = "T", default_value_t = 0)]
        tolerance: u64,
        /// Draw where the pictures differ, .png or .pgm
        #[arg(short, long, value_name = "PICTURE", requires = "picture")]
        output: Option<PathBuf>,
    },
    /// Write a data set in its canonical form
    ///
    /// The canonical form has the same elements and items in the same order, with defined lengths throughout and no delimiters. Data sets
    /// that differ in nothing but their lengths have the same canonical form, byte for byte; it is judged and drawn as the data set is.
    /// A file keeps its head unchanged.
    Canonical {
        #[command(flatten)]
        run: OneRun,
        /// The file to write
        #[arg(short, long, value_name = "OUT")]
        output: PathBuf,
    },
    /// Find files whose data sets are equal, though their bytes may differ
    ///
    /// Data sets are equal if their canonical forms are. Each group of equals gets a line, with its files below it; the last line is a
    /// summary. Files that hold no data set are named on standard error. Folders are searched as luux judge does.
    Duplicates {
        #[command(flatten)]
        runs: ManyRuns,
        /// Print one JSON object for each group; the summary goes to standard error
        #[arg(long)]
        json: bool,
    },
    /// Map one frame back to beam intensity
    ///
    /// Each stored pixel, neither masked nor windowed, becomes its entry in the frame's TO_LINEAR table, a 16-bit number.
    Linear {
        #[command(flatten)]
        run: OneRun,
        /// The frame, counted from 1
        #[arg(value_parser = frame_number)]
        frame: u64,
        /// The 16-bit picture, .png or .pgm [default: FILE.linear-FRAME.png in the current folder]
        #[arg(short, long, value_name = "PICTURE", conflicts_with = "csv")]
        output: Option<PathBuf>,
        /// Print the numbers instead, a line for each row, separated by commas
        #[arg(long)]
        csv: bool,
    },
    /// Make a page about runs, by sender, that needs no network
    ///
    /// The page has a table of senders with counts by rule; each run with its verdict, what was found, what identifies it, some of its frames
    /// and the plot of its sampling sheet; and a text for each sender, to paste into a letter. The runs can be filtered and sorted. The exit
    /// status says whether the page was written, whatever the verdicts.
    Report {
        #[command(flatten)]
        runs: ManyRuns,
        /// The page to write
        #[arg(short, long, value_name = "PAGE", default_value = "report.html")]
        output: PathBuf,
        /// Also write a table of the runs, under the name of the page with the ending .csv
        #[arg(long)]
        csv: bool,
        /// Include the patient's name, ID and birth date
        #[arg(long)]
        patient: bool,
        #[command(flatten)]
        jobs: Jobs,
    },
    /// Print completions for a shell
    ///
    /// For bash: luux completions bash > ~/.local/share/bash-completion/completions/luux
    Completions {
        /// The shell
        shell: clap_complete::Shell,
    },
    /// Read verdict slips
    Slip {
        #[command(subcommand)]
        command: SlipCommand,
    },
    /// Make sample runs, judge them, and draw the good one
    Demo {
        /// The folder for runs and pictures
        #[arg(default_value = "luux-demo")]
        folder: PathBuf,
    },
    /// Look at one file for a luux with --timeout, and tell it what was found
    #[command(name = looking::COMMAND, hide = true)]
    Look {
        what: looking::What,
        #[arg(required = true)]
        files: Vec<PathBuf>,
        #[arg(long)]
        bare: bool,
    },
}

/// Whether each frame is drawn a second time, without its mask.
#[derive(clap::Args)]
struct Halves {
    /// Draw each frame twice: on the left as the run says, on the right without its mask, with the same window
    #[arg(long)]
    both: bool,
}

#[derive(Subcommand)]
enum SlipCommand {
    /// Print the verdict that each slip records, with its row count
    ///
    /// Slips of version 1 do not record the row count: it is printed as `rows not known`, and with --json as null.
    Read {
        /// Slips that luux judge --slips wrote, of any version
        #[arg(required = true, value_name = "FILE")]
        files: Vec<PathBuf>,
        /// Print one JSON object per line
        #[arg(long)]
        json: bool,
    },
}

/// Ends with a usage message.
fn misuse(text: impl Display) -> ! {
    end_of_usage(&Arguments::command().error(ErrorKind::ValueValidation, text))
}

/// Ends with clap's message: help and version as they are, an error with nothing in it that would steer a terminal.
fn end_of_usage(error: &clap::Error) -> ! {
    if !error.use_stderr() {
        error.exit();
    }
    let shown = |letter| match letter {
        '\n' | '\\' => String::from(letter),
        letter => files::escaped(letter),
    };
    // If standard error is closed, nobody wants to know.
    let _ = io::stderr().write_all(error.to_string().chars().map(shown).collect::<String>().as_bytes());
    std::process::exit(Status::Failed as i32)
}

/// A time in seconds, with or without a fraction.
fn seconds(text: &str) -> Result<Duration, &'static str> {
    let number = text.parse().ok().and_then(|number| Duration::try_from_secs_f64(number).ok());
    number.ok_or("expected a number of seconds, such as 30 or 0.5")
}

/// Ends with a usage message for `-`, which `show` takes for standard output, and which would else be the name of a file.
fn check_file(path: &Path) {
    if path == Path::new("-") {
        misuse("-: only show writes to standard output; name a file");
    }
}

/// Ends with a usage message if luux does not write pictures of this name.
fn check_picture(path: Option<&Path>) {
    if let Some(path) = path.filter(|path| !image::is_picture_name(path)) {
        misuse(image::wrong_name(path));
    }
}

/// As many threads as there are processors.
fn processors() -> usize {
    std::thread::available_parallelism().map_or(1, usize::from)
}

fn run(command: Command, out: &mut dyn Write) -> io::Result<Status> {
    match command {
        Command::Rows { run, tree, names, patient } => {
            let layout = if tree { listing::Layout::Tree } else { listing::Layout::Numbers };
            listing::rows(&run.file, run.form(), layout, listing::Names::of(names, patient), out)
        }
        Command::Judge { runs, keeping, json, long, patient, searches, jobs } => {
            let (inputs, jobs) = (Inputs::from(runs), jobs.count());
            judging::run(&judging::Wanted { inputs, keeping, json, jobs, long, patient, searches }, out)
        }
        Command::Show { run, frames, output, format, halves: Halves { both } } => {
            if let Some(text) = frames::objection(output.as_deref(), frames, format) {
                misuse(text);
            }
            let wanted = frames::Wanted { form: run.form(), both, format, output: output.as_deref() };
            frames::show(&run.file, frames, &wanted, out)
        }
        Command::Movie { run, frames, output, rate, halves: Halves { both } } => {
            let is_png = |path: &Path| image::format_of(path) == Some(image::Format::Png);
            if let Some(path) = output.as_deref().filter(|path| !is_png(path)) {
                misuse(format!("{}: the name of a movie must end in .png", files::printed(path)));
            }
            let wanted = frames::Wanted { form: run.form(), both, format: None, output: output.as_deref() };
            frames::movie(&run.file, frames, rate, &wanted, out)
        }
        Command::Contact { run, output } => {
            check_picture(output.as_deref());
            picture::contact(&run.file, run.form(), output.as_deref(), out)
        }
        Command::Sheet { run, frames, numbers, json, output } => {
            check_picture(output.as_deref());
            let print = match (numbers, json) {
                (true, _) => sampling::Print::Numbers,
                (_, true) => sampling::Print::Json,
                _ => sampling::Print::Plot,
            };
            let wanted = sampling::Wanted { form: run.form(), frames, print, output: output.as_deref() };
            sampling::run(&run.file, &wanted, out)
        }
        Command::Compare { run, what, picture, tolerance, output } => {
            check_picture(output.as_deref());
            let wanted = comparing::Wanted { form: run.form(), tolerance, output: output.as_deref() };
            match (frame_number(what.to_str().unwrap_or_default()), picture) {
                (Ok(frame), Some(other)) => comparing::picture(&run.file, frame, &other, &wanted, out),
                (Err(text), Some(_)) => misuse(format!("{}: {text}", files::printed(&what))),
                (Ok(frame), None) if !what.is_dir() => misuse(format!("frame {frame} needs a PICTURE to compare with")),
                (_, None) => comparing::folder(&run.file, &what, &wanted, out),
            }
        }
        Command::Canonical { run, output } => {
            check_file(&output);
            canonical::write(&run.file, run.form(), &output, out)
        }
        Command::Duplicates { runs, json } => {
            canonical::duplicates(&canonical::Wanted { inputs: Inputs::from(runs), json }, out)
        }
        Command::Linear { run, frame, csv: true, .. } => picture::linear_text(&run.file, run.form(), frame, out),
        Command::Linear { run, frame, output, .. } => {
            check_picture(output.as_deref());
            picture::linear(&run.file, run.form(), frame, output.as_deref(), out)
        }
        Command::Report { runs, output, csv, patient, jobs } => {
            check_file(&output);
            let (inputs, jobs) = (Inputs::from(runs), jobs.count());
            report::run(&report::Wanted { inputs, output, csv, patient, jobs }, out)
        }
        Command::Completions { shell } => {
            let mut script = Vec::new();
            clap_complete::generate(shell, &mut Arguments::command(), "luux", &mut script);
            out.write_all(&script).map(|()| Status::Fine)
        }
        Command::Slip { command: SlipCommand::Read { files, json } } => listing::read_slips(&files, json, out),
        Command::Demo { folder } => demo::run(&folder, processors(), out),
        Command::Look { what, files, bare } => looking::run(what, &files, Form::of(bare), out),
    }
}

fn work() -> Status {
    let arguments = Arguments::try_parse().unwrap_or_else(|error| end_of_usage(&error));
    memory::limit_to(arguments.lending.memory.unwrap_or_else(memory::quarter));
    files::start(arguments.lending.map);
    let mut out = io::stdout().lock();
    let ended = run(arguments.command, &mut out).and_then(|status| out.flush().map(|()| status));
    ended.unwrap_or_else(|error| {
        // Whoever closed the pipe has seen enough; any other error is reported.
        if error.kind() != io::ErrorKind::BrokenPipe {
            note(&format!("standard output cannot be written: {error}"));
        }
        Status::Failed
    })
}

fn main() -> ExitCode {
    // The stack of the first thread grows while it is used, as far as the system allows; beyond that the process crashes. The stack of another
    // thread is there from the start, as large as the library's calls need.
    let status = match std::thread::Builder::new().stack_size(STACK).spawn(work) {
        Ok(thread) => thread.join().unwrap_or(Status::Failed),
        Err(error) => {
            note(&format!("no thread can be started: {error}"));
            Status::Failed
        }
    };
    ExitCode::from(status as u8)
}

#[cfg(test)]
mod tests {
    use super::*;

    #[test]
    fn numbers_of_seconds() {
        assert_eq!((seconds("30"), seconds("0.5")), (Ok(Duration::from_secs(30)), Ok(Duration::from_millis(500))));
        assert_eq!(seconds("0"), Ok(Duration::ZERO));
        for wrong in ["", "-1", "soon", "nan", "inf", "1e400", "1 s"] {
            assert!(seconds(wrong).is_err(), "{wrong}");
        }
    }

    /// clap finds faults of the description, such as two options of one name.
    #[test]
    fn the_commands_are_well_described() {
        Arguments::command().debug_assert();
    }

    #[test]
    fn options_that_need_others() {
        let takes = |words: &str| Arguments::try_parse_from(words.split(' ')).is_ok();
        assert!(takes("luux judge a --long --patient") && takes("luux judge a --json --patient"));
        assert!(!takes("luux judge a --patient") && !takes("luux judge a --long --json"));
        assert!(
            takes("luux sheet a")
                && takes("luux sheet a all")
                && takes("luux sheet a 2-3")
                && !takes("luux sheet a 3-2")
        );
        assert!(!takes("luux rows a --patient") && !takes("luux linear a 1 --csv -o x.png") && !takes("luux judge"));
    }
}
