//! The two programs beside the second implementation: what they print for an
//! input, byte for byte.
//!
//!     programs [FOLDER]
//!
//! The folder holds map_main and light_main; without one it is target/bin.

use differential::show;
use reference::diagrams::{HALF_ADDER, PARITY_OF_THREE, STATIC_CROSSBAR};
use reference::random::*;
use reference::{light_program, map_program, Label, Record};
use std::fs::File;
use std::io::Write;
use std::path::{Path, PathBuf};
use std::process::{Command, ExitCode, Stdio};

const MAP: &str = "map_main";
const LIGHT: &str = "light_main";

/// How a program is given its input.
#[derive(Clone, Copy)]
enum Way {
    /// Through a pipe, in one piece or in pieces of this many bytes.
    Pipe(usize),
    /// From a file.
    File,
}

/// All that a program prints. The error says that it did not end as it must.
fn printed(program: &Path, input: &[u8], way: Way) -> Result<Vec<u8>, String> {
    let mut command = Command::new(program);
    command.stdout(Stdio::piped()).stderr(Stdio::piped());
    let output = match way {
        Way::File => {
            let name = format!("crossbar-input-{}", std::process::id());
            let path = std::env::temp_dir().join(name);
            std::fs::write(&path, input).map_err(|error| error.to_string())?;
            let file = File::open(&path).map_err(|error| error.to_string())?;
            let output = command.stdin(file).output();
            let _ = std::fs::remove_file(&path);
            output
        }
        Way::Pipe(piece) => {
            let mut child = command
                .stdin(Stdio::piped())
                .spawn()
                .map_err(|error| format!("{}: {error}", program.display()))?;
            let stdin = child.stdin.take();
            std::thread::scope(|scope| {
                scope.spawn(move || {
                    let mut stdin = stdin?;
                    for part in input.chunks(piece) {
                        // A program may have read enough and be gone.
                        stdin.write_all(part).ok()?;
                    }
                    Some(())
                });
                child.wait_with_output()
            })
        }
    };
    let output = output.map_err(|error| error.to_string())?;
    if !output.status.success() {
        return Err(format!("ended with {}", output.status));
    }
    if !output.stderr.is_empty() {
        return Err(String::from("wrote to standard error"));
    }
    Ok(output.stdout)
}

/// A part of the cases.
type Part = fn(&mut Programs);

struct Programs {
    folder: PathBuf,
    cases: usize,
    faults: usize,
}

impl Programs {
    /// One input for one program.
    fn check(&mut self, program: &str, input: &[u8]) {
        let due = match program {
            MAP => map_program(input),
            _ => light_program(input),
        };
        let way = match self.cases % 7 {
            0 => Way::File,
            1 => Way::Pipe(100),
            2 if input.len() < 3000 => Way::Pipe(7),
            3 => Way::Pipe(4096),
            _ => Way::Pipe(usize::MAX),
        };
        self.cases += 1;
        let fault = match printed(&self.folder.join(program), input, way) {
            Ok(had) if had == due => return,
            Ok(had) => format!(
                "  due: {}\n  had: {}\n",
                String::from_utf8_lossy(&due[..due.len().min(300)]),
                String::from_utf8_lossy(&had[..had.len().min(300)])
            ),
            Err(fault) => format!("  {fault}\n"),
        };
        self.faults += 1;
        if self.faults <= 5 {
            print!("{}{fault}", show::pasted(input, program));
        }
    }

    /// A setting and a listing for the second program.
    fn light(&mut self, setting: &[u8], listing: &str) {
        self.check(LIGHT, &light_input(setting, listing.as_bytes()));
    }
}

const A: &str = "\
(job 2 2 1)
(one h)
(node 2 1 (0 1) v)
(node 3 0 (0 2) h)
(out 0 3)
(end)
";

const A_LISTING: &str = "\
(crossbar 2 1 2 1)
(cell 0 0 (yes 1))
(cell 1 0 (yes 0))
(out 0 1)
(end)
";

const G: &str = "(job 0 0 2)\n(one h)\n(out 0 0)\n(out 1 1)\n(end)\n";

/// The sheets of document 01 and all beginnings of the first.
fn sheets(programs: &mut Programs) {
    let e = A.replacen("(node 3 0 (0 2) h)", "(node 3 0 (2 1) b)", 1);
    let f = A.replacen("(node 3 0 (0 2) h)", "(node 3 0 (2 1) h)", 1);
    for text in [A, &e, &f, G, "", "\n", "(job 0 0 0)\n(one h)\n(end)\n"] {
        programs.check(MAP, text.as_bytes());
    }
    for length in 0..A.len() {
        programs.check(MAP, &A.as_bytes()[..length]);
    }
    for number in 0..8 {
        programs.light(&setting_of(number, 2), A_LISTING);
        programs.light(&setting_of(number, 2), HALF_ADDER);
        programs.light(&setting_of(number, 3), PARITY_OF_THREE);
    }
    programs.light(&[], STATIC_CROSSBAR);
    programs.light(&[], "(crossbar 2 0 0 2)\n(out 0 1)\n(out 1 0)\n(end)\n");
    let whole = light_input(&[1, 1], A_LISTING.as_bytes());
    for length in 0..whole.len() {
        programs.check(LIGHT, &whole[..length]);
    }
}

/// First lines of the second program's input.
fn set_lines(programs: &mut Programs) {
    let many = |count: usize| format!("(set{})", " 1".repeat(count));
    let lines = [
        "(set 1 1)",
        "(set)",
        "(set )",
        "(set 1)",
        "(set 1 1 1)",
        "(set 1 2)",
        "(set 2)",
        "(set 01)",
        "(set 0  1)",
        "(set 1 1) ",
        " (set 1 1)",
        "(set 1 1",
        "set 1 1)",
        "(SET 1 1)",
        "(set 11)",
        "(set1 1)",
        "(set 1 1)\r",
        "(set\t1 1)",
        "(set 1 -1)",
        "(set 1 10)",
        "",
        &many(63),
        &many(64),
        &many(65),
        &many(66),
        &many(3000),
    ];
    let wide = "(crossbar 2 1 64 1)\n(cell 0 0 (yes 63))\n(cell 1 0 (no 0))\n(out 0 1)\n(end)\n";
    let faulty = "(crossbar 2 1 2 1)\n(cell 1 1 (on))\n(out 0 1)\n(end)\n";
    for line in lines {
        for listing in [
            A_LISTING,
            wide,
            faulty,
            "",
            "(crossbar 1 0 0 1)\n(out 0 0)\n(end)\n",
        ] {
            programs.check(LIGHT, format!("{line}\n{listing}").as_bytes());
        }
    }
}

/// A valid input of the second program of exactly this many bytes.
fn input_of_length(length: usize) -> Option<Vec<u8>> {
    let record = Record {
        rows: 128,
        columns: 128,
        switches: 64,
        outputs: 3,
        outs: {
            let mut outs = [0; 32];
            outs[1] = 127;
            outs[2] = 64;
            outs
        },
    };
    let setting = setting_of(0x0123_4567_89ab_cdef, 64);
    let size = |cells: &[u8]| light_input(&setting, &listing(&record, cells)).len();
    // First on cells as far as they fit, then some of them made longer: `no`
    // with one digit by 2 bytes, `yes` with one by 3, `yes` with two by 4.
    let mut cells = vec![0; 128 * 128];
    let mut left = length.checked_sub(size(&cells))?;
    let mut used = 0;
    for (place, cell) in cells.iter_mut().enumerate() {
        let (row, column) = (place / 128, place % 128);
        let line = format!("(cell {row} {column} (on))\n").len();
        // What is left can be met by longer cells, unless it is 1.
        if left < line + 2 {
            break;
        }
        left -= line;
        *cell = 1;
        used = place + 1;
    }
    let mut turn = 0;
    while left > 0 && turn < used {
        let (code, more) = match left {
            1 => return None,
            2 => (3, 2),
            3 | 5 => (2, 3),
            _ => (128, 4),
        };
        cells[turn * 7 % used] = code;
        left -= more;
        turn += 1;
    }
    let input = light_input(&setting, &listing(&record, &cells));
    (input.len() == length).then_some(input)
}

/// Inputs as long as may be, and longer.
fn lengths(programs: &mut Programs) {
    for length in [65_534, 65_535, 65_536, 65_537, 131_072, 300_000] {
        for (start, program) in [
            (A.as_bytes().to_vec(), MAP),
            (Vec::new(), MAP),
            (light_input(&[1, 1], A_LISTING.as_bytes()), LIGHT),
            (Vec::new(), LIGHT),
        ] {
            for byte in *b"\n 0(\0" {
                let mut input = start.clone();
                input.resize(length, byte);
                programs.check(program, &input);
            }
        }
    }
    for length in [40_000, 65_533, 65_534, 65_535, 65_536, 65_537, 70_000] {
        match input_of_length(length) {
            Some(input) => programs.check(LIGHT, &input),
            None => {
                println!("  no input of {length} bytes");
                programs.faults += 1;
            }
        }
    }
    // The largest job, and its listing under some settings.
    if let Some(mut job) = job_of_size(128, 127) {
        job.one = Label::B;
        programs.check(MAP, &job.text());
        let listing = map_program(&job.text());
        for number in [0, u64::MAX, 0x5555_5555_5555_5555, 0x1357_9bdf_0246_8ace] {
            programs.check(LIGHT, &light_input(&setting_of(number, 64), &listing));
        }
    }
    let (record, cells) = stair(128, 128);
    programs.check(LIGHT, &light_input(&[], &listing(&record, &cells)));
}

/// Random inputs, right and damaged.
fn seeded(programs: &mut Programs, seed: u64) {
    let mut rng = Rng::new(seed);
    for _ in 0..150 {
        programs.check(MAP, &any_job_text(&mut rng));
        programs.check(LIGHT, &any_light_input(&mut rng));
        // A job's crossbar under some setting, from one program to the other.
        let job = small_job(&mut rng, 20);
        let listing = map_program(&job.text());
        let setting = setting(&mut rng, job.switches);
        programs.check(LIGHT, &light_input(&setting, &listing));
    }
}

fn main() -> ExitCode {
    let folder = std::env::args_os().nth(1);
    let mut failed = false;
    let parts: [(&str, Part); 4] = [
        ("programs on the sheets", sheets),
        ("programs on set lines", set_lines),
        ("programs on long inputs", lengths),
        ("programs on random inputs", |programs| seeded(programs, 1)),
    ];
    for (name, part) in parts {
        let mut programs = Programs {
            folder: PathBuf::from(folder.clone().unwrap_or_else(|| "target/bin".into())),
            cases: 0,
            faults: 0,
        };
        part(&mut programs);
        if programs.faults == 0 {
            println!("ok   {name}: {} cases", programs.cases);
        } else {
            failed = true;
            println!(
                "FAIL {name}: {} of {} cases",
                programs.faults, programs.cases
            );
        }
    }
    if failed {
        ExitCode::FAILURE
    } else {
        ExitCode::SUCCESS
    }
}
