//! The program while signals break off its reads: each must be tried again, and nothing else may change.
//!
//! A handler can't be given to a program from outside, so signals/often.c is loaded into it: a timer there sends it
//! signals all the time, and it tells at the end how many reads broke off.

use std::path::{Path, PathBuf};
use std::process::{Command, Stdio};

use crate::floor_pieces::any_floor_of;
use crate::plan_pieces::Version;
use crate::program::{Pauses, Run, piped};

/// Long enough for a few signals.
const PAUSES: Pauses = Pauses {
    most: 90,
    one_in: 3,
    micros: 400,
};

/// Compiles what is loaded, beside the file of the run's inputs.
fn compiled(beside: &Path) -> PathBuf {
    let library = beside.with_extension("so");
    let status = Command::new("cc")
        .args(["-O1", "-shared", "-fPIC", "signals/often.c", "-o"])
        .arg(&library)
        .status()
        .expect("cc can be started");
    assert!(status.success(), "signals/often.c was not built");
    library
}

impl Run {
    pub(crate) fn interrupted(&mut self, program: &Path, times: usize) {
        let library = compiled(&self.file);
        let mut broken_off = 0;
        for _ in 0..times {
            let damaged = self.random.below(3) == 0;
            let input = any_floor_of(&mut self.random, Version::either, 12, damaged);
            let mut command = Command::new(program);
            command.env("LD_PRELOAD", &library);
            command.stdout(Stdio::piped()).stderr(Stdio::piped());
            let output = piped(&mut self.random, command, &input, PAUSES);
            let told = String::from_utf8_lossy(&output.stderr).into_owned();
            broken_off += told.trim().parse::<u64>().expect("a number is told");
            self.judge(&input, &String::from_utf8_lossy(&output.stdout));
        }
        let _ = std::fs::remove_file(&library);
        println!("of these {times} inputs beside signals: {broken_off} reads broke off");
        if broken_off == 0 {
            self.wrong += 1;
            println!("no signal came while the program read");
        }
    }
}
