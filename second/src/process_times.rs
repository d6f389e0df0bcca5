//! Whole processes: `ringline` on a ring, beside `seqkit sum -c` on the same ring as a FASTA file, where seqkit is at hand.
use std::fs::{self, File};
use std::path::{Path, PathBuf};
use std::process::{Command, Stdio};
use std::time::Instant;

/// Milliseconds from start to end of a process, the best of 40; none if it cannot be started or fails.
fn milliseconds(mut command: impl FnMut() -> Command) -> Option<f64> {
    let mut best = f64::MAX;
    for _ in 0..40 {
        let mut process = command();
        process.stdout(Stdio::null()).stderr(Stdio::null());
        let begun = Instant::now();
        if !process.status().ok()?.success() {
            return None;
        }
        best = best.min(begun.elapsed().as_nanos() as f64 / 1.0e6);
    }
    Some(best)
}

fn ringline(program: &Path, ring: &Path) -> Option<f64> {
    milliseconds(|| {
        let mut process = Command::new(program);
        process.stdin(File::open(ring).expect("the ring was just written"));
        process
    })
}

fn seqkit(ring: &Path) -> Option<f64> {
    milliseconds(|| {
        let mut process = Command::new("seqkit");
        process.args(["sum", "-c"]).arg(ring).stdin(Stdio::null());
        process
    })
}

fn written(folder: &Path, name: &str, text: &[u8]) -> PathBuf {
    let path = folder.join(name);
    fs::write(&path, text).expect("a file in the folder for temporary files");
    path
}

/// One line for each ring: its name, n, and the two times.
pub fn print(program: &Path, rings: &[(&str, Vec<u8>)]) {
    let folder = std::env::temp_dir().join(format!("ringline-times-{}", std::process::id()));
    fs::create_dir_all(&folder).expect("a folder for temporary files");
    println!("| Ring | Letters | ringline, ms | seqkit sum -c, ms |");
    println!("|---|---|---|---|");
    for (name, ring) in rings {
        let plain = written(&folder, "ring.txt", ring);
        let fasta = written(&folder, "ring.fasta", &[b">ring\n", &ring[..], b"\n"].concat());
        let shown = |time: Option<f64>| time.map_or("not at hand".to_string(), |ms| format!("{ms:.2}"));
        println!("| {name} | {} | {} | {} |", ring.len(), shown(ringline(program, &plain)), shown(seqkit(&fasta)));
    }
    fs::remove_dir_all(&folder).expect("the folder that was just made");
}
