//! The report beside the second program: the call in rooms of many sizes, and the program ringline as a process.
use crate::cases::{self, Numbers};
use crate::comparison::Comparison;
use crate::probe;
use crate::report::{self, ROOMY};
use crate::rules::MOST;
use std::path::Path;

impl Comparison {
    /// The report on the bytes in rooms that hold every report and in rooms that do not; `text` is what it says.
    pub fn report(&mut self, bytes: &[u8], text: &[u8]) {
        for size in [0, 1, text.len(), ROOMY - 1, ROOMY, ROOMY + 1, ROOMY + 4321] {
            let lent = self.lend(bytes);
            let mut room = self.bytes(size);
            let written = if size < ROOMY { &[] } else { text };
            self.call("report", 1, bytes, 0, &[written.len() as u64], |v| probe::report(&lent, &mut room, v));
            self.unchanged("report, its room", 1, bytes, &room, written);
            self.unchanged("report", 1, bytes, &lent, bytes);
        }
    }
}

/// Inputs of every sort: short ones, line feeds where they are dropped and where not, families, and lengths about the limit.
pub fn inputs(numbers: &mut Numbers) -> Vec<Vec<u8>> {
    let mut inputs: Vec<Vec<u8>> = Vec::new();
    cases::every(b"AC", 4, |ring| inputs.push(ring.to_vec()));
    cases::every(b"ACGT\n", 2, |ring| inputs.push(ring.to_vec()));
    for text in [
        "",
        "\n",
        "\n\n",
        "\r\n",
        "GATTACA\n",
        "GATTACA",
        "GATTACA\r\n",
        "GATTACA\n\n",
        "\nGATTACA",
        "GAN",
        "GAN\n",
        "gattaca",
        "GAR",
        "RYSWKMBDHVN",
    ] {
        inputs.push(text.as_bytes().to_vec());
    }
    // ACGAC, whose letters come again in a line but not round the ring, and rings that closed on themselves twice and three times
    for text in ["ACGAC", "ACAC", "TACGTACG", "GATTACAGATTACAGATTACA"] {
        inputs.push(text.as_bytes().to_vec());
    }
    for n in [20, 100, 257, 1000] {
        inputs.extend(cases::families(numbers, n));
    }
    for n in MOST - 3..=MOST + 4 {
        for end in ["", "\n", "\n\n", "N", "\nA"] {
            inputs.push([&cases::over(b"GATTACA", n), end.as_bytes()].concat());
        }
    }
    inputs.push(vec![b'A'; 100_000]);
    inputs
}

/// The call on those inputs, on more short ones, and on wrong letters far in.
pub fn reports(c: &mut Comparison, numbers: &mut Numbers) {
    let mut all = inputs(numbers);
    cases::every(b"ACGT\n", 3, |bytes| all.push(bytes.to_vec()));
    for at in [255, 256, 257, 4096, MOST - 1] {
        let mut ring = numbers.word(b"ACGT", MOST);
        ring[at] = b'\n';
        all.push(ring);
    }
    for bytes in &all {
        c.report(bytes, &report::report(bytes));
    }
}

/// The program on the inputs, given whole and in pieces: the number of runs.
pub fn processes(program: &Path, numbers: &mut Numbers) -> u64 {
    let mut runs = 0;
    for input in &inputs(numbers) {
        let want = report::printed(input);
        for piece in [input.len().max(1), 1, 7] {
            let (printed, ended) = report::run(program, input, piece);
            if printed != want || !ended {
                let (printed, want) = (String::from_utf8_lossy(&printed), String::from_utf8_lossy(&want));
                let shown = String::from_utf8_lossy(&input[..input.len().min(64)]);
                eprintln!("DIFFERENCE in ringline, {} bytes {shown:?} in pieces of {piece}:\n{printed}not\n{want}", input.len());
                std::process::exit(1);
            }
            runs += 1;
        }
    }
    runs
}
