//! The second program: every answer of the library computed again, from the definitions and by other methods, and the
//! library's C functions called beside it.

pub mod alike_cases;
pub mod cases;
pub mod codes;
pub mod comparison;
pub mod deposit_cases;
pub mod deposit_comparison;
pub mod duels;
pub mod facts;
pub mod fasta;
pub mod fasta_cases;
pub mod fasta_comparison;
pub mod fasta_texts;
pub mod fasta_times;
pub mod keys;
pub mod lent;
pub mod letter_cases;
pub mod long;
pub mod long_sheets;
pub mod part_comparison;
pub mod plain;
pub mod plain_fasta;
pub mod probe;
pub mod process_times;
pub mod repeat_cases;
pub mod report;
pub mod report_comparison;
pub mod ring_cases;
pub mod rules;
pub mod sheet_cases;
pub mod sheet_comparison;
pub mod sheets;
pub mod timing;
pub mod uncertain_cases;
pub mod uncertain_times;
pub mod words;
