//! values FILE: runs the text of a file on the proved solver and prints the value
//! of each field, one line a field.

use panel_bench::sides::values_proved;
use std::process::ExitCode;

fn main() -> ExitCode {
    let Some(file) = std::env::args().nth(1) else {
        eprintln!("usage: values FILE");
        return ExitCode::from(2);
    };
    let text = match std::fs::read(&file) {
        Ok(text) => text,
        Err(error) => {
            eprintln!("values: {file}: {error}");
            return ExitCode::FAILURE;
        }
    };
    let mut values = [0; 64];
    match values_proved(&text, &mut values) {
        0 => {
            eprintln!("values: {file} opens no panel, or has over 65,535 bytes");
            ExitCode::FAILURE
        }
        fields => {
            for (field, value) in values[..fields].iter().enumerate() {
                println!("field {field}: {value}");
            }
            ExitCode::SUCCESS
        }
    }
}
