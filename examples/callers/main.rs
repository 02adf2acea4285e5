//! The same as `main.c`, in Rust.

mod wast;

use std::io::Write;
use std::process::ExitCode;

fn main() -> ExitCode {
    let Ok(text) = std::io::read_to_string(std::io::stdin()) else {
        eprintln!("no text in UTF-8");
        return ExitCode::from(3);
    };
    let made = if std::env::args().nth(1).as_deref() == Some("origins") {
        wast::origins(&text, false).map(String::into_bytes)
    } else {
        wast::encode(&text, false).map(|binary| (binary.iter().map(|byte| format!("{byte:02x}")).collect::<String>() + "\n").into_bytes())
    };
    match made {
        Ok(out) => {
            std::io::stdout().write_all(&out).expect("written");
            ExitCode::SUCCESS
        }
        Err(wast::Error::Refused(why)) => {
            eprintln!("{} at {}: {}", why.name(), why.offset, why.message());
            ExitCode::from(1)
        }
        Err(wast::Error::NoMemory) => ExitCode::from(4),
    }
}
