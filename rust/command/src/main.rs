//! gmti: what people run over recordings of GMTI packets. What is a packet, what is refused and what a sheet holds is decided by the verified
//! library; this moves bytes and words.
mod check;
mod decimal;
mod editions;
mod failure;
mod files;
mod output;
mod shared;
mod sheet;
mod show;
mod split;
mod targets;
mod usage;

use failure::Failure;
use std::io::Write;
use std::process::ExitCode;
use usage::{Call, Status};

fn main() -> ExitCode {
    let call = usage::parse(std::env::args_os().skip(1));
    let (name, ended) = match &call {
        Ok(Call::Help(text)) => ("gmti".to_string(), print(text)),
        Ok(Call::Run(asked)) => (format!("gmti {}", asked.command.name), (asked.command.run)(asked)),
        Err(_) => ("gmti".to_string(), Ok(Status::Failed)),
    };
    if let (Err(failure), _) | (_, Err(failure)) = (&call, &ended) {
        // Where standard error is closed too, the status alone tells.
        let _ = writeln!(std::io::stderr(), "{name}: {failure}");
    }
    ExitCode::from(ended.unwrap_or(Status::Failed) as u8)
}

fn print(text: &str) -> Result<Status, Failure> {
    let mut out = std::io::stdout();
    out.write_all(text.as_bytes()).and_then(|()| out.flush()).map_err(Failure::Output)?;
    Ok(Status::Clean)
}
