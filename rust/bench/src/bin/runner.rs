//! One side of `compare`: runs the archive that it is linked with on the rules and logs that come in.
//!
//! A request is a number. 0: the length and bytes of a rule and those of a log follow, to be run from then on.
//! Another number: the log is run from a fresh point in so many calls of equal growth. The answer is the processor time
//! in seconds, then the length of the sheet and its bytes. Numbers have 64 bits, in the byte order of the machine.

use bench::time::seconds;
use std::io::{self, Read, Write};

fn number(input: &mut impl Read) -> io::Result<u64> {
    let mut bytes = [0; 8];
    input.read_exact(&mut bytes)?;
    Ok(u64::from_ne_bytes(bytes))
}

fn buffer(input: &mut impl Read) -> io::Result<Vec<u8>> {
    let mut bytes = vec![0; number(input)? as usize];
    input.read_exact(&mut bytes)?;
    Ok(bytes)
}

/// The log in so many calls, each with room for all that is still to come: the seconds, and the verdicts at the
/// beginning of the sheet.
fn run(rule: &[u8], log: &[u8], calls: usize, sheet: &mut [u8]) -> (f64, usize) {
    let mut point = vec![0; havdrims::measure(rule).expect("measure").words];
    havdrims::open(rule, &mut point).expect("open");
    let records = (log.len() - 8) / 8;
    let mut given = 0;
    let time = seconds(|| {
        for call in 1..=calls {
            let end = 8 + 8 * (records * call / calls);
            let done = havdrims::resume(rule, &log[..end], &mut point, &mut sheet[given..]).expect("resume");
            given += done.verdicts;
        }
    });
    (time, given)
}

fn main() -> io::Result<()> {
    let (mut input, mut output) = (io::stdin().lock(), io::stdout().lock());
    let (mut rule, mut log, mut sheet) = (Vec::new(), Vec::new(), Vec::new());
    loop {
        // The other side ends the requests by closing the pipe.
        let Ok(calls) = number(&mut input) else { return Ok(()) };
        if calls == 0 {
            (rule, log) = (buffer(&mut input)?, buffer(&mut input)?);
            continue;
        }
        sheet.clear();
        sheet.resize((log.len() - 8) / 8, 0xFF);
        let (time, given) = run(&rule, &log, calls as usize, &mut sheet);
        output.write_all(&time.to_ne_bytes())?;
        output.write_all(&(given as u64).to_ne_bytes())?;
        output.write_all(&sheet[..given])?;
        output.flush()?;
    }
}
