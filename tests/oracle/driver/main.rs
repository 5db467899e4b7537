//! Reads a script on standard input and writes its answer lines on standard output.

use std::io::{self, BufRead, Write};

use oracle::Script;

fn main() -> io::Result<()> {
    let mut script = Script::new();
    let mut input = io::stdin().lock();
    let mut output = io::BufWriter::new(io::stdout().lock());
    let (mut line, mut answer) = (Vec::new(), String::new());
    let mut number = 0;
    while input.read_until(b'\n', &mut line)? != 0 {
        number += 1;
        let text = String::from_utf8_lossy(line.strip_suffix(b"\n").unwrap_or(&line));
        script.line(number, &text, &mut answer);
        output.write_all(answer.as_bytes())?;
        answer.clear();
        line.clear();
    }
    output.flush()
}
