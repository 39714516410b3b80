//! A controller's use of the engine: the table is translated once, each sheet is run on its code.

use refal0::{Cells, Code, Ended, Refused};

const TABLE: &[u8] = b"Sheet { eLine '\\n' eRest = <Line eLine> <Sheet eRest>; = }
    Line { 'STOP ' eValue = <EmitStop <Degrees eValue>> }
    Degrees { s10 s1, <IsDigit s10>: 'T', <IsDigit s1>: 'T' = s10 s1 }";

fn main() -> Result<(), Refused> {
    let code = Code::of(TABLE)?;
    let mut cells = Cells::new(256, 256, 256);
    for sheet in ["STOP 60\nSTOP 45\n", "STOP 60\nSTOP 6O\n"] {
        match code.run(1, sheet.as_bytes(), &mut cells, 1_000) {
            Ended::Done { record, .. } => println!("{}answer 0", String::from_utf8_lossy(record)),
            Ended::Early { answer, .. } => println!("answer {}", answer.number()),
        }
    }
    Ok(())
}
