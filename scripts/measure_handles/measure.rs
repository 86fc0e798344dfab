//! Prints the microseconds that each document takes against a schema that is kept: measure SCHEMA DOCUMENT..

use std::error::Error;
use std::time::Instant;

const ROUNDS: usize = 20;
const CALLS: u32 = 200;

fn main() -> Result<(), Box<dyn Error>> {
    let mut paths = std::env::args().skip(1);
    let text = std::fs::read_to_string(paths.next().ok_or("a schema is needed")?)?;
    let schema = graphql_validation::Schema::read(&text)?;
    for path in paths {
        let document = std::fs::read_to_string(path)?;
        let mut least = f64::INFINITY;
        for _ in 0..ROUNDS {
            let begun = Instant::now();
            for _ in 0..CALLS {
                schema.validate(&document)?;
            }
            least = least.min(begun.elapsed().as_secs_f64() * 1e6 / f64::from(CALLS));
        }
        println!("{least:.2}");
    }
    Ok(())
}
