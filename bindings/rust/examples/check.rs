//! Validates a document against a schema, and prints the answer: check SCHEMA DOCUMENT

use std::error::Error;

fn main() -> Result<(), Box<dyn Error>> {
    let mut paths = std::env::args().skip(1);
    let schema = std::fs::read_to_string(paths.next().ok_or("a schema is needed")?)?;
    let document = std::fs::read_to_string(paths.next().ok_or("a document is needed")?)?;
    let schema = graphql_validation::Schema::read(&schema)?;
    print!("{}", schema.validate_json(&document)?);
    Ok(())
}
