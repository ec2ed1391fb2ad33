//! Prints what each of the named files depends on, as JSON, or the error in it.
//!
//! usage: cargo run --example dependencies FILE ..

use modinfo::{module_info_json, Url};
use std::{env, fs, process};

fn main() -> Result<(), Box<dyn std::error::Error>> {
    let mut has_fault = false;
    for name in env::args().skip(1) {
        let text = fs::read_to_string(&name)?;
        let path = fs::canonicalize(&name)?;
        let specifier = Url::from_file_path(path).map_err(|()| format!("{name} has no URL"))?;
        match module_info_json(&text, &specifier, None) {
            Ok(info) => println!("{name}: {info}"),
            Err(error) => {
                has_fault = true;
                eprintln!("{name}: {error}");
            }
        }
    }
    process::exit(i32::from(has_fault))
}
