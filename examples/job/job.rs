//! Prints which packages modules import most, and which modules have an argument of which nothing is known: the table
//! of `job.py`, by four threads.
//!
//! usage: job FILE ..
//!
//! It is the `src/main.rs` of a program that depends on the crate `modinfo` alone.

use modinfo::{module_info, DependencyDescriptor, DynamicArgument, ModuleInfo, Url};
use std::collections::BTreeMap;
use std::error::Error;
use std::{cmp, env, fs, process, thread};

const MOST: usize = 20;
const THREADS: usize = 4;

type Found = Result<ModuleInfo, Box<dyn Error + Send + Sync>>;

fn info_of(path: &str) -> Found {
    let specifier = Url::from_file_path(env::current_dir()?.join(path));
    let specifier = specifier.map_err(|()| "a path without a URL")?;
    Ok(module_info(&fs::read_to_string(path)?, &specifier, None)?)
}

/// The information on each file, in the order of the files.
fn infos_of(paths: &[String]) -> Vec<Found> {
    thread::scope(|scope| {
        let parts = paths.chunks(paths.len() / THREADS + 1);
        let threads: Vec<_> = parts
            .map(|part| scope.spawn(|| part.iter().map(|path| info_of(path)).collect::<Vec<_>>()))
            .collect();
        let found = threads.into_iter().map(|thread| thread.join());
        found.flat_map(|found| found.expect("no panic")).collect()
    })
}

fn specifier_of(dependency: &DependencyDescriptor) -> Option<&str> {
    match dependency {
        DependencyDescriptor::Static(found) => Some(&found.specifier),
        DependencyDescriptor::Dynamic(found) => match &found.argument {
            DynamicArgument::String(text) => Some(text),
            _ => None,
        },
    }
}

/// The package that a specifier names, `fs` for `node:fs`. None for a path and for another URL.
fn package_of(specifier: &str) -> Option<&str> {
    let bare = specifier.strip_prefix("node:").unwrap_or(specifier);
    if bare.is_empty() || bare.starts_with(['.', '/', '#']) || bare.contains(':') {
        return None;
    }
    let is_scoped = bare.starts_with('@');
    let mut slashes = bare.match_indices('/').skip(usize::from(is_scoped));
    Some(slashes.next().map_or(bare, |(at, _)| &bare[..at]))
}

fn has_unknown_argument(info: &ModuleInfo) -> bool {
    let mut calls = info.dependencies.iter().filter_map(|each| each.as_dynamic());
    calls.any(|call| call.argument.is_unknown())
}

fn main() {
    let paths: Vec<String> = env::args().skip(1).collect();
    let infos = infos_of(&paths);
    let mut counts: BTreeMap<&str, usize> = BTreeMap::new();
    let (mut unknown, mut status) = (Vec::new(), 0);
    for (path, info) in paths.iter().zip(&infos) {
        match info {
            Ok(info) => {
                for name in info.dependencies.iter().filter_map(specifier_of).filter_map(package_of) {
                    *counts.entry(name).or_default() += 1;
                }
                if has_unknown_argument(info) {
                    unknown.push(path);
                }
            }
            Err(error) => {
                eprintln!("{path}: {error}");
                status = 1;
            }
        }
    }
    let mut counts: Vec<_> = counts.into_iter().collect();
    // Stable: equal counts stay in the order of the names.
    counts.sort_by_key(|(_, count)| cmp::Reverse(*count));
    for (name, count) in counts.into_iter().take(MOST) {
        println!("{count} {name}");
    }
    println!();
    unknown.sort();
    unknown.iter().for_each(|path| println!("{path}"));
    process::exit(status);
}
