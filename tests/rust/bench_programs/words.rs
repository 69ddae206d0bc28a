// The words after the first one, and the store in a file.
use anyhow::{Context, Error, Result, anyhow};
use loop_file::FileDisk;
use loop_store::{OpenRefused, Store, StoreFault};
use std::alloc::Global;
use std::env::Args;
use std::fs::File;
use std::rt::Files;

/// The next word, which is a number.
pub(crate) fn number(words: &mut Args) -> Result<u32> {
    let word = words.next().context("a number is missing")?;
    let number = word.parse().context("not a number")?;
    Ok(number)
}

/// The error for a refusal of a store.
pub(crate) fn refused(fault: StoreFault) -> Error {
    let name = fault.name();
    anyhow!("refused {name}")
}

/// The next word, which is the path of a file.
pub(crate) fn path(words: &mut Args) -> Result<String> {
    Ok(words.next().context("a path is missing")?)
}

/// Opens the store in a file.
pub(crate) fn open_file(
    rt: &impl Files<File = File>,
    alloc: Global,
    path: &str,
) -> Result<Store<FileDisk>> {
    let disk = FileDisk::open(rt, path)?;
    match Store::open(alloc, disk) {
        Err(OpenRefused { fault, disk: _ }) => Err(refused(fault)),
        Ok(store) => Ok(store),
    }
}
