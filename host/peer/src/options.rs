//! Arguments of the programs: the hub's name, and options, each with a number after it.
#![forbid(unsafe_code)]

use crate::server::Server;

/// The numbers that the command line gives to these options, or else the usual ones; or what is wrong with it.
pub fn numbers<const N: usize>(names: [&str; N], usual: [u64; N]) -> Result<[u64; N], String> {
    numbers_in(given(), names, usual)
}

/// The same of some of its words.
pub fn numbers_in<const N: usize>(words: Vec<String>, names: [&str; N], usual: [u64; N]) -> Result<[u64; N], String> {
    let mut numbers = usual;
    let mut given = words.into_iter();
    while let Some(name) = given.next() {
        let place = names.iter().position(|known| *known == name).ok_or(format!("{name} is not known"))?;
        let value = given.next().and_then(|value| value.parse().ok());
        numbers[place] = value.ok_or(format!("{name} needs a number"))?;
    }
    Ok(numbers)
}

/// The server of the hub that the first word of the command line names, and the words after it. Where there is none or
/// it is an option, the hub is `lap`.
pub fn hub() -> Result<(Server, Vec<String>), String> {
    let mut words = given();
    if words.first().is_none_or(|word| word.starts_with("--")) {
        return Ok((Server::new(), words));
    }
    let name = words.remove(0);
    let server = Server::fresh(name.as_bytes()).map_err(|_| format!("{name} is no hub's name"))?;
    Ok((server, words))
}

/// What follows the program's name; other bytes than UTF-8 are in no name and no option.
fn given() -> Vec<String> {
    std::env::args_os().skip(1).map(|word| word.to_string_lossy().into_owned()).collect()
}
