//! The program of docs/SHOW.md over the ordinary server: standard input to standard output.
//! usage: show [HUB]. The hub is `lap` where no other one is named.
#![forbid(unsafe_code)]

fn main() -> std::process::ExitCode {
    peer::lines::filter("show", peer::show::show_from)
}
