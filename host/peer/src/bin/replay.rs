//! Document 01's replay program over the ordinary server: standard input to standard output.
//! usage: replay [HUB]. The hub is `lap` where no other one is named.
#![forbid(unsafe_code)]

fn main() -> std::process::ExitCode {
    peer::lines::filter("replay", peer::replay::replay_from)
}
