# Sourced by what builds or runs the archive and the programs, which are x86-64 code. It sets `tools`, what the names of gcc, ar and objcopy
# begin with; `run`, what a program is run by; `cross`, what cargo is started by, and `programs_of`, where it then puts programs. On an
# x86-64 machine all of this is empty. On another one a cross compiler, Rust's library for x86-64 and an emulator are taken from Debian's
# packages; what runs there is the same code, and times measured there say nothing.
tools=
run=()
cross=()
programs_of=release
if [ "$(uname -m)" != x86_64 ]; then
  tools=x86_64-linux-gnu-
  run=(qemu-x86_64)
  cross=(env RUSTC=/usr/bin/rustc CARGO_BUILD_TARGET=x86_64-unknown-linux-gnu
    CARGO_TARGET_X86_64_UNKNOWN_LINUX_GNU_LINKER="${tools}gcc" CARGO_TARGET_X86_64_UNKNOWN_LINUX_GNU_RUNNER="${run[0]}")
  programs_of=x86_64-unknown-linux-gnu/release
  if ! { command -v qemu-x86_64 && command -v "${tools}gcc" && ls /usr/lib/rustlib/x86_64-unknown-linux-gnu/lib/libstd-*.rlib; } > /dev/null 2>&1; then
    {
      dpkg --add-architecture amd64
      apt-get update
      apt-get install -y --no-install-recommends qemu-user gcc-x86-64-linux-gnu libc6-dev-amd64-cross rustc-web libstd-rust-web-dev:amd64
    } > /dev/null 2>&1 || { echo "this machine is $(uname -m): the packages for x86-64 could not be installed" >&2; exit 1; }
  fi
fi
