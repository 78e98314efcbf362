//! The program `compare`; all of it stands in the library, which C programs link too.

fn main() -> std::process::ExitCode {
    compare::main()
}
