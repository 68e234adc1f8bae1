use std::process::ExitCode;

fn main() -> ExitCode {
    redo_server::command::main()
}
