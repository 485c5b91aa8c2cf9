use std::process::exit;

fn main() {
    exit(vempaldi_command::main(std::env::args_os().skip(1)));
}
