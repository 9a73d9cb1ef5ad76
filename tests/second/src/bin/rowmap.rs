//! The mapping program: standard input to standard output.

fn main() -> std::io::Result<()> {
    second::run_program(second::rowmap)
}
