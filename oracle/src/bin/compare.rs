fn main() {
    std::process::exit(oracle::compare::main());
}
