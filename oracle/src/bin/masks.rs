fn main() {
    std::process::exit(oracle::masks::main());
}
