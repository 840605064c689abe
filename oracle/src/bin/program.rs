fn main() {
    std::process::exit(oracle::program::main());
}
