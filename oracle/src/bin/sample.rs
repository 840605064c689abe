fn main() {
    oracle::sample::main();
}
