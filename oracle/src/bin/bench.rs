fn main() {
    oracle::bench::main();
}
