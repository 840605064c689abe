fn main() {
    oracle::jts_cases::main();
}
