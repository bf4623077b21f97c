fn main() {
    tfm::bench::main();
}
