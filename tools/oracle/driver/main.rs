fn main() {
    std::process::exit(tfm::oracle::main());
}
