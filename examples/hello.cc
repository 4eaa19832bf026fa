// The first program that agxx runs: it prints strings and sums of literals.
int main() {
    std::cout << "hello, object" << "\n";
    return 0;
}
