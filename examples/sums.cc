// Sums are computed by the program that runs, not by the reader of the text.
int main() {
    std::cout << "2 + 3 = " << 2 + 3 << "\n";
    std::cout << "1 + 10 + 100 + 1000 = " << 1 + 10 + 100 + 1000 << "\n";
    return 0;
}
