uint32_t mask(int bits) { return (1u << bits) - 1u; }
int main() {
    std::cout << mask(31) << "\n";
    std::cout << mask(32) << "\n";
    return 0;
}
