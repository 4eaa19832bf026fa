// A program that ends too early.
int main() {
    std::cout << 2 + 3;
