int sum(int n) {
    if (n == 0) {
        return 0;
    }
    return n + sum(n - 1);
}
int main() {
    std::cout << sum(100) << "\n";
    std::cout << sum(1000) << "\n";
    return 0;
}
