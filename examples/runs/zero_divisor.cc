int mean(int sum, int count) { return sum / count; }
int main() {
    std::cout << mean(30, 4) << "\n";
    std::cout << mean(0, 0) << "\n";
    return 0;
}
