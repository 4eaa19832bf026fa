int sign(int x) {
    if (x > 0) {
        return 1;
    } else if (x < 0) {
        return -1;
    }
}
int main() {
    std::cout << sign(7) << " " << sign(-7) << "\n";
    std::cout << sign(0) << "\n";
    return 0;
}
