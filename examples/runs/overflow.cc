int32_t ticks = 2147483600;
int main() {
    for (int i = 0; i < 10; ++i) {
        ticks += 10;
        std::cout << ticks << "\n";
    }
    return 0;
}
