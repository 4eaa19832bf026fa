int count;
void add() {
    int was = count;
    count = was + 1;
}
int main() {
    std::thread a(add);
    std::thread b(add);
    a.join();
    b.join();
    std::cout << count << "\n";
    return 0;
}
