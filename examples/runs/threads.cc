void work() { }
void begin(int count) {
    std::thread worker(work);
    if (count > 1) {
        begin(count - 1);
    }
    worker.join();
}
int main() {
    begin(3);
    std::cout << "three\n";
    begin(61);
    return 0;
}
