void work() { }
int main() {
    std::thread worker(work);
    for (int i = 0; i < 2; ++i) {
        worker.join();
    }
    return 0;
}
