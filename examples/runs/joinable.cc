int done;
void work() { done++; }
void begin(bool waits) {
    std::thread worker(work);
    if (waits) {
        worker.join();
    }
}
int main() {
    begin(true);
    begin(false);
    return 0;
}
