std::mutex left;
std::mutex right;
void forth() {
    left.lock();
    right.lock();
    std::cout << "forth\n";
    right.unlock();
    left.unlock();
}
void back() {
    right.lock();
    left.lock();
    std::cout << "back\n";
    left.unlock();
    right.unlock();
}
int main() {
    std::thread a(forth);
    std::thread b(back);
    a.join();
    b.join();
    return 0;
}
