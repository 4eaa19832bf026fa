std::mutex door;
int level;
void set(int to) {
    door.lock();
    level = to;
    door.unlock();
}
int main() {
    door.lock();
    set(level + 1);
    door.unlock();
    return 0;
}
