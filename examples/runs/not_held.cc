std::mutex door;
void leave() { door.unlock(); }
int main() {
    door.lock();
    leave();
    leave();
    return 0;
}
