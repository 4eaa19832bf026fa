class Door {
    uint8_t state;
public:
    Door() : state(0) {}
    void check() {
        if (state > 1) {
            std::abort();
        }
    }
    void set(uint8_t to) {
        state = to;
        check();
    }
};
Door front;
Door back;
int main() {
    front.set(1);
    back.set(2);
    return 0;
}
