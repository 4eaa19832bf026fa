class Tank {
    uint32_t litres;
    uint8_t open;
public:
    Tank() : litres(20), open(1) {}
    void fill(uint32_t by) {
        if (open) {
            litres += by;
        }
    }
    uint32_t level() { return litres; }
};
Tank tank;
int main() {
    tank.fill(5);
    tank.fill(5);
    std::cout << tank.level() << " litres\n";
    return 0;
}
