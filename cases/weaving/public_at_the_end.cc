// Classes that end with public things: no label is needed before what the normal form makes, nor before the part.
class Door {
    uint8_t angle;
public:
    void open(uint8_t by) { angle = by; }
    int32_t shown() { return angle; }
};
struct Gate {
    uint8_t angle;
private:
    uint32_t opened;
public:
    ~Gate() {}
    int32_t open() {
        opened++;
        angle = opened * 90u;
        return angle;
    }
};
Door door;
Gate gate;
int main() {
    door.open(200u);
    std::cout << door.shown() << " " << gate.open() << " " << gate.open() << " " << gate.open() << "\n";
    return 0;
}
