// A class that ends with private members and functions, with labels that change nothing.
class Dial {
private:
public:
    Dial() : at(3u) {}
    void turn(uint32_t by) {
        at = rest(at + by);
    }
    uint32_t shown() { return at; }
    ~Dial() { std::cout << "at " << at << "\n"; }
private:
    uint32_t rest(uint32_t x) { return x % 12u; }
private:
    uint32_t at;
};
Dial dial;
int main() {
    for (uint32_t i = 0u; i < 4u; ++i) {
        dial.turn(i * 5u);
        std::cout << dial.shown() << " ";
    }
    std::cout << "\n";
    return 0;
}
