// Classes that end with protected things.
struct Part {
    Part() {}
    ~Part() {}
    void mark(uint16_t x) { number = x; }
protected:
    uint16_t number;
};
class Whole : public Part {
public:
    Whole() {}
    ~Whole() { std::cout << sum << "\n"; }
    void add() { count(number); }
protected:
    void count(uint32_t x) { sum += x; }
    uint32_t sum;
};
Whole whole;
int main() {
    whole.mark(60000u);
    whole.add();
    whole.add();
    whole.mark(1u);
    whole.add();
    return 0;
}
