// The derived class alone has a part: functions of the base enter none.
struct Base {
    uint32_t n;
    bool is_low;
    void raise() { n += 1u; }
    uint32_t base_value() { return n; }
};
struct Derived : public Base {
    uint16_t k;
    void raise_both() {
        raise();
        k += 3u;
        is_low = k < 10u;
    }
    uint32_t value() { return n * 1000u + k + is_low; }
};
Derived d;
int main() {
    for (int i = 0; i < 5; ++i) {
        d.raise_both();
        d.raise();
        std::cout << d.value() << " " << d.base_value() << " ";
    }
    d.n = 7u;
    std::cout << d.value() << "\n";
    return 0;
}
