// A result of each type, from a member and from a constant, the results converted.
class Other {
public:
    int32_t n;
};
Other other;
class All {
    int64_t v;
public:
    All(int64_t x) : v(x) {}
    bool is_set() { return v; }
    int8_t as_i8() { return v; }
    uint8_t as_u8() { return v; }
    int16_t as_i16() { return v; }
    uint16_t as_u16() { return v; }
    int32_t as_i32() { return v; }
    uint32_t as_u32() { return v; }
    int64_t as_i64() { return v; }
    uint64_t as_u64() { return v; }
    int as_int() { return v + 1; }
    unsigned as_unsigned() { return v - 1; }
    Other* as_other() {
        if (v > 0) {
            return &other;
        }
        return nullptr;
    }
    All* itself() { return this; }
};
void show(All* all) {
    std::cout << all->is_set() << " " << int(all->as_i8()) << " " << int(all->as_u8()) << " " << all->as_i16() << " " << all->as_u16() << " ";
    std::cout << all->as_i32() << " " << all->as_u32() << " " << all->as_i64() << " " << all->as_u64() << " " << all->as_int() << " ";
    std::cout << all->as_unsigned() << " " << (all->as_other() == nullptr) << " " << (all->itself() == all) << "\n";
}
All first(0);
All second(-1);
All third(4886718345);
int main() {
    show(&first);
    show(&second);
    show(&third);
    Other* it = third.as_other();
    it->n = 5;
    return it->n;
}
