// Three levels, of which the middle one has no member and so no part, though it is guarded.
class Top {
protected:
    int16_t a;
public:
    int16_t first() { return a; }
};
class Middle : public Top {
public:
    void both(int16_t x) {
        a = x;
        a -= 1;
    }
};
class Bottom : public Middle {
    uint8_t b;
public:
    void all(int16_t x) {
        both(x);
        b = a * 2;
        return;
    }
    int32_t last() {
        return b - first();
    }
};
class Beside : public Middle {
    int64_t c;
public:
    int64_t third() {
        both(7);
        c = c + a;
        return c;
    }
};
Bottom bottom;
Beside beside;
int main() {
    bottom.all(40);
    std::cout << bottom.first() << " " << bottom.last() << " ";
    std::cout << beside.third() << " " << beside.third() << " " << beside.first() << "\n";
    return 0;
}
