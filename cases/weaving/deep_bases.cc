// A chain of five classes, of which all but one have parts: they are entered from the topmost, and left the other way.
class A { protected: uint32_t a; public: uint32_t a_of() { return a; } };
class B : public A { protected: uint32_t b; public: uint32_t b_of() { a++; return b; } };
class C : public B { protected: int8_t c; public: C(int8_t x) : c(x) { b = 1u; } int32_t c_of() { b++; return c + int32_t(b); } };
class D : public C { protected: uint64_t d; public: D() : C(-3), d(5000000000) { } uint64_t d_of() { c -= 1; return d + c; } };
class E : public D {
    uint16_t e;
public:
    uint64_t all() {
        e += 1u;
        d += e;
        if (a_of() == 0u) {
            return d_of();
        } else if (b_of() > 3u) {
            return c_of() + e;
        }
        return a + b + c + d + e;
    }
};
E e;
int main() {
    for (int i = 0; i < 5; ++i) {
        std::cout << e.all() << " " << e.a_of() << e.b_of() << " " << e.c_of() << " " << e.d_of() << "\n";
    }
    return 0;
}
