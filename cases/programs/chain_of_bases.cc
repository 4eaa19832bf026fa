// A chain of bases, each with a member, a constructor and a function of its own.
#include <cstdint>
#include <iostream>

class A {
protected:
    int8_t a;
public:
    A(int n) : a(n) { std::cout << "A"; }
    ~A() { std::cout << "a"; }
    int of_a() { return a; }
};

class B : public A {
protected:
    uint16_t b;
public:
    B(int n) : A(n * 2), b(n) { std::cout << "B"; }
    ~B() { std::cout << "b"; }
    int of_b() { return of_a() + b; }
};

class C : public B {
protected:
    int64_t c;
public:
    C(int n) : B(n * 2), c(a + b) { std::cout << "C"; }
    ~C() { std::cout << "c"; }
    int64_t of_c() { return this->of_b() * c; }
};

class D : public C {
    bool d;
public:
    D() : C(7), d(true) { std::cout << "D"; }
    ~D() { std::cout << "d\n"; }
    int64_t all() { return a + b + c + d; }
};

D d_object;
C* c_pointer = nullptr;

int main() {
    c_pointer = &d_object;
    A* a = c_pointer;
    B* b = &d_object;
    std::cout << " " << a->of_a() << " " << b->of_b() << " " << c_pointer->of_c() << " " << d_object.all() << "\n";
    D* d = new D;
    std::cout << " " << d->of_a() << " " << (d == a) << (a == b) << " ";
    delete d;
    return 0;
}
