// The access words, in a class and in a struct, and labels that change nothing.
#include <cstdint>
#include <iostream>

class Safe {
private:
    int code;
    bool fits(int x) { return x == code; }
protected:
    int opened;
    void note() { opened++; }
public:
public:
    Safe(int code) : code(code), opened(0) {}
    bool open(int x) {
        if (fits(x)) {
            note();
            return true;
        }
        return false;
    }
    // Private names of another object of the same class may be used.
    bool like(Safe* other) { return code == other->code && other->fits(code); }
private:
    int unused() { return code; }
};

struct Vault : public Safe {
private:
    int tries;
public:
    Vault() : Safe(99), tries(0) {}
    int work(int x) {
        tries++;
        if (this->open(x)) {
            note();
        }
        return opened * 10 + tries;
    }
    int seen(Vault* other) { return other->opened; }
};

Safe small(5);
Safe second(5);
Vault vault;

int main() {
    std::cout << small.open(4) << small.open(5) << small.like(&second) << small.like(&vault) << "\n";
    std::cout << vault.work(1) << " " << vault.work(99) << " " << vault.seen(&vault) << "\n";
    return 0;
}
