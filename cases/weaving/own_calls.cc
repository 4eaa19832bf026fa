// Functions of the object that call each other, bare and through `this`.
class Stack {
    uint32_t top;
    uint32_t most;
    uint32_t sum;
    void note() {
        if (top > most) {
            most = top;
        }
    }
public:
    void push(uint32_t x) {
        top = top + 1u;
        this->sum = this->sum + x;
        note();
    }
    void pop(uint32_t x) {
        if (empty()) {
            return;
        }
        this->top--;
        sum -= x;
    }
    bool empty() { return top == 0u; }
    void push_twice(uint32_t x) {
        push(x);
        this->push(x + 1u);
    }
    uint32_t all() { return sum * 100u + this->height() * 10u + most; }
    uint32_t height() { return top; }
};
Stack stack;
int main() {
    stack.pop(1u);
    stack.push_twice(4u);
    stack.push(2u);
    std::cout << stack.all() << " ";
    stack.pop(2u);
    stack.pop(4u);
    std::cout << stack.all() << " " << stack.empty() << "\n";
    return 0;
}
