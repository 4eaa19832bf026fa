// `this` as an argument, as a result and in comparisons.
#include <cstdint>
#include <iostream>

class Node {
    int weight;
public:
    Node(int weight) : weight(weight) {}
    Node* self() { return this; }
    bool is(Node* other) { return this == other; }
    Node* heavier(Node* other) {
        if (other->weight > weight) {
            return other;
        }
        return this;
    }
    int get() { return this->weight; }
    void take(Node* other) {
        if (other != this) {
            this->weight += other->weight;
            other->weight = 0;
        }
    }
    void give(Node* other) { other->take(this); }
};

Node light(1);
Node heavy(50);

void show(Node* n) { std::cout << n->get() << " "; }

int main() {
    show(light.self());
    show(light.heavier(&heavy));
    show(heavy.heavier(&light));
    std::cout << light.is(&light) << light.is(&heavy) << light.is(nullptr) << "\n";
    light.take(&heavy);
    light.take(&light);
    show(&light);
    show(&heavy);
    light.give(&heavy);
    show(&light);
    show(&heavy);
    std::cout << (light.self() == &light) << "\n";
    Node* n = light.heavier(heavy.self());
    std::cout << n->is(&heavy) << n->get() << "\n";
    return 0;
}
