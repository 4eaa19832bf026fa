// An object that gives itself to functions that call it back.
class Node;
void visit(Node* node, uint32_t depth);
class Node {
    uint32_t visits;
    uint32_t deepest;
public:
    void enter(uint32_t depth) {
        visits++;
        if (depth > deepest) {
            deepest = depth;
        }
        if (depth < 4u) {
            visit(this, depth + 1u);
            visit(this, depth + 2u);
        }
    }
    uint32_t seen() { return visits * 10u + deepest; }
};
void visit(Node* node, uint32_t depth) {
    node->enter(depth);
    std::cout << node->seen() << " ";
}
Node root;
int main() {
    visit(&root, 0u);
    std::cout << "\n";
    return 0;
}
