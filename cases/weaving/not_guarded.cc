// A program none of whose classes is guarded: its woven text is its normal form.
class Cell {
    bool is_set;
    uint32_t v;
public:
    Cell(uint32_t x) : v(x), is_set(x > 3) {}
    uint32_t v_of(Cell* c) { return c->v + is_set; }
};
Cell cell(7u);
int main() {
    std::cout << cell.v_of(&cell) << "\n";
}
