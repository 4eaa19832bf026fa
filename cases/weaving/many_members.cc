// A part of two dozen members.
class Row {
    uint8_t a1; uint8_t a2; uint8_t a3; uint8_t a4;
    uint16_t b1; uint16_t b2; uint16_t b3; uint16_t b4;
    uint32_t c1; uint32_t c2; uint32_t c3; uint32_t c4;
    uint64_t d1; uint64_t d2; uint64_t d3; uint64_t d4;
    int8_t e1; int8_t e2; int16_t f1; int16_t f2;
    int32_t g1; int32_t g2; int64_t h1; int64_t h2;
public:
    void fill(uint32_t x) {
        a1 = x; a2 = x + 1u; a3 = x + 2u; a4 = x + 3u;
        b1 = a1 * a2; b2 = a2 * a3; b3 = a3 * a4; b4 = a4 * a1;
        c1 = b1 * b2; c2 = b2 * b3; c3 = b3 * b4; c4 = b4 * b1;
        d1 = c1 * uint64_t(c2); d2 = c2 * uint64_t(c3); d3 = c3 * uint64_t(c4); d4 = c4 * uint64_t(c1);
        e1 = -a1; e2 = -a2; f1 = -b1; f2 = -b2;
        g1 = -int32_t(c1 % 1000u); g2 = g1 - e1; h1 = d1 >> 3; h2 = h1 - g2;
    }
    uint64_t mix() {
        return a1 ^ a2 ^ a3 ^ a4 ^ b1 ^ b2 ^ b3 ^ b4 ^ c1 ^ c2 ^ c3 ^ c4 ^ d1 ^ d2 ^ d3 ^ d4 ^ uint64_t(e1 ^ e2 ^ f1 ^ f2 ^ g1 ^ g2 ^ h1 ^ h2);
    }
};
Row row;
int main() {
    for (uint32_t i = 0u; i < 4u; ++i) {
        row.fill(i * 41u + 7u);
        std::cout << row.mix() << "\n";
    }
    return 0;
}
