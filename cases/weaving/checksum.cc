// Bits, shifts and masks on protected words.
class Checksum {
    uint32_t crc;
    uint64_t hash;
    uint16_t sum;
public:
    Checksum() : crc(0xffffffffu), hash(14695981039346656037ull) {}
    void add(uint8_t byte) {
        crc = crc ^ byte;
        for (int i = 0; i < 8; ++i) {
            if ((crc & 1u) == 1u) {
                crc = crc >> 1 ^ 0xedb88320u;
            } else {
                crc = crc >> 1;
            }
        }
        hash = (hash ^ byte) * 1099511628211ull;
        sum = (sum << 1 | sum >> 15) + byte;
    }
    uint32_t crc_now() { return ~crc; }
    uint64_t hash_now() { return hash; }
    uint16_t sum_now() { return sum; }
};
Checksum checksum;
int main() {
    for (uint8_t byte = 49; byte < 58; ++byte) {
        checksum.add(byte);
    }
    std::cout << checksum.crc_now() << " " << checksum.hash_now() << " " << checksum.sum_now() << "\n";
    return 0;
}
