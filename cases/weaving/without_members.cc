// Guarded classes without members have no part: their functions stay as they are.
class Empty {
};
class Talker {
public:
    void say(uint32_t x) {
        if (x == 0u) {
            return;
        }
        std::cout << x << " ";
    }
};
Empty empty;
Talker talker;
int main() {
    Empty* e = new Empty();
    talker.say(0u);
    talker.say(4u);
    delete e;
    std::cout << (e == nullptr) << "\n";
    return 0;
}
