// Global objects that use each other as they are constructed.
class Source {
    uint32_t given;
public:
    Source(uint32_t start) : given(start) {}
    uint32_t give() {
        given = given + 3u;
        return given;
    }
};
Source source(4u);
class User {
public:
    uint32_t got;
    User(uint32_t x) {
        got = x + source.give();
        std::cout << got << " ";
    }
};
User one(1u);
Source other(one.got);
User two(other.give() + source.give());
uint32_t last = 9u;
bool is_on = true;
User* nobody = nullptr;
int main() {
    nobody = &two;
    std::cout << source.give() << " " << other.give() << " " << nobody->got + last << is_on << "\n";
    return 0;
}
