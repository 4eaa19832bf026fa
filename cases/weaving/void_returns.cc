// Functions without result that return early, at the end, or never before it.
class Gauge {
    int32_t level;
    uint32_t warnings;
public:
    void set(int32_t x) {
        level = x;
        return;
    }
    void clamp() {
        if (level > 100) {
            level = 100;
            warnings++;
            return;
        }
        while (level < 0) {
            warnings++;
            if (level < -5) {
                level = -5;
                return;
            }
            level++;
        }
        return;
    }
    void nothing() {
    }
    void block() {
        {
            warnings += 10u;
            return;
        }
    }
    void show() { std::cout << level << " " << warnings << "\n"; }
};
Gauge gauge;
int main() {
    gauge.set(130);
    gauge.clamp();
    gauge.show();
    gauge.set(-3);
    gauge.clamp();
    gauge.nothing();
    gauge.show();
    gauge.set(-30);
    gauge.clamp();
    gauge.block();
    gauge.show();
    return 0;
}
