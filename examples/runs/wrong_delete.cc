class Device { };
class Valve : public Device { };
int main() {
    Device* device = new Valve;
    delete device;
    return 0;
}
