class Door {
public:
    Door() { return; }
};
int main() { return 0; }
