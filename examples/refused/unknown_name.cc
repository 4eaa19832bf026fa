class Door {
    int opened;
public:
    int count() { return opens; }
};
int main() { return 0; }
