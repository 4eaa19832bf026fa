class Door {
public:
    Door(int width) { }
};
Door front;
int main() { return 0; }
