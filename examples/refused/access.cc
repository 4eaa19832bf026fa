class Door {
    int opened;
};
Door front;
int main() { return front.opened; }
