class Door { };
Door* front = 0;
int main() { return 0; }
