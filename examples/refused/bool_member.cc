class Counter { bool on; };
Counter counter;
int main() { return 0; }
