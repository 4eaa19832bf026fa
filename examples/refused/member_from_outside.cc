struct Counter { uint32_t hits; };
Counter counter;
int main() { counter.hits = 1; return 0; }
