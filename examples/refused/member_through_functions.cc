struct Counter { uint32_t hits; void set(uint32_t x) { hits = x; } uint32_t get() { return this->hits; } };
Counter counter;
int main() { counter.set(1); std::cout << counter.get() << "\n"; return 0; }
