class Counter { uint32_t hits; public: void hit() { hits++; } };
int main() { Counter* c = new Counter; c->hit(); delete c; return 0; }
