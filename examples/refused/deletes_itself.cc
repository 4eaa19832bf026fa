class Counter { uint32_t hits; public: void end() { delete this; } };
int main() { Counter* c = new Counter; c->end(); return 0; }
