struct A { uint32_t v; };
A a;
int main() { A* p = &a.v; return 0; }
