class Gate : public Door { };
class Door { };
int main() { return 0; }
