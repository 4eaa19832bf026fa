int main() {
    int n = 1;
    for (int n = 0; n < 3; ++n) { }
    return n;
}
