bool done;
int main() {
    std::cout << "waiting\n";
    while (!done) { }
    return 0;
}
