// `main` answers 0 where it runs off its end.
#include <iostream>

int main() {
    std::cout << "off the end\n";
}
