// Strings: escapes, signs of every sort, an empty one, and newlines in both ways.
#include <iostream>

int main() {
    std::cout << "tab\there, quote \", backslash \\, newline\n";
    std::cout << "" << "a" << "" << "b" << "\n\n";
    std::cout << " !#$%&'()*+,-./0123456789:;<=>?@ABCDEFGHIJKLMNOPQRSTUVWXYZ[]^_`abcdefghijklmnopqrstuvwxyz{|}~" << std::endl;
    std::cout << std::endl << std::endl << "// no comment /* nor this */" << std::endl;
    std::cout << "\\n is no newline\\" << "\"\"\t\t" << "\n";
    std::cout << "no newline at the end";
    return 0;
}
