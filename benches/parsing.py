"""How the time of parsing grows: some texts are read to their end, and then refused by a rule on names; others stop being a
program early or at their end."""

from growth import measure

measure(
    {
        "functions": (b"", b"int f(int a, C* b) { a += b->c(a, 1) * 2; return a; }\n", b""),
        "classes": (b"", b"class C { int a; public: C() : a(1) { } ~C() { } int g() { return a; } };\n", b""),
        "statements": (b"int main() {", b' if (a) { ++b; } else { std::cout << a << "b"; }\n', b"}"),
        "globals": (b"", b"uint64_t x = 17ull; D d(1, 2);\n", b""),
        "arguments": (b"D d(1", b", x", b");"),
        "operands": (b"int main() { std::cout", b" << 1", b"; }"),
        "open brace": (b"int main() {", b"{", b""),
        "open paren": (b"int x() { a = ", b"(", b""),
        "minus": (b"int x() { a = ", b"- ", b""),
        "sums": (b"int x() { a = ", b"a+", b""),
        "else if": (b"int x() { ", b"if(a){}else ", b""),
        "no function": (b"", b"{", b""),
    }
)
