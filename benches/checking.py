"""How the time of names and types grows: programs that violate no rule but that they are of another form, and programs
that violate many."""

from growth import measure

MAIN = b"int main() { return 1; }\n"
CLASS = b"class C { int a; public: C(int x) : a(x) { } int g(int y) { a += y; return a; } };\n"

measure(
    {
        "statements": (CLASS + b"C c(1);\nint main() { int a = 1;", b" { int b = a; a = c.g(a) + b; } if (a < 3) { ++a; }\n", b" return a; }"),
        "expressions": (b"int main() { int a = 1;", b" a = (a + 2) * a - (a < 7) + (-a / 3);\n", b" return a; }"),
        "unknown": (MAIN + b"void f() {", b" x = y + z(1);\n", b"}"),
        "members": (MAIN + b"class C {", b" int m;\n", b"};"),
        "functions": (MAIN, b"void f(int a, bool b) { int c = a; }\n", b""),
        "classes": (MAIN, b"class D { int a; public: int g() { return a; } };\n", b""),
        "globals": (MAIN, b"int x = 1;\n", b""),
    }
)
