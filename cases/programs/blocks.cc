// Blocks and how long a local is there.
#include <cstdint>
#include <iostream>

int x = 100;

int deep(int n) {
    int result = 0;
    {
        int a = n + 1;
        {
            int b = a * 2;
            {
                int c = b + a;
                result += c;
            }
            int c = b - a;
            result += c;
        }
        int b = 1000;
        result += b;
    }
    int a = result;
    return a;
}

int main() {
    std::cout << deep(1) << " " << deep(10) << "\n";
    std::cout << x << " ";
    {
        int x = 1;
        std::cout << x << " " << ::x << " ";
        ::x = 200;
        x++;
        std::cout << x << " ";
    }
    std::cout << x << "\n";
    for (int i = 0; i < 3; ++i) {
        int fresh = i;
        fresh += 10;
        std::cout << fresh << " ";
    }
    for (int i = 5; i > 3; --i) {
        int fresh = i;
        std::cout << fresh << " ";
    }
    {}
    {
        {}
    }
    int i = 42;
    std::cout << i << "\n";
    return 0;
}
