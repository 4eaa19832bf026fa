// Names that mean something at their place alone may be names of one's own elsewhere.
#include <cstdint>
#include <iostream>

int before = 1;
int after = 2;

struct around {
    int cout;
    int call(int endl) { return cout + endl; }
};

around order;

int execution(int within, int target) { return within * target; }

int main() {
    int override = 3;
    int final = 4;
    int mutex = 5;
    int thread = 6;
    int args = execution(override, final);
    order.cout = mutex * thread;
    std::cout << before + after << " " << args << " " << order.call(args) << " " << order.cout << "\n";
    int _under = 1;
    int a1_b2 = _under + 1;
    int a_name_that_is_quite_long_but_shorter_than_sixty_four_bytes_all_in = a1_b2 + 1;
    std::cout << _under << a1_b2 << a_name_that_is_quite_long_but_shorter_than_sixty_four_bytes_all_in << "\n";
    return 0;
}
