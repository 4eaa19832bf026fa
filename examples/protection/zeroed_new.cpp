// Memory of `new` that is zero at first, which the constructors of guarded classes count on. To be compiled with -fno-lifetime-dse.
#include <cstdlib>
#include <new>

void* operator new(std::size_t size) {
    if (void* made = std::calloc(1, size)) {
        return made;
    }
    throw std::bad_alloc();
}

void operator delete(void* made) noexcept { std::free(made); }

void operator delete(void* made, std::size_t) noexcept { std::free(made); }
