// A pointer to a derived class converts to one to each of its ancestors.
#include <cstdint>
#include <iostream>

class Animal {
protected:
    int legs;
public:
    Animal(int legs) : legs(legs) {}
    int count() { return legs; }
    void lose() { legs--; }
};

class Dog : public Animal {
public:
    Dog() : Animal(4) {}
    int bark() { return 100 + legs; }
};

class Puppy : public Dog {
public:
    int age;
    Puppy(int age) : age(age) {}
};

Dog dog;
Puppy puppy(2);
Animal animal(8);
Animal* last;

int legs_of(Animal* a) {
    last = a;
    return a->count();
}

Animal* chosen(bool first) {
    if (first) {
        return &dog;
    }
    return &puppy;
}

int main() {
    std::cout << legs_of(&dog) << legs_of(&puppy) << legs_of(&animal) << "\n";
    Animal* a = &puppy;
    a->lose();
    std::cout << a->count() << puppy.count() << " " << puppy.bark() << " " << puppy.age << "\n";
    Dog* d = &puppy;
    std::cout << (a == d) << (d == a) << (a == &dog) << (&puppy != a) << (last == &animal) << "\n";
    a = d;
    d = &dog;
    std::cout << (a == d) << (chosen(true) == d) << (chosen(false) == a) << "\n";
    Animal* c = chosen(true);
    c->lose();
    std::cout << dog.count() << legs_of(chosen(false)) << "\n";
    Puppy* fresh = new Puppy(1);
    legs_of(fresh);
    last->lose();
    std::cout << fresh->count() << " " << fresh->bark() << "\n";
    delete fresh;
    last = nullptr;
    a = nullptr;
    std::cout << (last == a) << (a == nullptr) << (nullptr != last) << "\n";
    return 0;
}
