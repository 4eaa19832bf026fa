// Objects of two guarded classes that call each other.
class Seller {
    uint32_t stock;
    uint32_t price;
public:
    Seller(uint32_t s, uint32_t p) : stock(s), price(p) {}
    uint32_t sell(uint32_t wanted) {
        if (wanted > stock) {
            uint32_t rest = stock;
            stock = 0u;
            return rest;
        }
        stock -= wanted;
        price = price + 1u;
        return wanted;
    }
    uint32_t cost() { return price; }
};
class Buyer {
    uint32_t money;
    uint32_t things;
public:
    Buyer(uint32_t m) : money(m) {}
    bool buy(Seller* from, uint32_t wanted) {
        if (from->cost() * wanted > money) {
            return false;
        }
        uint32_t before = from->cost();
        uint32_t got = from->sell(wanted);
        things += got;
        money -= got * before;
        return got == wanted;
    }
    void show() { std::cout << money << " " << things << "\n"; }
};
Seller shop(9u, 4u);
Buyer ada(60u);
Buyer bob(10u);
int main() {
    std::cout << ada.buy(&shop, 5u) << bob.buy(&shop, 2u) << bob.buy(&shop, 3u) << ada.buy(&shop, 4u) << "\n";
    ada.show();
    bob.show();
    return 0;
}
