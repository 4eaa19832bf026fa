struct Port {
    uint8_t level;
};
Port* port;
int main() {
    port->level = 7;
    return 0;
}
