struct Port {
    uint8_t level;
};
int main() {
    Port* port = new Port;
    delete port;
    return port->level;
}
