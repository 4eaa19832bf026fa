struct Message { };
void send() {
    while (true) {
        Message* message = new Message;
    }
}
int main() {
    std::thread a(send);
    std::thread b(send);
    std::thread c(send);
    std::thread d(send);
    send();
    return 0;
}
