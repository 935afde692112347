// A small server whose structures are those of edited-1.h or edited-2.h.
#include HEADER

struct Echo : Handler {
    unsigned seen;
    int on_packet(Connection &connection, const Packet &packet) override { return connection.send(packet); }
};

int Connection::send(const Packet &packet) {
    out.front() = packet;
    out.head++;
    bytes_out += packet.header.length;
    return packet.header.kind == Kind::Data;
}

Connection *Server::accept(const Address &address, Flags) {
    first->peer = address;
    first->handler = fallback;
    idle.front() = first;
    return first;
}

Server server;
Echo echo;
Stats stats;

extern "C" int start(int count) {
    server.fallback = &echo;
    Connection *connection = server.accept(Address{1, 2}, Ack);
    stats.total += count;
    return connection->send(Packet{}) + (int)stats.mean;
}
