// The structures of a small server. edited-2.h has six edits of them.
enum class Kind : unsigned char { Hello = 1, Data = 2, Bye = 3 };
enum Flags { None = 0, Ack = 1, Syn = 2, Fin = 4 };

template<class T, int N> struct Ring { T slots[N]; unsigned head, tail; T &front() { return slots[head % N]; } };

struct Address { unsigned ip; unsigned short port; };

struct Header {
    Kind kind; unsigned char version; unsigned short length; unsigned sequence;
    unsigned flags : 4, window : 12;
};

struct Packet { Header header; Address from, to; unsigned char *payload; Packet *next; };

struct Connection;

struct Handler {
    virtual int on_packet(Connection &, const Packet &) = 0;
    virtual void on_close(Connection &) { refs--; }
    int refs;
};

struct Connection {
    Address peer; Ring<Packet, 16> in, out; Handler *handler; unsigned long long bytes_in, bytes_out; Connection *prev, *next;
    int (*hook)(Connection *, Flags);
    int send(const Packet &);
};

struct Server {
    Connection *first; Ring<Connection *, 64> idle; Handler *fallback; unsigned count;
    Connection *accept(const Address &, Flags);
};

struct Stats { double mean, deviation; float ratio; long long total; const char *label; };
