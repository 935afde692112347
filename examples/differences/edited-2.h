// The structures of edited-1.h after six edits.
enum class Kind : unsigned char { Hello = 1, Data = 2, Bye = 4 };
enum Flags { None = 0, Ack = 1, Syn = 2, Fin = 4 };

template<class T, int N> struct Ring { T slots[N]; unsigned head, tail; T &front() { return slots[head % N]; } };

struct Address { unsigned long long ip; unsigned short port; };

struct Header {
    Kind kind; unsigned char version; unsigned short length; unsigned sequence;
    unsigned flags : 6, window : 10;
};

struct Packet { Header header; Address from, to; unsigned char *payload; Packet *next; };

struct Connection;

struct Handler {
    virtual int on_packet(Connection &, const Packet &) = 0;
    virtual void on_close(Connection &) { refs--; }
    virtual void on_error(int code) { refs -= code; }
    int refs;
};

struct Connection {
    Address peer; Ring<Packet, 16> in, out; Handler *handler; unsigned long long bytes_in, bytes_out; Connection *prev, *next;
    int (*hook)(Connection *, Flags, int depth);
    int send(const Packet &);
};

struct Server {
    Connection *first; Ring<Connection *, 64> idle; Handler *fallback; unsigned count;
    Connection *accept(const Address &, Flags);
};

struct Stats { double mean, deviation; float share; long long total; const char *label; };
