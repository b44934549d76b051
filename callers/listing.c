/* Document 01's listing through include/wabbitsen.h: by the calls, or, if a word is given, by wabbitsen_transcript at once.
 * It prints what linerun prints, crates/linerun/stdout. Headers of a C library are not needed. */
#include "wabbitsen.h"

int printf(const char *format, ...);

/* Who asks for what; without a name who finishes or withdraws. */
typedef struct order {
    enum { ASK, FINISH, WITHDRAW } call;
    uint16_t terminal;
    const char *name;
} order;

static const char path[] = "path open (inject + read)* close end";

static const order orders[] = {
    {ASK, 1, "open"}, {ASK, 2, "inject"}, {ASK, 3, "close"}, {FINISH, 1, ""},
    {FINISH, 2, ""},  {FINISH, 3, ""},    {ASK, 4, "read"},  {WITHDRAW, 4, ""},
};

static const char input[] = "path open (inject + read)* close end\n"
                            "ask 1 open\nask 2 inject\nask 3 close\n"
                            "finish 1\nfinish 2\nfinish 3\n"
                            "ask 4 read\nwithdraw 4\n";

static size_t length(const char *text) {
    size_t n = 0;
    while (text[n] != 0) n++;
    return n;
}

static wabbitsen_reply make(wabbitsen_record *record, wabbitsen_entry *list, const order *o) {
    switch (o->call) {
    case ASK:
        return wabbitsen_ask(record, list, WABBITSEN_ENTRIES, o->terminal, (const uint8_t *)o->name, length(o->name));
    case FINISH:
        return wabbitsen_finish(record, list, WABBITSEN_ENTRIES, o->terminal);
    default:
        return wabbitsen_withdraw(record, list, WABBITSEN_ENTRIES, o->terminal);
    }
}

static void print_finished(const wabbitsen_table *table, wabbitsen_reply reply) {
    printf("finished %zu", reply.value);
    if (reply.granted) {
        printf(" granted %u %.*s", reply.terminal, table->lengths[reply.operation],
               (const char *)&table->bytes[16 * reply.operation]);
    }
    printf("\n");
}

static void print_reply(const wabbitsen_table *table, const order *o, wabbitsen_reply reply) {
    if (reply.number != 0) {
        printf("refused %u\n", reply.number);
    } else if (o->call == FINISH) {
        print_finished(table, reply);
    } else if (o->call == WITHDRAW) {
        printf("withdrawn %zu\n", reply.value);
    } else if (reply.granted) {
        printf("granted\n");
    } else {
        printf("delayed %zu\n", reply.value);
    }
}

static int by_calls(void) {
    static wabbitsen_table table;
    static wabbitsen_record record;
    static wabbitsen_entry list[WABBITSEN_ENTRIES];
    wabbitsen_reply reply = wabbitsen_compile((const uint8_t *)path, length(path), &table);
    if (reply.number != 0) {
        printf("refused %u at %zu\n", reply.number, reply.value);
        return 1;
    }
    printf("path %zu %zu %u\n", table.positions, table.names, table.mark);
    reply = wabbitsen_open(&record, list, WABBITSEN_ENTRIES, &table);
    if (reply.number != 0) {
        printf("refused %u\n", reply.number);
        return 1;
    }
    for (size_t i = 0; i < sizeof orders / sizeof orders[0]; i++) {
        print_reply(&record.table, &orders[i], make(&record, list, &orders[i]));
    }
    return 0;
}

static int at_once(void) {
    static uint8_t out[WABBITSEN_TRANSCRIPT];
    size_t said = wabbitsen_transcript((const uint8_t *)input, length(input), out, sizeof out);
    printf("%.*s", (int)said, (const char *)out);
    return 0;
}

int main(int words, char **word) {
    (void)word;
    return words > 1 ? at_once() : by_calls();
}
