// Times libexpat on the texts that cut_times cuts, in the same order: the best of five parses of each.
#include <expat.h>
#include <stdio.h>
#include <string.h>
#include <time.h>

#define SIZE 1048576

static char text[SIZE + 64];
static size_t len;

static void put(const char *bytes, size_t count) {
    memcpy(text + len, bytes, count);
    len += count;
}

static void filled_with(const char *front, const char *piece, size_t count, const char *back) {
    len = 0;
    put(front, strlen(front));
    while (SIZE - len >= count + strlen(back)) put(piece, count);
    put(back, strlen(back));
}

static void filled(const char *front, const char *piece, const char *back) {
    filled_with(front, piece, strlen(piece), back);
}

static void start(void *data, const char *name, const char **attributes) {
    (void)name;
    (void)attributes;
    ++*(long *)data;
}

static void end(void *data, const char *name) {
    (void)name;
    --*(long *)data;
}

static double now(void) {
    struct timespec time;
    clock_gettime(CLOCK_MONOTONIC, &time);
    return time.tv_sec * 1e6 + time.tv_nsec / 1e3;
}

static void timed(const char *name) {
    double best = 1e18;
    const char *word = "";
    for (int round = 0; round < 5; ++round) {
        double begin = now();
        long depth = 0;
        XML_Parser parser = XML_ParserCreate("UTF-8");
        XML_SetUserData(parser, &depth);
        XML_SetElementHandler(parser, start, end);
        enum XML_Status status = XML_Parse(parser, text, (int)len, 1);
        XML_ParserFree(parser);
        double taken = now() - begin;
        if (taken < best) best = taken;
        word = status == XML_STATUS_OK ? "parsed" : "refused";
    }
    printf("%s: %zu bytes in %.0f us: %s\n", name, len, best, word);
}

static const char traffic[] =
    "<presence xmlns='jabber:client'><priority>0</priority><c xmlns='http://jabber.org/protocol/caps' hash='sha-1' node='https://conversejs.org' ver='qgxN8hmrdSa2/4/7PUoM9bPFN2s='/></presence><iq type='get' id='a:roster' xmlns='jabber:client'><query xmlns='jabber:iq:roster'/></iq><message from='juliet@example.org/a' to='romeo@example.org' type='chat' id='m1' xmlns='jabber:client'><body>Where's &lt;he&gt; &amp; she?</body><active xmlns='http://jabber.org/protocol/chatstates'/></message>";

static size_t message(char *into) {
    size_t count = (size_t)sprintf(into, "<message to='romeo@example.org' type='chat' id='m1'><body>");
    for (int n = 0; n < 58; ++n) count += (size_t)sprintf(into + count, "plain old words ");
    count = 923;
    sprintf(into + count, ".</body></message>");
    return 941;
}

static void attributes(void) {
    len = 0;
    put("<body", 5);
    for (int n = 0; n < 150000; ++n) {
        char name[16];
        int count = snprintf(name, sizeof name, " a%05d=''", n);
        if (len < 1048000) put(name, (size_t)count);
    }
    put("/>", 2);
}

int main(void) {
    char long_message[1100];
    filled("<body sid='s1'><message><body>", "Plain words of a message, and more of them. ", "</body></message></body>");
    timed("plain body");
    filled("<body>", traffic, "</body>");
    timed("stanzas like real traffic");
    filled_with("<body>", long_message, message(long_message), "</body>");
    timed("messages of 947 bytes");
    filled("<body><a>", "\xc3\xa9", "</a></body>");
    timed("two-byte characters in data");
    filled("<body a='", "\xc3\xa9", "'/>");
    timed("two-byte characters in a value");
    attributes();
    timed("attributes of different names");
    filled("<body>", "<a>", "");
    timed("nested elements, never closed");
    filled("<body>", "<a/>", "</body>");
    timed("many children");
    filled("<body a='", "x", "'/>");
    timed("one long value");
    filled("<body><a>", "&lt;", "</a></body>");
    timed("references in data");
    filled("<body a='", "&#x41;", "'/>");
    timed("references in a value");
    filled("<body><a>&#", "0", "65;</a></body>");
    timed("one long number");
    filled("<body><a>", "]", "</a></body>");
    timed("brackets in data");
    filled("<body><a><![CDATA[", "]", "]]></a></body>");
    timed("brackets in a section");
    filled("<body><a><![CDATA[", "<![CDATA", "");
    timed("a section that never ends");
    filled("<body><", "a", "");
    timed("a name that never ends");
    filled("<body>", "<aaaaaaaa>", "");
    len = SIZE / 2;
    timed("half a body of nested elements");
    return 0;
}
