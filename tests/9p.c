/*
 * A stand-in for the command 9p of plan9port, written from its pages 9p(1), namespace(1) and intro(9p). It knows
 * nothing of this repository: a service's socket is $NAMESPACE/SERVICE, or that of the user and the display, each run is one
 * connection, which attaches with no name, and messages have at most 8,192 bytes.
 *
 *     9p read SERVICE/FILE            writes the file to the standard output, read by read
 *     9p write [-l] SERVICE/FILE      writes the standard input to the file, with -l a line at a time
 *     9p rdwr SERVICE/FILE            by turns one read, which is written out, and one line, which is written to it
 *     9p ls SERVICE[/FOLDER]          the names in a folder, a line each
 */
#include <errno.h>
#include <signal.h>
#include <stdint.h>
#include <stdio.h>
#include <stdlib.h>
#include <string.h>
#include <sys/socket.h>
#include <sys/un.h>
#include <unistd.h>

enum { MSIZE = 8192, IOHDRSZ = 24, MAXWELEM = 16, ROOT = 0, FID = 1, OREAD = 0, OWRITE = 1, ORDWR = 2 };
enum { Tversion = 100, Tattach = 104, Rerror = 107, Twalk = 110, Topen = 112, Tread = 116, Twrite = 118, Tclunk = 120 };

static int server;
static unsigned char asked[MSIZE], told[MSIZE];
static size_t at;

static void fail(const char *what, const char *why) {
    fprintf(stderr, "9p: %s: %s\n", what, why);
    exit(1);
}

/* -- a message, field by field */

static void put(uint64_t value, int bytes) {
    while (bytes--) {
        asked[at++] = value & 0xff;
        value >>= 8;
    }
}

static void put_text(const char *text, size_t length) {
    put(length, 2);
    memcpy(asked + at, text, length);
    at += length;
}

static uint64_t number(const unsigned char *from, int bytes) {
    uint64_t value = 0;
    while (bytes--) value = value << 8 | from[bytes];
    return value;
}

static void begin(int type, int tag) {
    at = 4;
    put(type, 1);
    put(tag, 2);
}

static void take(unsigned char *to, size_t count) {
    while (count) {
        ssize_t n = read(server, to, count);
        if (n < 0 && errno == EINTR) continue;
        if (n <= 0) fail("read", n ? strerror(errno) : "eof");
        to += n;
        count -= n;
    }
}

/* sends what was asked, and takes the answer; a refusal is told, with what it is of */
static void ask(const char *of) {
    size_t size = at, sent = 0;
    at = 0;
    put(size, 4);
    while (sent < size) {
        ssize_t n = write(server, asked + sent, size - sent);
        if (n < 0 && errno != EINTR) fail("write", strerror(errno));
        if (n > 0) sent += n;
    }
    take(told, 4);
    size = number(told, 4);
    if (size < 7 || size > MSIZE) fail(of, "bad message");
    take(told + 4, size - 4);
    if (told[4] == Rerror) {
        told[9 + number(told + 7, 2) < MSIZE ? 9 + number(told + 7, 2) : MSIZE - 1] = 0;
        fail(of, (char *)told + 9);
    }
    if (told[4] != asked[4] + 1 || number(told + 5, 2) != number(asked + 5, 2)) fail(of, "bad answer");
}

/* -- a service, and a file of it */

static void dial(const char *service, size_t length) {
    struct sockaddr_un to = {.sun_family = AF_UNIX};
    const char *namespace = getenv("NAMESPACE"), *user = getenv("USER"), *display = getenv("DISPLAY");
    int n, cut = display && strlen(display) > 2 && !strcmp(display + strlen(display) - 2, ".0") ? 2 : 0;
    if (namespace) n = snprintf(to.sun_path, sizeof to.sun_path, "%s/%.*s", namespace, (int)length, service);
    else
        n = snprintf(to.sun_path, sizeof to.sun_path, "/tmp/ns.%s.%.*s/%.*s", user ? user : "none",
                     display ? (int)strlen(display) - cut : 2, display ? display : ":0", (int)length, service);
    if (n < 0 || (size_t)n >= sizeof to.sun_path) fail(service, "name too long");
    server = socket(AF_UNIX, SOCK_STREAM, 0);
    if (server < 0 || connect(server, (struct sockaddr *)&to, sizeof to) < 0) fail(to.sun_path, strerror(errno));
    begin(Tversion, 0xffff);
    put(MSIZE, 4);
    put_text("9P2000", 6);
    ask("version");
    if (number(told + 7, 4) > MSIZE || number(told + 11, 2) != 6 || memcmp(told + 13, "9P2000", 6))
        fail("version", "unknown version");
    begin(Tattach, 0);
    put(ROOT, 4);
    put(0xffffffff, 4);
    put_text(user ? user : "none", strlen(user ? user : "none"));
    put_text("", 0);
    ask("attach");
}

/* walks from the root to a name of parts with slashes, and opens what is there */
static void open_file(const char *name, int mode) {
    const char *whole = name;
    int from = ROOT;
    do {
        size_t place, parts = 0;
        begin(Twalk, 0);
        put(from, 4);
        put(FID, 4);
        place = at;
        put(0, 2);
        while (*name && parts < MAXWELEM) {
            size_t length = strcspn(name, "/");
            if (length) {
                if (at + 2 + length > MSIZE) fail(whole, "name too long");
                put_text(name, length);
                parts++;
            }
            name += length + (name[length] == '/');
        }
        asked[place] = parts;
        ask(whole);
        if (number(told + 7, 2) != parts) fail(whole, "file not found");
        from = FID;
    } while (*name);
    begin(Topen, 0);
    put(FID, 4);
    put(mode, 1);
    ask(whole);
}

/* one read of at most so many bytes: how many stand behind the header of the answer */
static size_t read_some(uint64_t offset) {
    begin(Tread, 0);
    put(FID, 4);
    put(offset, 8);
    put(MSIZE - IOHDRSZ, 4);
    ask("read");
    return number(told + 7, 4);
}

static void write_all(uint64_t offset, const char *data, size_t length) {
    while (length) {
        size_t piece = length < MSIZE - IOHDRSZ ? length : MSIZE - IOHDRSZ;
        begin(Twrite, 0);
        put(FID, 4);
        put(offset, 8);
        put(piece, 4);
        memcpy(asked + at, data, piece);
        at += piece;
        ask("write");
        if (number(told + 7, 4) != piece) fail("write", "short write");
        offset += piece;
        data += piece;
        length -= piece;
    }
}

static void close_file(void) {
    begin(Tclunk, 0);
    put(FID, 4);
    ask("clunk");
}

/* -- what the words ask for */

static void read_file(void) {
    uint64_t offset = 0;
    size_t n;
    while ((n = read_some(offset))) {
        fwrite(told + 11, 1, n, stdout);
        fflush(stdout);
        offset += n;
    }
}

static void write_file(int by_lines) {
    uint64_t offset = 0;
    char *line = NULL;
    size_t room = 0;
    ssize_t n;
    if (by_lines) {
        while ((n = getline(&line, &room, stdin)) > 0) {
            write_all(offset, line, n);
            offset += n;
        }
    } else {
        char data[4096];
        while ((n = fread(data, 1, sizeof data, stdin)) > 0) {
            write_all(offset, data, n);
            offset += n;
        }
    }
}

static void read_and_write(void) {
    char *line = NULL;
    size_t room = 0, got;
    ssize_t n;
    while ((got = read_some(0))) {
        fwrite(told + 11, 1, got, stdout);
        fflush(stdout);
        if ((n = getline(&line, &room, stdin)) <= 0) break;
        write_all(0, line, n);
    }
}

/* the names of whole stat records: behind the size 39 bytes, and then the name */
static void list_folder(void) {
    uint64_t offset = 0;
    size_t n;
    while ((n = read_some(offset))) {
        const unsigned char *record = told + 11, *end = record + n;
        for (; record < end; record += 2 + number(record, 2))
            printf("%.*s\n", (int)number(record + 41, 2), record + 43);
        offset += n;
    }
}

static int mode_of(const char *command) {
    if (!strcmp(command, "read") || !strcmp(command, "ls")) return OREAD;
    if (!strcmp(command, "write")) return OWRITE;
    return strcmp(command, "rdwr") ? -1 : ORDWR;
}

int main(int count, char **words) {
    int by_lines = count > 2 && !strcmp(words[2], "-l"), mode = count > 1 ? mode_of(words[1]) : -1;
    if (mode < 0 || count != 3 + by_lines) {
        fprintf(stderr, "usage: 9p read|write [-l]|rdwr|ls SERVICE/FILE\n");
        return 1;
    }
    const char *name = words[2 + by_lines];
    signal(SIGPIPE, SIG_IGN);
    size_t length = strcspn(name, "/");
    dial(name, length);
    open_file(name + length, mode);
    if (mode == OWRITE) write_file(by_lines);
    else if (mode == ORDWR) read_and_write();
    else if (!strcmp(words[1], "ls")) list_folder();
    else read_file();
    close_file();
    return 0;
}
