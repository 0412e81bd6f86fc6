/* The load: one NBD client that keeps a server busy over two pipes for a while.
 *
 *     client WORK BYTES SHIFT IN_FLIGHT SECONDS MOST IMAGE_BYTES SERVER [WORD..]
 *
 * WORK is read, write, zero (a WRITE_ZEROES) or sync (a WRITE and, when it is answered, a FLUSH, which
 * count as one; IN_FLIGHT is 1 then). Starts SERVER, sends it requests of BYTES at random multiples of
 * BYTES and SHIFT behind them inside the image, at most IN_FLIGHT unanswered (at most 1,000, whose heads
 * fit a pipe), and checks the head of each reply. It ends after SECONDS, or when MOST were sent. A READ of
 * no bytes before the clock starts waits for the server to be up. Prints on one line how many were
 * answered, in how many seconds, and the processor seconds that the server and the client used. */
#include <endian.h>
#include <stdint.h>
#include <stdio.h>
#include <stdlib.h>
#include <string.h>
#include <sys/wait.h>
#include <time.h>
#include <unistd.h>

enum { ROOM = 65536, HEAD = 28, REPLY = 16, READ = 0, WRITE = 1, DISC = 2, FLUSH = 3,
       WRITE_ZEROES = 6 };

static uint16_t kind;
static int is_synced; /* a FLUSH follows each request */
static uint64_t bytes, shift, in_flight, places;

/* `in_flight` requests with their data. Request i stands at number i % in_flight. */
static unsigned char *requests;
static size_t request_bytes;

static uint64_t sent, answered; /* requests, from the READ of no bytes on */
static unsigned char reply_head[REPLY]; /* of the next reply */
static size_t reply_seen;               /* bytes of the next reply that came already */
static int to_server, from_server;

static void fail(const char *why)
{
    fprintf(stderr, "client: %s\n", why);
    exit(1);
}

static double seconds_of(clockid_t clock)
{
    struct timespec time;
    if (clock_gettime(clock, &time))
        fail("a clock can't be read");
    return time.tv_sec + time.tv_nsec / 1e9;
}

/* The clock of a process that runs: the processor time that it used. */
static clockid_t processor_clock(pid_t process)
{
    clockid_t clock;
    if (clock_getcpuclockid(process, &clock))
        fail("the server's processor time isn't told");
    return clock;
}

/* The next of a fixed sequence of numbers that look random (xorshift). */
static uint64_t next_random(void)
{
    static uint64_t state = 88172645463325252u;
    state ^= state << 13;
    state ^= state >> 7;
    state ^= state << 17;
    return state;
}

static void put_head(unsigned char *head, uint16_t head_kind, uint64_t cookie, uint64_t offset,
                     uint32_t length)
{
    uint32_t magic = htobe32(0x25609513);
    uint16_t flags = 0;
    head_kind = htobe16(head_kind);
    cookie = htobe64(cookie);
    offset = htobe64(offset);
    length = htobe32(length);
    memcpy(head, &magic, 4);
    memcpy(head + 4, &flags, 2);
    memcpy(head + 6, &head_kind, 2);
    memcpy(head + 8, &cookie, 8);
    memcpy(head + 16, &offset, 8);
    memcpy(head + 24, &length, 4);
}

static void write_all(const unsigned char *from, size_t count)
{
    while (count > 0) {
        ssize_t written = write(to_server, from, count);
        if (written <= 0)
            fail("the server takes no input");
        from += written;
        count -= written;
    }
}

static void send_head(uint16_t head_kind)
{
    unsigned char head[HEAD];
    put_head(head, head_kind, sent, 0, 0);
    write_all(head, HEAD);
    sent++;
}

/* Sends `count` more requests, those that stand side by side in one write. */
static void send_requests(uint64_t count)
{
    while (count > 0) {
        uint64_t first = sent % in_flight;
        uint64_t run = in_flight - first < count ? in_flight - first : count;
        for (uint64_t i = 0; i < run; i++)
            put_head(requests + (first + i) * request_bytes, kind, sent + i,
                     next_random() % places * bytes + shift, bytes);
        write_all(requests + first * request_bytes, run * request_bytes);
        sent += run;
        count -= run;
    }
}

static void check_reply(void)
{
    uint32_t words[2];
    uint64_t cookie;
    memcpy(words, reply_head, 8);
    memcpy(&cookie, reply_head + 8, 8);
    if (be32toh(words[0]) != 0x67446698 || words[1] != 0 || be64toh(cookie) != answered)
        fail("a reply isn't the one that was due");
}

/* Takes bytes of the next reply, up to its end, and answers how many. Data are passed over. */
static size_t pass_reply(const unsigned char *bytes_came, size_t count)
{
    size_t reply_bytes = REPLY + (kind == READ && answered > 0 ? bytes : 0);
    int in_head = reply_seen < REPLY;
    size_t missing = (in_head ? REPLY : reply_bytes) - reply_seen;
    size_t piece = count < missing ? count : missing;
    if (in_head)
        memcpy(reply_head + reply_seen, bytes_came, piece);
    reply_seen += piece;
    if (in_head && reply_seen == REPLY)
        check_reply();
    if (reply_seen == reply_bytes) {
        answered++;
        reply_seen = 0;
    }
    return piece;
}

/* Reads once: what came of the replies that are due. */
static void receive(void)
{
    static unsigned char inbox[ROOM];
    ssize_t got = read(from_server, inbox, ROOM);
    if (got <= 0)
        fail("the server gives no replies");
    for (ssize_t passed = 0; passed < got;)
        passed += pass_reply(inbox + passed, got - passed);
}

static void receive_all(void)
{
    while (answered < sent)
        receive();
}

static pid_t start_server(char **words)
{
    int input[2], output[2];
    if (pipe(input) || pipe(output))
        fail("no pipe");
    pid_t server = fork();
    if (server < 0)
        fail("no process");
    if (server == 0) {
        dup2(input[0], 0);
        dup2(output[1], 1);
        close(input[0]), close(input[1]), close(output[0]), close(output[1]);
        execv(words[0], words);
        fail("the server can't be started");
    }
    close(input[0]), close(output[1]);
    to_server = input[1];
    from_server = output[0];
    return server;
}

static void end_server(pid_t server)
{
    int status;
    send_head(DISC);
    if (waitpid(server, &status, 0) != server || status != 0)
        fail("the server didn't end with status 0");
}

static void make_buffers(void)
{
    request_bytes = HEAD + (kind == WRITE ? bytes : 0);
    requests = malloc(in_flight * request_bytes);
    if (!requests)
        fail("no memory");
    for (size_t i = 0; i < in_flight * request_bytes; i++)
        requests[i] = next_random();
}

static void read_words(char **words)
{
    const char *work = words[1];
    is_synced = strcmp(work, "sync") == 0;
    if (strcmp(work, "read") == 0)
        kind = READ;
    else if (strcmp(work, "write") == 0 || is_synced)
        kind = WRITE;
    else if (strcmp(work, "zero") == 0)
        kind = WRITE_ZEROES;
    else
        fail("the work is read, write, zero or sync");
    bytes = strtoull(words[2], NULL, 10);
    shift = strtoull(words[3], NULL, 10);
    in_flight = is_synced ? 1 : strtoull(words[4], NULL, 10);
    places = (strtoull(words[7], NULL, 10) - shift) / bytes;
    if (places == 0 || in_flight == 0)
        fail("no request fits");
}

/* Keeps `in_flight` requests unanswered while the clock runs, `most` in all; how many were answered. */
static uint64_t keep_busy(double seconds, uint64_t most)
{
    double start = seconds_of(CLOCK_MONOTONIC);
    uint64_t made = 0, before = answered;
    while (made < most && (made == 0 || seconds_of(CLOCK_MONOTONIC) - start < seconds)) {
        uint64_t room = in_flight - (sent - answered);
        uint64_t count = room < most - made ? room : most - made;
        send_requests(count);
        made += count;
        receive();
        if (is_synced) {
            receive_all();
            send_head(FLUSH);
            receive_all();
        }
    }
    receive_all();
    return (answered - before) / (is_synced ? 2 : 1);
}

int main(int count, char **words)
{
    if (count < 9)
        fail("the words are WORK BYTES SHIFT IN_FLIGHT SECONDS MOST IMAGE_BYTES SERVER [WORD..]");
    read_words(words);
    make_buffers();
    pid_t server = start_server(words + 8);
    send_head(READ);
    receive_all();

    clockid_t clocks[3] = {CLOCK_MONOTONIC, processor_clock(server), CLOCK_PROCESS_CPUTIME_ID};
    double before[3], used[3];
    for (int i = 0; i < 3; i++)
        before[i] = seconds_of(clocks[i]);
    uint64_t made = keep_busy(strtod(words[5], NULL), strtoull(words[6], NULL, 10));
    for (int i = 0; i < 3; i++)
        used[i] = seconds_of(clocks[i]) - before[i];

    end_server(server);
    printf("%llu %.6f %.6f %.6f\n", (unsigned long long)made, used[0], used[1], used[2]);
    return 0;
}
