/* The yardstick: what the program does for well-formed requests, in a few lines of C.
 *
 *     floor IMAGE
 *
 * One NBD client in the transmission phase, on standard input and output: READ, WRITE, FLUSH,
 * WRITE_ZEROES and DISC with simple replies: one pread or pwrite a READ or WRITE, one fdatasync a FLUSH,
 * and a pwrite of zeros for each MiB of a WRITE_ZEROES. Replies are gathered, and written when the input
 * is used up (before reading more), when the buffer is full, and at the end. Requests are taken as
 * well-formed: no magic, flag or range is checked. */
#include <endian.h>
#include <fcntl.h>
#include <stdint.h>
#include <stdlib.h>
#include <string.h>
#include <unistd.h>

enum { ROOM = 65536, HEAD = 28, REPLY = 16, READ = 0, WRITE = 1, FLUSH = 3, WRITE_ZEROES = 6,
       MIB = 1048576 };

static unsigned char inbox[ROOM];
static size_t inbox_start, inbox_end;

static unsigned char *outbox, *body;
static size_t outbox_room, outbox_held, body_room;

static void flush(void)
{
    size_t written = 0;
    while (written < outbox_held) {
        ssize_t count = write(1, outbox + written, outbox_held - written);
        if (count <= 0)
            exit(1);
        written += count;
    }
    outbox_held = 0;
}

/* Makes a buffer of `*room` bytes hold `count`. */
static unsigned char *grow(unsigned char *buffer, size_t *room, size_t count)
{
    if (count <= *room)
        return buffer;
    *room = count;
    buffer = realloc(buffer, count);
    if (!buffer)
        exit(1);
    return buffer;
}

static void reserve(size_t count)
{
    if (count > outbox_room - outbox_held)
        flush();
    outbox = grow(outbox, &outbox_room, count);
}

/* Takes `count` bytes of input. Ends the program at the input's end. */
static void take(unsigned char *into, size_t count)
{
    while (count > 0) {
        if (inbox_start == inbox_end) {
            flush();
            ssize_t got = read(0, inbox, ROOM);
            if (got <= 0)
                exit(got < 0);
            inbox_start = 0;
            inbox_end = got;
        }
        size_t waiting = inbox_end - inbox_start;
        size_t piece = count < waiting ? count : waiting;
        memcpy(into, inbox + inbox_start, piece);
        inbox_start += piece;
        into += piece;
        count -= piece;
    }
}

static void put_reply(uint64_t cookie_as_sent)
{
    uint32_t words[2] = {htobe32(0x67446698), 0};
    memcpy(outbox + outbox_held, words, 8);
    memcpy(outbox + outbox_held + 8, &cookie_as_sent, 8);
    outbox_held += REPLY;
}

static void serve_read(int image, uint64_t cookie, uint64_t offset, uint32_t length)
{
    reserve(REPLY + length);
    put_reply(cookie);
    if (pread(image, outbox + outbox_held, length, offset) != (ssize_t)length)
        exit(1);
    outbox_held += length;
}

static void serve_write(int image, uint64_t cookie, uint64_t offset, uint32_t length)
{
    body = grow(body, &body_room, length);
    take(body, length);
    if (pwrite(image, body, length, offset) != (ssize_t)length)
        exit(1);
    reserve(REPLY);
    put_reply(cookie);
}

static void serve_flush(int image, uint64_t cookie)
{
    if (fdatasync(image))
        exit(1);
    reserve(REPLY);
    put_reply(cookie);
}

static void serve_zeroes(int image, uint64_t cookie, uint64_t offset, uint64_t length)
{
    static unsigned char zeros[MIB];
    while (length > 0) {
        size_t piece = length < MIB ? length : MIB;
        if (pwrite(image, zeros, piece, offset) != (ssize_t)piece)
            exit(1);
        offset += piece;
        length -= piece;
    }
    reserve(REPLY);
    put_reply(cookie);
}

int main(int count, char **words)
{
    int image = count == 2 ? open(words[1], O_RDWR) : -1;
    if (image < 0)
        return 2;
    outbox = grow(NULL, &outbox_room, ROOM);
    for (;;) {
        unsigned char head[HEAD];
        uint16_t kind;
        uint32_t length;
        uint64_t cookie, offset;
        take(head, HEAD);
        memcpy(&kind, head + 6, 2);
        memcpy(&cookie, head + 8, 8);
        memcpy(&offset, head + 16, 8);
        memcpy(&length, head + 24, 4);
        if (be16toh(kind) == READ)
            serve_read(image, cookie, be64toh(offset), be32toh(length));
        else if (be16toh(kind) == WRITE)
            serve_write(image, cookie, be64toh(offset), be32toh(length));
        else if (be16toh(kind) == FLUSH)
            serve_flush(image, cookie);
        else if (be16toh(kind) == WRITE_ZEROES)
            serve_zeroes(image, cookie, be64toh(offset), be32toh(length));
        else
            break;
    }
    flush();
    return 0;
}
