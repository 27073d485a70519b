/* The same job as `waypipe replay` on scripts of raw messages, with ordinary means and no proof: what the proved
 * program is measured against. Reads a script from standard input and writes the report. No test of bad input
 * beyond what keeps it in its arrays: it is only run on scripts that are right. */
#include <stdint.h>
#include <stdio.h>
#include <stdlib.h>
#include <string.h>

struct bytes {
    uint8_t *at;
    size_t len, room;
};

static void append(struct bytes *to, const void *more, size_t n) {
    if (to->len + n > to->room) {
        to->room = to->len + n > 2 * to->room ? to->len + n : 2 * to->room;
        to->at = realloc(to->at, to->room);
        if (!to->at) exit(1);
    }
    memcpy(to->at + to->len, more, n);
    to->len += n;
}

static uint32_t word(const uint8_t *at) {
    return at[0] | at[1] << 8 | at[2] << 16 | (uint32_t)at[3] << 24;
}

static struct bytes wire;    /* what the application put, */
static size_t taken;         /* how much of it the near proxy took, */
static size_t framed;        /* and how much of that is in frames */
static struct bytes frames;  /* frames made, */
static size_t sent;          /* how much of them went over the link, */
static size_t read_to;       /* and how much of that was read as frames */
static struct bytes link_up; /* what arrived at the far proxy */
static struct bytes got;     /* the report's lines of received messages */
static size_t messages, received;
static int connected;

static void hex_line(struct bytes *out, const uint8_t *at, size_t n) {
    static const char digit[] = "0123456789abcdef";
    char text[64];
    append(out, "got compositor ", 15);
    for (size_t i = 0; i < n;) {
        size_t k = 0;
        for (; k < sizeof text && i < n; i++) {
            text[k++] = digit[at[i] >> 4];
            text[k++] = digit[at[i] & 15];
        }
        append(out, text, k);
    }
    append(out, "\n", 1);
}

static int take(size_t n) {
    size_t left = wire.len - taken, all = n < left ? n : left;
    taken += all;
    while (taken - framed >= 8) {
        size_t size = word(wire.at + framed + 4) >> 16;
        if (size < 8 || taken - framed < size) break;
        uint32_t head = (uint32_t)(size + 4) * 32;
        uint8_t first[4] = {head, head >> 8, head >> 16, head >> 24};
        append(&frames, first, 4);
        append(&frames, wire.at + framed, size);
        framed += size;
        messages++;
    }
    return all > 0;
}

static int up(size_t n) {
    if (!connected) return 0;
    size_t left = frames.len - sent, all = n < left ? n : left;
    append(&link_up, frames.at + sent, all);
    sent += all;
    while (link_up.len - read_to >= 4) {
        size_t size = word(link_up.at + read_to) / 32;
        if (link_up.len - read_to < size) break;
        for (size_t at = read_to + 4; at < read_to + size;) {
            size_t length = word(link_up.at + at + 4) >> 16;
            hex_line(&got, link_up.at + at, length);
            received++;
            at += length;
        }
        read_to += size;
    }
    return all > 0;
}

static int value(int c) { return c <= '9' ? c - '0' : c - 'a' + 10; }

int main(void) {
    struct bytes script = {0};
    size_t drain = 65536, n;
    static uint8_t piece[65536];
    while ((n = fread(piece, 1, sizeof piece, stdin)) > 0) append(&script, piece, n);
    append(&script, "\n", 1);
    for (size_t at = 0; at < script.len;) {
        char *line = (char *)script.at + at;
        size_t length = (uint8_t *)memchr(line, '\n', script.len - at) - (uint8_t *)line;
        line[length] = 0;
        if (!strncmp(line, "app hex ", 8)) {
            uint8_t out[65536];
            size_t k = 0;
            for (size_t i = 8; i + 1 < length; i += 2) out[k++] = value(line[i]) << 4 | value(line[i + 1]);
            append(&wire, out, k);
        } else if (!strncmp(line, "take app ", 9)) take(strtoul(line + 9, 0, 10));
        else if (!strncmp(line, "up ", 3)) up(strtoul(line + 3, 0, 10));
        else if (!strncmp(line, "drain ", 6)) drain = strtoul(line + 6, 0, 10);
        else if (!strcmp(line, "connect")) connected = 1;
        at += length + 1;
    }
    for (int changed = 1; changed;) {
        changed = take(drain);
        if (!connected && frames.len) connected = changed = 1;
        changed |= up(drain);
    }
    printf("connections %d\napplication sent %zu received 0\ncompositor sent 0 received %zu\n", connected, messages, received);
    fwrite(got.at, 1, got.len, stdout);
    puts("drained");
    return 0;
}
