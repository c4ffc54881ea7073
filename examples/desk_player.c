/* desk_player TABLES RECORDING OUT.wav: a recording as sound, by the functions of include/drolkhise.h.
 *
 * A recording has a frame a line, 40 hexadecimal digits. A first line `+` says that its call was heard from the first frame on. A line that is no
 * frame stands for one that was lost. Lost and refused frames are silence, so that the rest keeps its time. tools/test_c has how it is compiled. */
#include <stdio.h>
#include <stdlib.h>
#include <string.h>

#include "drolkhise.h"

enum { RATE = 8000, HEADER = 44 };

static void fail(const char *what, const char *why) {
    fprintf(stderr, "desk_player: %s: %s\n", what, why);
    exit(1);
}

/* The next line without its newline, cut at 41 characters; -1 where there is none, else its length. */
static int next_line(FILE *in, char line[41]) {
    int n = 0, c;
    while ((c = getc(in)) != EOF && c != '\n')
        if (n < 41) line[n++] = (char)c;
    return c == EOF && n == 0 ? -1 : n;
}

static int digit(char c) {
    if (c >= '0' && c <= '9') return c - '0';
    if (c >= 'a' && c <= 'f') return c - 'a' + 10;
    if (c >= 'A' && c <= 'F') return c - 'A' + 10;
    return -1;
}

/* Whether a line is a frame, and its bytes. */
static int is_frame(const char *line, int n, uint8_t payload[DROLKHISE_PAYLOAD]) {
    if (n != 2 * DROLKHISE_PAYLOAD) return 0;
    for (int k = 0; k < DROLKHISE_PAYLOAD; k++) {
        int high = digit(line[2 * k]), low = digit(line[2 * k + 1]);
        if (high < 0 || low < 0) return 0;
        payload[k] = (uint8_t)(16 * high + low);
    }
    return 1;
}

static void put(uint8_t *at, uint32_t n, int bytes) {
    for (int k = 0; k < bytes; k++) at[k] = (uint8_t)(n >> (8 * k));
}

/* The head of a WAV file with so many bytes of samples: 16 bits, one channel. */
static void wav_header(uint8_t h[HEADER], uint32_t bytes) {
    memcpy(h, "RIFF....WAVEfmt ....................data....", HEADER);
    put(h + 4, HEADER - 8 + bytes, 4);
    put(h + 16, 16, 4);
    put(h + 20, 1, 2);
    put(h + 22, 1, 2);
    put(h + 24, RATE, 4);
    put(h + 28, 2 * RATE, 4);
    put(h + 32, 2, 2);
    put(h + 34, 16, 2);
    put(h + 40, bytes, 4);
}

int main(int argc, char **argv) {
    static uint8_t tables[DROLKHISE_TABLES + 1];
    uint8_t image[DROLKHISE_IMAGE], payload[DROLKHISE_PAYLOAD], samples[DROLKHISE_SAMPLES], header[HEADER];
    char line[41];
    if (argc != 4) return fprintf(stderr, "desk_player TABLES RECORDING OUT.wav\n"), 2;
    FILE *set = fopen(argv[1], "rb"), *in = fopen(argv[2], "rb"), *out;
    if (!set) fail(argv[1], "cannot be opened");
    if (!in) fail(argv[2], "cannot be opened");
    /* a byte more than a table file has tells one that is too long */
    size_t got = fread(tables, 1, sizeof tables, set);
    if (ferror(set)) fail(argv[1], "cannot be read");
    fclose(set);

    int n = next_line(in, line);
    int heard = n == 1 && line[0] == '+';
    uint8_t number = heard ? drolkhise_reset(tables, got, image, sizeof image) : drolkhise_cold_start(tables, got, image, sizeof image);
    if (number != DROLKHISE_ACCEPTED) fail(argv[1], drolkhise_refusal_text(number));
    unsigned long first = heard ? 2 : 1; /* the first frame's line */
    if (heard) n = next_line(in, line);

    if (!(out = fopen(argv[3], "wb"))) fail(argv[3], "cannot be opened");
    wav_header(header, 0);
    fwrite(header, 1, HEADER, out);
    uint32_t frames = 0, silent = 0, trusted = 0;
    for (; n >= 0; n = next_line(in, line), frames++) {
        uint8_t mark = image[DROLKHISE_MARK];
        if (frames == (UINT32_MAX - HEADER) / DROLKHISE_SAMPLES) fail(argv[2], "is longer than a WAV file can be");
        if (is_frame(line, n, payload)) {
            number = drolkhise_decode(tables, got, image, sizeof image, payload, sizeof payload, samples, sizeof samples);
            if (number != DROLKHISE_ACCEPTED) printf("line %lu: %s\n", (unsigned long)frames + first, drolkhise_refusal_text(number));
        } else {
            drolkhise_missed_frame(image, sizeof image);
            number = 9; /* this program's own: not 40 hexadecimal digits */
            printf("line %lu: no frame\n", (unsigned long)frames + first);
        }
        if (number != DROLKHISE_ACCEPTED) memset(samples, 0, sizeof samples);
        silent += number != DROLKHISE_ACCEPTED;
        trusted += number == DROLKHISE_ACCEPTED && mark == 2;
        fwrite(samples, 1, sizeof samples, out);
    }
    if (ferror(in)) fail(argv[2], "cannot be read");
    wav_header(header, frames * DROLKHISE_SAMPLES);
    if (fseek(out, 0, SEEK_SET) != 0) fail(argv[3], "cannot be written");
    fwrite(header, 1, HEADER, out);
    int bad = ferror(out);
    if (fclose(out) != 0 || bad) fail(argv[3], "cannot be written");
    printf("%lu frames, %lu with mark 2, %lu silent\n", (unsigned long)frames, (unsigned long)trusted, (unsigned long)silent);
    fclose(in);
    return 0;
}
