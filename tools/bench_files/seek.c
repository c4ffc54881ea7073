// seek TABLES RECORDING TURNS: seeks in a recording with sixteen saves spread over it, beside playing from its start, by the clock, the best of so many turns.
// seek TABLES RECORDING 1 COUNTS: the same by instructions, which count.c's plugin writes to the file COUNTS.
// A seek is to give the image that playing gave; else it stops.
#define _GNU_SOURCE
#include <fcntl.h>
#include <stdint.h>
#include <stdio.h>
#include <stdlib.h>
#include <string.h>
#include <time.h>
#include <unistd.h>

#include "drolkhise.h"

enum { SAVES = 16, DRAWN = 32, TARGETS = 2 * SAVES + DRAWN, MARK = 24242 };
// A save's own frame, the last frame before the next save, any frame.
enum { AT, LAST, ANY, KINDS };

struct line {
    size_t at;
    int is_frame;
    uint8_t payload[DROLKHISE_PAYLOAD];
};

struct target {
    uint32_t frame, save;
    int kind;
    // what playing takes from the target before to this one, by single calls and with 64 frames in a call, and what the seek takes
    double single, together, seek;
};

static uint8_t tables[DROLKHISE_TABLES], records[DROLKHISE_RECORDS], images[DROLKHISE_SHELF], *text;
static struct line *lines;
static uint32_t frames, saved[SAVES];
static size_t length, room;
static struct target targets[TARGETS];
static int counts = -1;

static void fail(const char *why) {
    fprintf(stderr, "seek: %s\n", why);
    exit(1);
}

// Seconds, or instructions.
static double now(void) {
    uint64_t n;
    struct timespec t;
    if (counts < 0) {
        clock_gettime(CLOCK_MONOTONIC, &t);
        return t.tv_sec + t.tv_nsec * 1e-9;
    }
    syscall(MARK);
    if (read(counts, &n, sizeof n) != sizeof n) fail("the emulator wrote no count");
    return (double)n;
}

static void read_text(const char *path) {
    FILE *in = fopen(path, "rb");
    size_t n;
    if (!in) fail("there is no such recording");
    do {
        if (length == room && !(text = realloc(text, room = 2 * room + (1 << 20)))) fail("no memory");
        length += n = fread(text + length, 1, room - length, in);
    } while (n);
    fclose(in);
}

static int digit(uint8_t c) { return c >= '0' && c <= '9' ? c - '0' : c >= 'a' && c <= 'f' ? c - 'a' + 10 : c >= 'A' && c <= 'F' ? c - 'A' + 10 : -1; }

// The recording's frames are its lines, a first `+` not counted; whether there is one.
static int read_lines(void) {
    int heard = length > 0 && text[0] == '+' && (length == 1 || text[1] == '\n');
    size_t most = 1;
    for (size_t k = 0; k < length; k++) most += text[k] == '\n';
    if (!(lines = calloc(most, sizeof *lines))) fail("no memory");
    for (size_t at = heard ? 2 : 0; at < length; frames++) {
        struct line *l = &lines[frames];
        size_t end = at;
        while (end < length && text[end] != '\n') end++;
        l->at = at;
        l->is_frame = end - at == 2 * DROLKHISE_PAYLOAD;
        for (size_t k = 0; l->is_frame && k < DROLKHISE_PAYLOAD; k++) {
            int high = digit(text[at + 2 * k]), low = digit(text[at + 2 * k + 1]);
            if (high < 0 || low < 0) l->is_frame = 0;
            l->payload[k] = (uint8_t)(16 * high + low);
        }
        at = end + 1;
    }
    return heard;
}

static void start(int heard, uint8_t *image) {
    if ((heard ? drolkhise_reset : drolkhise_cold_start)(tables, sizeof tables, image, DROLKHISE_IMAGE)) fail("the tables are refused");
}

// Plays frames from one to another by single calls; how many were refused and how many missed is added up.
static void play(uint8_t *image, uint32_t from, uint32_t to, unsigned seen[2]) {
    uint8_t samples[DROLKHISE_SAMPLES];
    for (uint32_t k = from; k < to; k++)
        if (!lines[k].is_frame) drolkhise_missed_frame(image, DROLKHISE_IMAGE), seen[1]++;
        else seen[0] += drolkhise_decode(tables, sizeof tables, image, DROLKHISE_IMAGE, lines[k].payload, DROLKHISE_PAYLOAD, samples, sizeof samples) != 0;
}

// The same with up to 64 frames in a call, cut at a missed one.
static void play_together(uint8_t *image, uint32_t from, uint32_t to) {
    enum { MOST = DROLKHISE_MOST_FRAMES };
    static uint8_t payloads[MOST * DROLKHISE_PAYLOAD], samples[MOST * DROLKHISE_SAMPLES], numbers[MOST];
    while (from < to) {
        size_t n = 0;
        for (; n < MOST && from < to && lines[from].is_frame; n++) memcpy(payloads + n * DROLKHISE_PAYLOAD, lines[from++].payload, DROLKHISE_PAYLOAD);
        if (!n) drolkhise_missed_frame(image, DROLKHISE_IMAGE), from++;
        else
            drolkhise_decode_frames(tables, sizeof tables, image, DROLKHISE_IMAGE, payloads, n * DROLKHISE_PAYLOAD, samples, n * DROLKHISE_SAMPLES, numbers, n);
    }
}

// Sixteen saves, spread evenly.
static void save_all(int heard) {
    uint8_t image[DROLKHISE_IMAGE], slot;
    unsigned seen[2] = {0, 0};
    start(heard, image);
    for (uint32_t s = 0; s < SAVES; s++) {
        saved[s] = (uint32_t)((uint64_t)frames * s / SAVES);
        play(image, s ? saved[s - 1] : 0, saved[s], seen);
        uint8_t number = drolkhise_shelf_save(records, sizeof records, images, sizeof images, image, sizeof image, saved[s], &slot, 1);
        if (number || slot != s) fail("a save is refused");
    }
    play(image, saved[SAVES - 1], frames, seen);
    printf("%u frames, %zu bytes, 16 saves, one every %u frames: ", frames, length, frames / SAVES);
    printf("%u accepted, %u refused, %u missed\n", frames - seen[0] - seen[1], seen[0], seen[1]);
}

static int by_frame(const void *a, const void *b) {
    const struct target *x = a, *y = b;
    return x->frame != y->frame ? (x->frame > y->frame) - (x->frame < y->frame) : x->kind - y->kind;
}

static void choose(void) {
    uint64_t drawn = 1;
    for (int t = 0; t < TARGETS; t++) {
        struct target *g = &targets[t];
        int s = t % SAVES;
        g->kind = t < SAVES ? AT : t < 2 * SAVES ? LAST : ANY;
        drawn = drawn * 6364136223846793005u + 1442695040888963407u;
        g->frame = g->kind == AT ? saved[s] : g->kind == ANY ? (uint32_t)(drawn >> 33) % frames : (s + 1 < SAVES ? saved[s + 1] : frames) - 1;
        for (s = 0; s < SAVES; s++)
            if (saved[s] <= g->frame) g->save = saved[s];
        g->single = g->together = g->seek = 1e300;
    }
    qsort(targets, TARGETS, sizeof *targets, by_frame);
}

static void lower(double *best, double value) {
    if (value < *best) *best = value;
}

// Plays on to each target in turn, both ways, and seeks it.
static void turn(int heard) {
    uint8_t single[DROLKHISE_IMAGE], together[DROLKHISE_IMAGE], sought[DROLKHISE_IMAGE];
    unsigned seen[2];
    uint32_t from = 0;
    start(heard, single);
    start(heard, together);
    for (int t = 0; t < TARGETS; t++) {
        struct target *g = &targets[t];
        double a = now();
        play(single, from, g->frame, seen);
        double b = now();
        play_together(together, from, g->frame);
        double c = now();
        uint8_t number =
            drolkhise_seek(tables, sizeof tables, records, sizeof records, images, sizeof images, text, length, g->frame, sought, sizeof sought);
        double d = now();
        if (number || memcmp(sought, single, sizeof sought) || memcmp(together, single, sizeof single)) fail("A SEEK'S IMAGE IS NOT THAT OF PLAYING");
        lower(&g->single, b - a);
        lower(&g->together, c - b);
        lower(&g->seek, d - c);
        from = g->frame;
    }
}

// A seek walks the text to its frame, to know that there is one, and again to its save's: what a byte takes, by the saves' own frames, where none is decoded.
static double a_byte(void) {
    const struct target *first = NULL, *last = NULL;
    for (int t = 0; t < TARGETS; t++)
        if (targets[t].kind == AT) first = first ? first : &targets[t], last = &targets[t];
    return (last->seek - first->seek) / (2.0 * (double)(lines[last->frame].at - lines[first->frame].at));
}

static double walk(const struct target *g, double byte) { return byte * (double)(lines[g->frame].at + lines[g->save].at); }

// By the clock a short one may be lost in what else moves a time.
static void tell_walk(double walked, double seek) {
    if (walked < 0) printf("; the walk over the text was not seen\n");
    else printf("; the walk over the text is %.1f %% of it\n", 100 * walked / seek);
}

static void tell_beside(double seek, double single, double together, double by) {
    printf(", playing from the start %.2f, ratio %.4f, with 64 frames in a call %.2f, ratio %.4f", single / by, seek / single, together / by, seek / together);
}

static void tell(void) {
    static const char *const names[KINDS] = {"a save's own frame", "the last frame before the next save", "any frame"};
    const char *unit = counts < 0 ? "ms" : "million instructions";
    double scale = counts < 0 ? 1e3 : 1e-6, byte = a_byte();
    // from here on what playing takes from the start
    for (int t = 1; t < TARGETS; t++) targets[t].single += targets[t - 1].single, targets[t].together += targets[t - 1].together;
    for (int k = 0; k < KINDS; k++) {
        const struct target *worst = NULL;
        double n = 0, seek = 0, single = 0, together = 0, walked = 0;
        for (int t = 0; t < TARGETS; t++) {
            const struct target *g = &targets[t];
            if (g->kind != k) continue;
            n++, seek += g->seek, single += g->single, together += g->together, walked += walk(g, byte);
            if (!worst || g->seek > worst->seek) worst = g;
        }
        printf("%s, %.0f seeks:\n", names[k], n);
        printf("    mean %.2f %s", seek / n * scale, unit);
        tell_beside(seek, single, together, n / scale);
        tell_walk(walked, seek);
        printf("    worst %.2f, frame %u", worst->seek * scale, worst->frame);
        tell_beside(worst->seek, worst->single, worst->together, 1 / scale);
        tell_walk(walk(worst, byte), worst->seek);
    }
    if (counts >= 0) printf("the walk takes %.2f instructions a byte\n", byte);
    printf("%d seeks, each image that of playing\n", TARGETS);
}

int main(int count, char **words) {
    if (count != 4 && count != 5) return fprintf(stderr, "seek TABLES RECORDING TURNS [COUNTS]\n"), 2;
    FILE *file = fopen(words[1], "rb");
    if (!file || fread(tables, 1, sizeof tables, file) != sizeof tables) fail("there is no table file");
    fclose(file);
    read_text(words[2]);
    int heard = read_lines();
    if (frames < 2 * SAVES) fail("a recording needs 32 lines at least");
    if (count == 5 && (counts = open(words[4], O_RDONLY)) < 0) fail("there is no file of counts");
    save_all(heard);
    choose();
    for (int k = atoi(words[3]); k > 0; k--) turn(heard);
    tell();
    return 0;
}
