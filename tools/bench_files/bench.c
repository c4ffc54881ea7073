// bench TABLES RECORDING TURNS: times both decoders on the recording's accepted frames, turn by turn.
// bench TABLES RECORDING ours|desk|rust: runs one of them once and prints the number of frames, for callgrind.
// bench TABLES RECORDING together 1|8|64: the same with so many frames in a call.
#include <stdint.h>
#include <stdio.h>
#include <stdlib.h>
#include <string.h>
#include <time.h>
#include <unistd.h>

enum { WORDS = 5963, BYTES = 3908, TABLES = 2 * WORDS + BYTES, IMAGE = 526 };

extern uint8_t bench_check(const int16_t *words, size_t word_count, const uint8_t *bytes, size_t byte_count);
extern uint8_t bench_run(const int16_t *words, size_t word_count, const uint8_t *bytes, size_t byte_count, const uint8_t *frames, size_t frame_bytes, int16_t *samples, size_t sample_count);
extern uint8_t drolkhise_reset(const uint8_t *tables, size_t table_bytes, uint8_t *image, size_t image_bytes);
extern uint8_t drolkhise_decode(const uint8_t *tables, size_t table_bytes, uint8_t *image, size_t image_bytes, const uint8_t *payload, size_t payload_bytes, uint8_t *samples, size_t sample_bytes);
extern uint8_t bench_frames(const int16_t *words, size_t word_count, const uint8_t *bytes, size_t byte_count, const uint8_t *frames, size_t frame_bytes, size_t size, size_t n, int16_t *samples, size_t sample_count, uint8_t *numbers, size_t number_count);
extern size_t rust_run(const uint8_t *frames, size_t count, int16_t *samples);

static int16_t words[WORDS];
static uint8_t bytes[BYTES];
static uint8_t tables[TABLES];

static double now(void) {
    struct timespec t;
    clock_gettime(CLOCK_MONOTONIC, &t);
    return t.tv_sec + t.tv_nsec * 1e-9;
}

static uint8_t ours(const uint8_t *frames, size_t count, int16_t *samples) {
    return bench_run(words, WORDS, bytes, BYTES, frames, 20 * count, samples, 320);
}

// The same frames by the desk player's calls, an image from call to call; the mark that the last one leaves.
static uint8_t desk(const uint8_t *frames, size_t count, int16_t *samples) {
    uint8_t image[IMAGE];
    drolkhise_reset(tables, TABLES, image, IMAGE);
    for (size_t k = 0; k < count; k++) drolkhise_decode(tables, TABLES, image, IMAGE, frames + 20 * k, 20, (uint8_t *)samples, 640);
    return image[IMAGE - 1];
}

enum { SIZES = 3 };
static const size_t in_a_call[SIZES] = {1, 8, 64};
static int16_t rooms[64 * 320];
static uint8_t numbers[64];

// So many frames in a call, of which the count is a multiple.
static void together(const uint8_t *frames, size_t count, size_t each) {
    bench_frames(words, WORDS, bytes, BYTES, frames, 20 * count, 20 * each, count / each, rooms, 320 * each, numbers, each);
}

__attribute__((noinline)) void counted_together(const uint8_t *frames, size_t count, size_t each) { together(frames, count, each); }

// What callgrind counts: nothing else calls these.
__attribute__((noinline)) void counted_ours(const uint8_t *frames, size_t count, int16_t *samples) { ours(frames, count, samples); }

__attribute__((noinline)) void counted_desk(const uint8_t *frames, size_t count, int16_t *samples) { desk(frames, count, samples); }

__attribute__((noinline)) void counted_rust(const uint8_t *frames, size_t count, int16_t *samples) { rust_run(frames, count, samples); }

static int digit(int c) {
    const char *digits = "0123456789abcdef";
    const char *at = c ? strchr(digits, c | 32) : NULL;
    return at ? (int)(at - digits) : -1;
}

// The frames of the recording that are accepted: from reset such a frame leaves mark 2, a refused one 0.
static size_t read_frames(FILE *in, uint8_t **frames) {
    size_t count = 0, room = 0;
    char line[4096];
    int16_t samples[320];
    while (fgets(line, sizeof line, in)) {
        uint8_t frame[20];
        if (strcspn(line, "\r\n") != 40) continue;
        int good = 1;
        for (int k = 0; k < 20; k++) {
            int high = digit(line[2 * k]), low = digit(line[2 * k + 1]);
            if (high < 0 || low < 0) good = 0;
            frame[k] = (uint8_t)(16 * high + low);
        }
        if (!good || ours(frame, 1, samples) != 2) continue;
        if (count == room) *frames = realloc(*frames, 20 * (room = 2 * room + 1024));
        memcpy(*frames + 20 * count++, frame, 20);
    }
    return count;
}

static void compare(const uint8_t *frames, size_t count, int turns) {
    int16_t samples[3][320];
    double best[4 + SIZES];
    unsigned refused = 0, differ = 0;
    count -= count % 64;
    for (int k = 0; k < 4 + SIZES; k++) best[k] = 1e9;
    for (int turn = 0; turn < turns; turn++) {
        double t[5 + SIZES];
        t[0] = now();
        rust_run(frames, count, samples[1]);
        t[1] = now();
        ours(frames, count, samples[0]);
        t[2] = now();
        for (size_t k = 0; k < count; k++) refused |= bench_check(words, WORDS, bytes, BYTES);
        t[3] = now();
        desk(frames, count, samples[2]);
        t[4] = now();
        for (int k = 0; k < SIZES; k++) {
            together(frames, count, in_a_call[k]);
            t[5 + k] = now();
            differ |= memcmp(rooms + 320 * (in_a_call[k] - 1), samples[0], sizeof samples[0]) != 0;
        }
        for (int k = 0; k < 4 + SIZES; k++)
            if (t[k + 1] - t[k] < best[k]) best[k] = t[k + 1] - t[k];
    }
    double each = 1e6 / (double)count;
    printf("%zu frames: Rust %.2f us a frame; whole call %.2f, ratio %.2f; table check alone %.2f; decoding alone %.2f, ratio %.2f%s%s\n", count, best[0] * each, best[1] * each, best[1] / best[0],
           best[2] * each, (best[1] - best[2]) * each, (best[1] - best[2]) / best[0], refused ? "; THE SET IS REFUSED" : "",
           memcmp(samples[0], samples[1], sizeof samples[0]) ? "; last frames differ" : "; last frames equal");
    printf("    the call from C, on an image: %.2f us a frame, %.3f of the call on states%s\n", best[3] * each, best[3] / best[1], memcmp(samples[0], samples[2], sizeof samples[0]) ? "; last frames differ" : "; last frames equal");
    for (int k = 0; k < SIZES; k++) printf("    %zu in a call: %.2f us a frame, ratio %.2f, of single calls %.2f\n", in_a_call[k], best[4 + k] * each, best[4 + k] / best[0], best[4 + k] / best[1]);
    if (differ) printf("    THE LAST FRAME OF SINGLE CALLS IS ANOTHER\n");
}

// A system call that there is not: the emulator's plugin (count.c) writes there how many instructions were run so far.
enum { MARK = 24242 };

int main(int argc, char **argv) {
    if (argc != 4 && argc != 5) return fprintf(stderr, "bench TABLES RECORDING TURNS|ours|desk|rust|together N\n"), 2;
    FILE *file = fopen(argv[1], "rb"), *recording = fopen(argv[2], "rb");
    if (!file || !recording || fread(tables, 1, TABLES, file) != TABLES) return fprintf(stderr, "bench: no table file or no recording\n"), 2;
    memcpy(words, tables, sizeof words);
    memcpy(bytes, tables + sizeof words, BYTES);
    uint8_t *frames = NULL;
    size_t count = read_frames(recording, &frames);
    int16_t samples[320];
    if (!strcmp(argv[3], "ours") || !strcmp(argv[3], "desk") || !strcmp(argv[3], "rust")) {
        syscall(MARK);
        if (argv[3][0] == 'o') counted_ours(frames, count, samples);
        else if (argv[3][0] == 'd') counted_desk(frames, count, samples);
        else counted_rust(frames, count, samples);
        syscall(MARK);
        printf("%zu\n", count);
        return 0;
    }
    for (int k = 0; k < SIZES; k++)
        if (argc == 5 && (size_t)atoi(argv[4]) == in_a_call[k]) {
            syscall(MARK);
            counted_together(frames, count - count % 64, in_a_call[k]);
            syscall(MARK);
            printf("%zu\n", count - count % 64);
            return 0;
        }
    for (int part = 4; part >= 1; part /= 2) compare(frames, count / part, atoi(argv[3]));
    return 0;
}
