// The functions of include/drolkhise.h, called from C. tools/test_c builds this and runs it:
//
//     test_c text TABLES RECORDING                        decode's text of a recording, made by the functions for single frames
//     test_c batches TABLES RECORDING                     the recording in every batch of 1 to 64 frames beside its single frames; frames refused in every place
//     test_c lengths TABLES RECORDING                     every function with every length of every buffer
//     test_c order TABLES RECORDING                       every fault of a buffer beside every fault of the others
//     test_c images TABLES RECORDING                      an image damaged one byte at a time
//     test_c calls SEED COUNT TABLES RECORDING [..]       so many random calls, over one table set or several
//     test_c fields SEED COUNT TABLES RECORDING           table check, unpacker and packer: lengths, orders, and so many random tables, frames and fields
//     test_c threads TABLES RECORDING                     four threads at once, and the peak of their stacks
//
// With -r before these but `fields`, each call goes to standard output with all that it was lent and all that it left, for `oracle calls`; the rest is said on
// standard error. Of the recording all but `text` need frames that are accepted, `order` one that is refused with 7.
// What several frames in one call are answered with, and leave, is compared with their single calls, each time that they are called.
//
// Each buffer lies against a page that may not be touched, behind it or before it by turns, and on its other side are guard bytes.
#define _DEFAULT_SOURCE
#include <math.h>
#include <pthread.h>
#include <signal.h>
#include <stdarg.h>
#include <stdio.h>
#include <stdlib.h>
#include <string.h>
#include <sys/mman.h>
#include <unistd.h>

#include "drolkhise.h"

enum { RESET, COLD_START, DECODE, MISSED_FRAME, DECODE_FRAMES, FUNCTIONS };
enum { TABLES, IMAGE, PAYLOAD, SAMPLES, NUMBERS, BUFFERS };
enum { MOST = DROLKHISE_MOST_FRAMES };
enum { GUARD = 0xa5, PAGE = 4096, FLOATS = 388, MOST_SETS = 16 };

static const char *const functions[] = {"reset", "cold start", "decode", "missed frame", "decode frames"};
// of one frame
static const size_t right[BUFFERS] = {DROLKHISE_TABLES, DROLKHISE_IMAGE, DROLKHISE_PAYLOAD, DROLKHISE_SAMPLES, 1};
// the number that another length is refused with
static const uint8_t wrong[BUFFERS] = {1, 11, 3, 2, 2};
// which buffers a function is lent
static const unsigned lent[] = {1 << TABLES | 1 << IMAGE, 1 << TABLES | 1 << IMAGE, 15, 1 << IMAGE, 31};
// which numbers it may answer: reset and cold start look at no byte of the image, a missed frame is lent no tables
static const unsigned tried[] = {1 << 11 | 1 << 1 | 1 << 4, 1 << 11 | 1 << 1 | 1 << 4, 1 << 11 | 254, 1 << 11 | 1 << 5, 1 << 11 | 62};
// the numbers in the order in which they are tried, for a frame and for several
static const uint8_t order[2][8] = {{11, 1, 2, 3, 4, 5, 6, 7}, {11, 1, 3, 2, 4, 5}};

static FILE *records;
static unsigned long made;

static void fail(const char *format, ...) {
    va_list words;
    va_start(words, format);
    fprintf(stderr, "test_c: FAILED: ");
    vfprintf(stderr, format, words);
    fprintf(stderr, "\n");
    va_end(words);
    exit(1);
}

static void said(const char *what) { fprintf(records ? stderr : stdout, "%s: %lu calls: ok\n", what, made); }

// ---- table sets and recordings

// A byte or two more than the right length may be lent.
static uint8_t sets[MOST_SETS][DROLKHISE_TABLES + 2];

// A line of a recording: a frame, or none.
struct line {
    int is_frame;
    uint8_t payload[DROLKHISE_PAYLOAD];
};

struct recording {
    int heard;
    size_t count;
    struct line *lines;
} recordings[MOST_SETS];

static void read_set(const char *path, int set) {
    FILE *in = fopen(path, "rb");
    if (!in || fread(sets[set], 1, DROLKHISE_TABLES, in) != DROLKHISE_TABLES || getc(in) != EOF) fail("%s is no table file", path);
    fclose(in);
}

static void read_recording(const char *path, struct recording *r) {
    FILE *in = fopen(path, "rb");
    if (!in) fail("there is no recording %s", path);
    size_t room = 0;
    for (int first = 1, c = 0; c != EOF; first = 0) {
        char text[42];
        size_t n = 0;
        while ((c = getc(in)) != EOF && c != '\n')
            if (n < 41) text[n++] = (char)c;
        text[n] = 0;
        if (c == EOF && n == 0) break;
        if (first && n == 1 && text[0] == '+') {
            r->heard = 1;
            continue;
        }
        if (r->count == room) r->lines = realloc(r->lines, (room = 2 * room + 64) * sizeof *r->lines);
        struct line *line = &r->lines[r->count++];
        memset(line, 0, sizeof *line);
        // strspn stops at a byte 0, as at any other that is no digit
        line->is_frame = n == 40 && strspn(text, "0123456789abcdefABCDEF") == 40;
        for (int k = 0; line->is_frame && k < DROLKHISE_PAYLOAD; k++) {
            char pair[3] = {text[2 * k], text[2 * k + 1], 0};
            line->payload[k] = (uint8_t)strtoul(pair, NULL, 16);
        }
    }
    fclose(in);
}

// ---- a call

struct call {
    int which, set, null;     // null: a buffer of length 0 is lent as a null pointer
    size_t spoilt_at;         // this byte of the tables is changed by spoilt
    uint8_t spoilt, fill;     // fill: what the rooms for samples and numbers hold before
    size_t length[BUFFERS];
    uint8_t image[2 * PAGE], payload[PAGE], samples[11 * PAGE], numbers[PAGE];
};

// The bytes between two pages that may not be touched.
static struct {
    uint8_t *from;
    size_t size;
} room[BUFFERS] = {{NULL, 5 * PAGE}, {NULL, PAGE}, {NULL, PAGE}, {NULL, 11 * PAGE}, {NULL, PAGE}};

static uint8_t guards[11 * PAGE];

// Counts the calls; of each two the second has every buffer on the side on which the first has it not.
static unsigned turn;

static void touched(int signal_number) {
    static const char text[] = "test_c: FAILED: a page beside a buffer was touched\n";
    (void)signal_number;
    _exit(write(2, text, sizeof text - 1) < 0 ? 2 : 1);
}

static void make_rooms(void) {
    signal(SIGSEGV, touched);
    memset(guards, GUARD, sizeof guards);
    for (int b = 0; b < BUFFERS; b++) {
        uint8_t *all = mmap(NULL, room[b].size + 2 * PAGE, PROT_NONE, MAP_PRIVATE | MAP_ANONYMOUS, -1, 0);
        room[b].from = all + PAGE;
        if (all == MAP_FAILED || mprotect(room[b].from, room[b].size, PROT_READ | PROT_WRITE)) fail("no memory");
    }
}

static void put_number(uint8_t *at, size_t n) {
    for (int k = 0; k < 4; k++) at[k] = (uint8_t)(n >> (8 * k));
}

static void write_all(const uint8_t *bytes, size_t n) {
    if (fwrite(bytes, 1, n, records) != n) fail("a call cannot be written");
}

// What a call was lent and what it left.
static void record(const struct call *c, uint8_t number, const uint8_t *image_before) {
    uint8_t head[29] = {(uint8_t)c->which, (uint8_t)c->set, number, c->fill, c->spoilt};
    put_number(head + 5, c->spoilt_at);
    for (int b = 0; b < BUFFERS; b++) put_number(head + 9 + 4 * b, c->length[b]);
    write_all(head, sizeof head);
    write_all(image_before, c->length[IMAGE]);
    write_all(c->payload, c->length[PAYLOAD]);
    write_all(c->image, c->length[IMAGE]);
    write_all(c->samples, c->length[SAMPLES]);
    write_all(c->numbers, c->length[NUMBERS]);
}

// The image that a call may leave, by its number, of which the header speaks; one that is accepted may leave others too.
static int image_right(const struct call *c, uint8_t number, const uint8_t *before, const uint8_t *after) {
    uint8_t wanted[PAGE];
    memcpy(wanted, before, c->length[IMAGE]);
    if (number == DROLKHISE_IMAGE_LENGTH) return memcmp(wanted, after, c->length[IMAGE]) == 0;
    if (c->which == RESET || c->which == COLD_START) {
        memset(wanted, 0, DROLKHISE_IMAGE);
        if (number == 0) return after[DROLKHISE_MARK] == (c->which == RESET ? 2 : 0) && after[DROLKHISE_SURE] == after[DROLKHISE_MARK] && memcmp(wanted, after, DROLKHISE_IMAGE) != 0;
    } else if (c->which == DECODE_FRAMES && number == 0) {
        return 1; // as_single looks at it
    } else if (c->which == DECODE && number == 0) {
        return after[DROLKHISE_MARK] == (before[DROLKHISE_MARK] < 2 ? before[DROLKHISE_MARK] + 1 : 2);
    } else {
        wanted[DROLKHISE_MARK] = wanted[DROLKHISE_SURE] = 0;
    }
    return memcmp(wanted, after, DROLKHISE_IMAGE) == 0;
}

// Frames in one call left what their single calls leave, one after the other, each with its part of the room as it was.
static void as_single(const struct call *c, const uint8_t *tables, uint8_t *const *at) {
    static uint8_t image[DROLKHISE_IMAGE], samples[DROLKHISE_SAMPLES];
    memcpy(image, c->image, sizeof image);
    for (size_t k = 0; k < c->length[NUMBERS]; k++) {
        memset(samples, c->fill, sizeof samples);
        uint8_t number = drolkhise_decode(tables, DROLKHISE_TABLES, image, sizeof image, c->payload + k * DROLKHISE_PAYLOAD, DROLKHISE_PAYLOAD, samples, sizeof samples);
        if (at[NUMBERS][k] != number) fail("frame %zu of %zu: its own call %d, together %d", k, c->length[NUMBERS], number, at[NUMBERS][k]);
        if (memcmp(at[SAMPLES] + k * DROLKHISE_SAMPLES, samples, sizeof samples)) fail("frame %zu of %zu has other samples", k, c->length[NUMBERS]);
    }
    if (memcmp(at[IMAGE], image, sizeof image)) fail("%zu frames left another image than their single calls", c->length[NUMBERS]);
}

// Makes the call, looks at all that it may not have touched, and keeps what it left.
static uint8_t make(struct call *c) {
    static uint8_t tables[DROLKHISE_TABLES + 2];
    unsigned sides = turn & 1 ? ~(turn >> 1) : turn >> 1;
    uint8_t *at[BUFFERS];
    memcpy(tables, sets[c->set], sizeof tables);
    if (c->spoilt_at < c->length[TABLES]) tables[c->spoilt_at] ^= c->spoilt;
    memset(c->samples, c->fill, c->length[SAMPLES]);
    memset(c->numbers, c->fill, c->length[NUMBERS]);
    const uint8_t *before[BUFFERS] = {tables, c->image, c->payload, c->samples, c->numbers};
    for (int b = 0; b < BUFFERS; b++) {
        memset(room[b].from, GUARD, room[b].size);
        at[b] = room[b].from + (sides >> b & 1 ? 0 : room[b].size - c->length[b]);
        memcpy(at[b], before[b], c->length[b]);
    }
    turn++;
    uint8_t *l[BUFFERS];
    for (int b = 0; b < BUFFERS; b++) l[b] = c->null && c->length[b] == 0 ? NULL : at[b];
    uint8_t number = 255;
    switch (c->which) {
    case RESET: number = drolkhise_reset(l[TABLES], c->length[TABLES], l[IMAGE], c->length[IMAGE]); break;
    case COLD_START: number = drolkhise_cold_start(l[TABLES], c->length[TABLES], l[IMAGE], c->length[IMAGE]); break;
    case DECODE:
        number = drolkhise_decode(l[TABLES], c->length[TABLES], l[IMAGE], c->length[IMAGE], l[PAYLOAD], c->length[PAYLOAD], l[SAMPLES], c->length[SAMPLES]);
        break;
    case MISSED_FRAME: number = drolkhise_missed_frame(l[IMAGE], c->length[IMAGE]); break;
    case DECODE_FRAMES:
        number = drolkhise_decode_frames(l[TABLES], c->length[TABLES], l[IMAGE], c->length[IMAGE], l[PAYLOAD], c->length[PAYLOAD], l[SAMPLES], c->length[SAMPLES],
                                         l[NUMBERS], c->length[NUMBERS]);
        break;
    }
    made++;
    const char *name = functions[c->which];
    for (int b = 0; b < BUFFERS; b++) {
        size_t front = (size_t)(at[b] - room[b].from), end = front + c->length[b];
        if (memcmp(room[b].from, guards, front) || memcmp(room[b].from + end, guards, room[b].size - end)) fail("%s wrote beside buffer %d", name, b);
    }
    if (memcmp(at[TABLES], tables, c->length[TABLES])) fail("%s wrote into the tables", name);
    if (memcmp(at[PAYLOAD], c->payload, c->length[PAYLOAD])) fail("%s wrote into the payload", name);
    int writes = c->which == DECODE || c->which == DECODE_FRAMES;
    if (!(writes && number == 0) && memcmp(at[SAMPLES], c->samples, c->length[SAMPLES])) fail("%s, answered %d, wrote samples", name, number);
    if (!(c->which == DECODE_FRAMES && number == 0) && memcmp(at[NUMBERS], c->numbers, c->length[NUMBERS])) fail("%s, answered %d, wrote numbers", name, number);
    if (c->which == DECODE_FRAMES && number == 0) as_single(c, tables, at);
    if (!image_right(c, number, c->image, at[IMAGE])) fail("%s, answered %d, left an image that it may not leave", name, number);
    uint8_t old[PAGE];
    memcpy(old, c->image, c->length[IMAGE]);
    memcpy(c->image, at[IMAGE], c->length[IMAGE]);
    memcpy(c->samples, at[SAMPLES], c->length[SAMPLES]);
    memcpy(c->numbers, at[NUMBERS], c->length[NUMBERS]);
    if (records) record(c, number, old);
    return number;
}

static void right_lengths(struct call *c) {
    memcpy(c->length, right, sizeof right);
    c->spoilt = 0;
}

static void set_frames(struct call *c, size_t n) {
    c->which = DECODE_FRAMES;
    for (int b = PAYLOAD; b < BUFFERS; b++) c->length[b] = n * right[b];
}

// The call must be answered so, with each buffer against the page behind it and against the one before it, and leave the same both times.
static void expect(const struct call *c, uint8_t number, const char *what) {
    static struct call once, again;
    once = again = *c;
    turn += turn & 1;
    again.fill = (uint8_t)~c->fill;
    uint8_t first = make(&once), second = make(&again);
    const size_t *n = c->length;
    if (first != number || second != number)
        fail("%s, %s with lengths %zu %zu %zu %zu %zu: answered %d and %d, not %d", what, functions[c->which], n[0], n[1], n[2], n[3], n[4], first, second, number);
    if (memcmp(once.image, again.image, n[IMAGE])) fail("%s: two equal calls left two images", what);
    if (number == 0 && c->which == DECODE && memcmp(once.samples, again.samples, n[SAMPLES])) fail("%s: of one frame two sounds", what);
}

// The first in the order of those numbers that a function may answer.
static uint8_t first_of(int which, unsigned faults) {
    for (size_t k = 0; k < sizeof order[0]; k++) {
        uint8_t number = order[which == DECODE_FRAMES][k];
        if (number && faults >> number & 1) return number;
    }
    return 0;
}

// ---- a call of the demo, so far

// An image from the middle of a call, and the frame that comes next, again and again up to 70 times; `seven` is one that is refused with 7.
static struct call middle;
static uint8_t seven[DROLKHISE_PAYLOAD];
static int has_seven;

static void play_to_middle(void) {
    const struct recording *r = &recordings[0];
    int accepted = 0;
    middle.which = RESET;
    right_lengths(&middle);
    middle.fill = 0x3c;
    if (make(&middle) != 0) fail("the table set is refused");
    middle.which = DECODE;
    for (size_t k = 0; k < r->count; k++) {
        static struct call next;
        if (!r->lines[k].is_frame) continue;
        next = middle;
        memcpy(next.payload, r->lines[k].payload, DROLKHISE_PAYLOAD);
        uint8_t number = make(&next);
        if (number == 7) memcpy(seven, next.payload, sizeof seven), has_seven = 1;
        if (number != 0 || accepted > 20) continue;
        memcpy(middle.payload, next.payload, DROLKHISE_PAYLOAD);
        if (++accepted <= 20) middle = next;
    }
    if (accepted < 20) fail("the recording has too few frames that are accepted");
    for (int k = 1; k < 70; k++) memcpy(middle.payload + k * DROLKHISE_PAYLOAD, middle.payload, DROLKHISE_PAYLOAD);
}

// ---- the modes

static void text(void) {
    static struct call c;
    const struct recording *r = &recordings[0];
    c.which = r->heard ? RESET : COLD_START;
    right_lengths(&c);
    uint8_t number = make(&c);
    if (number != 0) fail("%s", drolkhise_refusal_text(number));
    for (size_t k = 0; k < r->count; k++) {
        uint8_t mark = c.image[DROLKHISE_MARK];
        c.which = r->lines[k].is_frame ? DECODE : MISSED_FRAME;
        memcpy(c.payload, r->lines[k].payload, DROLKHISE_PAYLOAD);
        number = make(&c);
        if (c.which == MISSED_FRAME) number = 9;
        if (number != 0) {
            printf("refused %d\n", number);
            continue;
        }
        printf("%d ", mark);
        for (int s = 0; s < DROLKHISE_SAMPLES; s += 2) printf("%02x%02x", c.samples[s + 1], c.samples[s]);
        printf("\n");
    }
}

// Every length of one buffer, the others right; and with length 0 a null pointer too.
static void lengths(void) {
    static const size_t most[BUFFERS] = {DROLKHISE_TABLES + 2, 1100, 100, 1400};
    static struct call c;
    for (int which = RESET; which <= MISSED_FRAME; which++)
        for (int b = 0; b < BUFFERS; b++)
            for (size_t n = 0; n <= most[b]; n++) {
                if (!(lent[which] >> b & 1)) continue;
                c = middle;
                c.which = which;
                c.length[b] = n;
                expect(&c, n == right[b] ? 0 : wrong[b], "a length");
                c.null = 1;
                if (n == 0) expect(&c, wrong[b], "a null pointer");
            }
    // of several frames: payloads that are those of another number of frames make a wrong room, all others 3
    static const size_t counts[] = {1, 2, MOST};
    for (int k = 0; k < 3; k++)
        for (int b = 0; b < BUFFERS; b++) {
            size_t here = counts[k] * right[b], top = b < PAYLOAD ? most[b] : b == PAYLOAD ? 1400 : here + right[b] + 60;
            for (size_t n = 0; n <= top; n++) {
                if (b < PAYLOAD && k != 1) continue;
                c = middle;
                set_frames(&c, counts[k]);
                c.length[b] = n;
                int others = b == PAYLOAD && n % DROLKHISE_PAYLOAD == 0 && n > 0 && n <= MOST * DROLKHISE_PAYLOAD;
                expect(&c, n == (b < PAYLOAD ? right[b] : here) ? 0 : others ? 2 : wrong[b], "a length");
                c.null = 1;
                if (n == 0) expect(&c, wrong[b], "a null pointer");
            }
        }
    said("every length of every buffer of every function");
}

// Every fault of a buffer beside every fault of the others: 0, one short and one long, and what its bytes may have.
static void every_fault(void) {
    // the variants of a buffer: three lengths, then its bytes' faults, then none
    static const uint8_t bytes[BUFFERS][4] = {{4, 4, 0}, {5, 5, 0}, {6, 6, 7, 0}, {0}, {0}};
    static const int variants[BUFFERS] = {6, 6, 7, 4, 4};
    static struct call c;
    if (!has_seven) fail("the recording has no frame that is refused with 7");
    for (int which = RESET; which < FUNCTIONS; which++)
        for (int v = 0; v < 6 * 6 * 7 * 4 * 4; v++) {
            int variant[BUFFERS] = {v % 6, v / 6 % 6, v / 36 % 7, v / 252 % 4, v / 1008};
            unsigned faults = 0;
            int taken = 1;
            c = middle;
            c.which = which;
            if (which == DECODE_FRAMES) set_frames(&c, 2);
            for (int b = 0; b < BUFFERS; b++) {
                int k = variant[b];
                if (!(lent[which] >> b & 1)) {
                    taken &= k == variants[b] - 1;
                    continue;
                }
                if (k < 3) c.length[b] = k == 0 ? 0 : k == 1 ? c.length[b] - 1 : c.length[b] + 1;
                faults |= 1u << (k < 3 ? wrong[b] : bytes[b][k - 3]);
            }
            if (!taken) continue;
            // base 0 is not 0; the last float's highest exponent bits are set
            if (variant[TABLES] == 3) c.spoilt_at = 2 * 187, c.spoilt = 1;
            if (variant[TABLES] == 4) c.spoilt_at = DROLKHISE_TABLES - 1, c.spoilt = 0x7f & ~sets[0][DROLKHISE_TABLES - 1];
            if (variant[IMAGE] == 3) c.image[DROLKHISE_MARK] = 3;
            if (variant[IMAGE] == 4) memset(c.image + FLOATS, 0xff, 4);
            if (variant[PAYLOAD] == 3) c.payload[19] |= 0x40;
            if (variant[PAYLOAD] == 4) memcpy(c.payload, seven, sizeof seven), c.payload[19] |= 0x80;
            if (variant[PAYLOAD] == 5) memcpy(c.payload, seven, sizeof seven);
            expect(&c, first_of(which, faults & tried[which]), "faults together");
            c.null = 1;
            expect(&c, first_of(which, faults & tried[which]), "faults together, null pointers");
        }
    said("faults together");
}

// Document 01's state rule, with T-14's number.
static int obeys(const uint8_t *image) {
    for (size_t at = FLOATS; at < DROLKHISE_MARK; at += 4) {
        uint32_t bits = (uint32_t)image[at] | (uint32_t)image[at + 1] << 8 | (uint32_t)image[at + 2] << 16 | (uint32_t)image[at + 3] << 24;
        float x;
        memcpy(&x, &bits, sizeof x);
        if (!(fabsf(x) <= 131072)) return 0;
    }
    return image[DROLKHISE_MARK] <= 2 && image[DROLKHISE_SURE] <= 2;
}

// Floats and the last two bytes with every value of each byte, the whole numbers with each bit of each byte.
static void images(void) {
    static struct call c;
    unsigned long broken = 0;
    for (size_t at = 0; at < DROLKHISE_IMAGE; at++)
        for (int v = 1; v < 256; v++) {
            if (at < FLOATS && (v & (v - 1))) continue;
            c = middle;
            c.image[at] ^= (uint8_t)v;
            int whole = obeys(c.image);
            broken += !whole;
            expect(&c, whole ? 0 : 5, "a damaged image");
            c.payload[19] |= 0x80;
            expect(&c, whole ? 6 : 5, "a damaged image and a padding bit");
            set_frames(&c, 2);
            expect(&c, whole ? 0 : 5, "a damaged image and two frames");
            right_lengths(&c);
            c.which = MISSED_FRAME;
            expect(&c, whole ? 0 : 5, "a damaged image");
        }
    if (broken == 0) fail("no image was broken");
    fprintf(records ? stderr : stdout, "%lu images break the state rule; ", broken);
    said("images damaged one byte at a time");
}

// The recording in every batch size, beside its single frames: each line's number and samples, and the image at the end. Between two missed frames a batch is
// cut short. Then 64 frames, some of which are refused.
static void batches(void) {
    static struct call c;
    const struct recording *r = &recordings[0];
    uint8_t *numbers = malloc(r->count), *samples = malloc(r->count * DROLKHISE_SAMPLES), image[DROLKHISE_IMAGE];
    unsigned long first = 0, last = 0, row = 0;
    if (!numbers || !samples) fail("no memory");
    for (size_t size = 0; size <= MOST; size++) {
        memset(&c, 0, sizeof c);
        right_lengths(&c);
        c.which = r->heard ? RESET : COLD_START;
        c.fill = 0x3c;
        make(&c);
        for (size_t at = 0, n; at < r->count; at += n) {
            for (n = 0; n < (size ? size : 1) && at + n < r->count && r->lines[at + n].is_frame; n++) memcpy(c.payload + n * DROLKHISE_PAYLOAD, r->lines[at + n].payload, DROLKHISE_PAYLOAD);
            right_lengths(&c);
            if (n == 0) {
                c.which = MISSED_FRAME, n = 1;
                if (make(&c) != 0) fail("a missed frame is refused");
                continue;
            }
            if (size == 0) {
                c.which = DECODE;
                numbers[at] = make(&c);
                memcpy(samples + at * DROLKHISE_SAMPLES, c.samples, DROLKHISE_SAMPLES);
                continue;
            }
            set_frames(&c, n);
            uint8_t number = make(&c);
            if (number != 0) fail("%zu frames were refused with %d", n, number);
            if (memcmp(c.numbers, numbers + at, n)) fail("lines %zu on, %zu together: other numbers", at, n);
            if (memcmp(c.samples, samples + at * DROLKHISE_SAMPLES, n * DROLKHISE_SAMPLES)) fail("lines %zu on, %zu together: other samples", at, n);
            first += c.numbers[0] != 0;
            last += c.numbers[n - 1] != 0;
            for (size_t k = 1; k < n; k++) row += c.numbers[k - 1] && c.numbers[k];
        }
        if (size == 0) memcpy(image, c.image, sizeof image);
        else if (memcmp(image, c.image, sizeof image)) fail("%zu together: another image", size);
    }
    // first, last, both, eight in a row, every second, all
    static const uint64_t refused[] = {1, 1ull << 63, 1ull << 63 | 1, 0xff00, 0x5555555555555555, ~0ull};
    for (int p = 0; p < 6; p++)
        for (size_t n = 1; n <= MOST; n++) {
            c = middle;
            set_frames(&c, n);
            // the highest bit is the last frame's
            uint64_t which = n < MOST && refused[p] >> 63 ? (refused[p] & ~(1ull << 63)) | 1ull << (n - 1) : refused[p];
            for (size_t k = 0; k < n; k++) c.payload[k * DROLKHISE_PAYLOAD + 19] |= (uint8_t)((which >> k & 1) << 7);
            expect(&c, 0, "frames of which some are refused");
            make(&c);
            for (size_t k = 0; k < n; k++)
                if ((c.numbers[k] == 6) != (which >> k & 1)) fail("frame %zu of %zu was answered %d", k, n, c.numbers[k]);
        }
    free(numbers);
    free(samples);
    fprintf(records ? stderr : stdout, "batches of 1 to 64, refused first %lu times, last %lu, in a row %lu; ", first, last, row);
    said("as single frames");
}

static uint64_t seed;

static uint32_t below(uint32_t n) {
    seed ^= seed >> 12;
    seed ^= seed << 25;
    seed ^= seed >> 27;
    return (uint32_t)((seed * 0x2545f4914f6cdd1d) >> 33) % n;
}

// Whole numbers of all sizes; floats mostly within the state rule, its bound among them.
static void random_image(uint8_t *image) {
    for (size_t k = 0; k < FLOATS; k++) image[k] = (uint8_t)below(256);
    for (size_t at = FLOATS; at < DROLKHISE_MARK; at += 4) {
        uint32_t bits = below(2) << 31 | below(144) << 23 | below(1 << 23);
        if (below(50) == 0) bits = below(2) << 31 | 0x48000000;
        if (below(2000) == 0) bits = below(2) << 31 | (0x48000001 + below(0x37fffffe));
        put_number(image + at, bits);
    }
    image[DROLKHISE_MARK] = (uint8_t)below(below(30) ? 3 : 256);
}

// One byte of it becomes another.
static void damage(uint8_t *bytes, size_t n) { bytes[below((uint32_t)n)] ^= (uint8_t)(1 + below(255)); }

// Sixteen images, each begun, decoded on, damaged and drawn anew by chance.
static void calls(unsigned long count, int set_count) {
    static struct call c;
    static uint8_t held[16][DROLKHISE_IMAGE];
    size_t next[MOST_SETS] = {0};
    int set_of[16] = {0};
    unsigned long by[FUNCTIONS][12] = {{0}};
    for (unsigned long n = 0; n < count; n++) {
        uint32_t k = below(16), kind = below(100);
        if (kind == 0) set_of[k] = (int)below((uint32_t)set_count);
        if (kind == 1) random_image(held[k]);
        if (kind == 2) damage(held[k], DROLKHISE_IMAGE);
        const struct recording *r = &recordings[set_of[k]];
        struct line line = r->lines[next[set_of[k]]++ % r->count];
        if (kind >= 3 && kind < 8)
            for (int j = 0; j < DROLKHISE_PAYLOAD; j++) line.payload[j] = (uint8_t)below(256);
        if (kind >= 8 && kind < 12) damage(line.payload, DROLKHISE_PAYLOAD);
        right_lengths(&c);
        c.null = (int)below(2);
        c.which = line.is_frame ? DECODE : MISSED_FRAME;
        // an image that is refused with 5 is refused until it is begun anew
        if (kind >= 12 && kind < 16) c.which = kind < 14 ? RESET : COLD_START;
        if (kind == 16) c.which = MISSED_FRAME;
        memcpy(c.payload, line.payload, DROLKHISE_PAYLOAD);
        if (kind >= 17 && kind < 22) {
            size_t count = 1 + below(1 + below(MOST));
            set_frames(&c, count);
            for (size_t j = 1; j < count; j++) {
                memcpy(c.payload + j * DROLKHISE_PAYLOAD, r->lines[next[set_of[k]]++ % r->count].payload, DROLKHISE_PAYLOAD);
                if (below(20) == 0) damage(c.payload + j * DROLKHISE_PAYLOAD, DROLKHISE_PAYLOAD);
            }
        }
        if (below(33) == 0) c.spoilt_at = below(DROLKHISE_TABLES), c.spoilt = (uint8_t)(1 + below(255));
        if (below(33) == 0) {
            int b = (int)below(BUFFERS);
            c.length[b] = below(2) ? c.length[b] + below(3) - 1 : below((uint32_t)c.length[b] + 2);
            if (b == PAYLOAD || b == IMAGE) c.length[b] += below(2) * below(100);
        }
        c.set = set_of[k];
        c.fill = (uint8_t)below(256);
        memset(c.image, c.fill, sizeof c.image);
        memcpy(c.image, held[k], DROLKHISE_IMAGE);
        uint8_t number = make(&c);
        if (number > 11) fail("%s answered %d", functions[c.which], number);
        by[c.which][number]++;
        if (c.length[IMAGE] == DROLKHISE_IMAGE) memcpy(held[k], c.image, DROLKHISE_IMAGE);
    }
    // so many calls meet every answer of every function
    for (int which = RESET; which < FUNCTIONS && count >= 100000; which++)
        for (int number = 0; number < 12; number++)
            if ((tried[which] | 1) >> number & 1 && by[which][number] == 0) fail("no %s was answered %d", functions[which], number);
    said("random calls");
}

// ---- table check, unpacker and packer: one buffer is read and one written

enum { CHECK_TABLES, UNPACK, PACK };

static const struct {
    const char *name;
    uint8_t (*call)(const uint8_t *, size_t, uint8_t *, size_t);
    size_t in, out;         // the right lengths
    uint8_t no_in, no_out;  // the numbers that others are refused with; of two the lower comes first
} pairs[] = {{"check tables", drolkhise_check_tables, DROLKHISE_TABLES, DROLKHISE_TOLD, 1, 2},
             {"unpack", drolkhise_unpack, DROLKHISE_PAYLOAD, DROLKHISE_FIELDS, 3, 2},
             {"pack", drolkhise_pack, DROLKHISE_FIELDS, DROLKHISE_PAYLOAD, 2, 3}};

// Makes the call twice, with each buffer on either side of its room and with two fills, and looks at all that it may not have touched. Where the answer is
// `number` there must be `wanted` in what is written, or where that is NULL what was there. A length of 0 is lent as a null pointer too.
static void expect_pair(int which, const uint8_t *in, size_t in_length, size_t out_length, uint8_t number, const uint8_t *wanted) {
    for (int k = 0; k < (in_length && out_length ? 2 : 4); k++) {
        uint8_t fill = k & 1 ? 0x3c : 0xc3, stood[PAGE];
        size_t in_front = k & 1 ? 0 : room[TABLES].size - in_length, out_front = k & 1 ? room[IMAGE].size - out_length : 0;
        uint8_t *from = room[TABLES].from + in_front, *to = room[IMAGE].from + out_front;
        memset(room[TABLES].from, GUARD, room[TABLES].size);
        memset(room[IMAGE].from, GUARD, room[IMAGE].size);
        memcpy(from, in, in_length);
        memset(to, fill, out_length);
        memset(stood, fill, out_length);
        uint8_t got = pairs[which].call(k & 2 && in_length == 0 ? NULL : from, in_length, k & 2 && out_length == 0 ? NULL : to, out_length);
        made++;
        const char *name = pairs[which].name;
        if (got != number) fail("%s with lengths %zu %zu: answered %d, not %d", name, in_length, out_length, got, number);
        if (memcmp(from, in, in_length)) fail("%s wrote into what it reads", name);
        if (memcmp(to, wanted ? wanted : stood, out_length)) fail("%s, answered %d, left other bytes than it should", name, number);
        size_t behind = room[TABLES].size - in_front - in_length, out_behind = room[IMAGE].size - out_front - out_length;
        if (memcmp(room[TABLES].from, guards, in_front) || memcmp(from + in_length, guards, behind)) fail("%s wrote beside what it reads", name);
        if (memcmp(room[IMAGE].from, guards, out_front) || memcmp(to + out_length, guards, out_behind)) fail("%s wrote beside its room", name);
    }
}

// Document 01's set rules, read a second time: the number, and what is told.
static uint8_t second_check(const uint8_t *t, uint8_t *told) {
    static const struct {
        int from, count, step;
    } at[] = {{186, 7, 1}, {193, 5, 1}, {198, 5, 3}, {243, 600, 1}, {1483, 3200, 1}, {0, 977, 4}};
    memset(told, 0, DROLKHISE_TOLD);
    for (int rule = 1; rule <= 6; rule++)
        for (int k = 0; k < at[rule - 1].count; k++) {
            int place = at[rule - 1].from + at[rule - 1].step * k;
            const uint8_t *b = t + (rule == 6 ? 2 * 5963 + place : 2 * place);
            int u = b[0] | b[1] << 8, w = u < 32768 ? u : u - 65536, bad = 0;
            uint32_t bits = (uint32_t)b[0] | (uint32_t)b[1] << 8 | (uint32_t)b[2] << 16 | (uint32_t)b[3] << 24;
            float x;
            memcpy(&x, &bits, sizeof x);
            switch (rule) {
            case 1: bad = k == 0 ? u < 1 : k == 1 ? u != 0 : u < (b[-2] | b[-1] << 8); break;
            case 2: bad = w != 2 && w != 3; break;
            case 3: bad = w < 0 || w > 29; break;
            case 4: bad = w < 0; break;
            case 5: bad = w == 0 || w < -80 || w > 80; break;
            case 6: bad = !(fabsf(x) <= 65536); break;
            }
            if (!bad) continue;
            told[0] = (uint8_t)rule;
            put_number(told + 1, (size_t)place);
            return 4;
        }
    return 0;
}

// bits.rs read a second time: of each field of a half the places, highest first, as q(k), a(k) and b(k); how many each has is its width.
enum { A = 100, B = 200 };
static const uint8_t places[12][17] = {{23, 24, 25, 26},
                                       {35, 36, 37, 38},
                                       {18, 19, B + 7, B + 5, A + 6, A + 4, B + 6, B + 4, A + 11, A + 9, B + 11, B + 9, A + 10, A + 8, B + 10, B + 8},
                                       {30, 31, B + 15, B + 13, A + 14, A + 12, B + 14, B + 12, A + 19, A + 17, B + 19, B + 17, A + 18, A + 16, B + 18, B + 16},
                                       {20, 21, 22},
                                       {32, 33, 34},
                                       {0},
                                       {1, 2, 3, 4, 5, 6, 7},
                                       {8, 9, 10, 11, A + 3, A + 1},
                                       {B + 3, B + 1, A + 2, A + 0, B + 2, B + 0},
                                       {12, 13, 14, 15, 16, 17, A + 7, A + 5},
                                       {27, 28, 29, A + 15, A + 13}};
static const int widths[12] = {4, 4, 16, 16, 3, 3, 1, 7, 6, 6, 8, 5};

static uint8_t second_unpack(const uint8_t *frame, uint8_t *fields) {
    memset(fields, 0, DROLKHISE_FIELDS);
    if (frame[19] & 0xc0) return 6;
    for (int field = 0; field < 24; field++) {
        int h = field / 12, v = 0;
        for (int k = 0; k < widths[field % 12]; k++) {
            int p = places[field % 12][k], i = p < A ? 39 * h + p : p < B ? 78 + 20 * h + p - A : 118 + 20 * h + p - B;
            v = 2 * v + ((frame[i / 8] >> i % 8 & 1) ^ (i == 79 || i == 83 || i == 85));
        }
        if (field == DROLKHISE_ABSOLUTE_PITCH) v ^= 3;
        fields[2 * field] = (uint8_t)v;
        fields[2 * field + 1] = (uint8_t)(v >> 8);
    }
    return 0;
}

// Every length of either buffer, and each wrong one beside a wrong one of the other and beside a fault of the bytes, which is tried last.
static void pair_lengths(void) {
    static const size_t most[][2] = {{DROLKHISE_TABLES + 2, 40}, {100, 100}, {100, 100}};
    static uint8_t good[3][DROLKHISE_TABLES + 2], bad[3][DROLKHISE_TABLES + 2], left[3][DROLKHISE_FIELDS], left_bad[3][DROLKHISE_FIELDS];
    static const uint8_t fault[] = {4, 6, 8};
    memcpy(good[CHECK_TABLES], sets[0], DROLKHISE_TABLES);
    memcpy(good[UNPACK], middle.payload, DROLKHISE_PAYLOAD);
    second_unpack(good[UNPACK], left[UNPACK]);
    memcpy(good[PACK], left[UNPACK], DROLKHISE_FIELDS);
    memcpy(left[PACK], good[UNPACK], DROLKHISE_PAYLOAD);
    memcpy(bad, good, sizeof bad);
    memset(bad[CHECK_TABLES] + 2 * 1483, 0, 2);
    bad[UNPACK][19] |= 0x80;
    bad[PACK][2 * DROLKHISE_MODE + 1] = 1;
    int judged = second_check(good[CHECK_TABLES], left[CHECK_TABLES]) == 0 && second_check(bad[CHECK_TABLES], left_bad[CHECK_TABLES]) == 4;
    if (!judged) fail("the second reading of the set rules is wrong");
    for (int which = CHECK_TABLES; which <= PACK; which++)
        for (int spoilt = 0; spoilt < 2; spoilt++) {
            const uint8_t *in = spoilt ? bad[which] : good[which];
            size_t right_in = pairs[which].in, right_out = pairs[which].out;
            uint8_t no_in = pairs[which].no_in, no_out = pairs[which].no_out;
            // what is written where only the other buffer is wrong, or none: zeros, but by the packer nothing
            const uint8_t *zeros = which == PACK ? NULL : left_bad[UNPACK];
            for (size_t n = 0; n <= most[which][0]; n++)
                if (n != right_in) expect_pair(which, in, n, right_out, no_in, zeros);
            for (size_t m = 0; m <= most[which][1]; m++) {
                if (m == right_out) continue;
                expect_pair(which, in, right_in, m, no_out, NULL);
                for (size_t n = 0; n < 30; n++)
                    if (n != right_in) expect_pair(which, in, n, m, no_in < no_out ? no_in : no_out, NULL);
            }
            expect_pair(which, in, right_in, right_out, spoilt ? fault[which] : 0, !spoilt ? left[which] : which == CHECK_TABLES ? left_bad[which] : zeros);
        }
    said("table check, unpack and pack: lengths and orders");
}

static void fields(unsigned long count) {
    static uint8_t tables[DROLKHISE_TABLES];
    unsigned long rules[7] = {0}, wide = 0;
    pair_lengths();
    for (unsigned long n = 0; n < count; n++) {
        uint8_t frame[DROLKHISE_PAYLOAD], numbers[DROLKHISE_FIELDS], told[DROLKHISE_TOLD], image[DROLKHISE_IMAGE];
        // a frame: its fields, and from those the frame
        for (int k = 0; k < DROLKHISE_PAYLOAD; k++) frame[k] = (uint8_t)below(256);
        if (below(4)) frame[19] &= 0x3f;
        uint8_t number = second_unpack(frame, numbers);
        expect_pair(UNPACK, frame, sizeof frame, sizeof numbers, number, numbers);
        if (number == 0) expect_pair(PACK, numbers, sizeof numbers, sizeof frame, 0, frame);
        // fields: one of them may be a bit too wide
        int chosen = (int)below(24), over = 0;
        for (int k = 0; k < 24; k++) {
            uint32_t v = below(1u << widths[k % 12]);
            if (k == chosen && below(2) && widths[k % 12] < 16) v = below(1u << 16), over = v >> widths[k % 12] != 0;
            numbers[2 * k] = (uint8_t)v;
            numbers[2 * k + 1] = (uint8_t)(v >> 8);
        }
        wide += over != 0;
        if (over) {
            expect_pair(PACK, numbers, sizeof numbers, sizeof frame, 8, NULL);
        } else {
            if (drolkhise_pack(numbers, sizeof numbers, frame, sizeof frame) != 0) fail("fields within their widths were refused");
            expect_pair(PACK, numbers, sizeof numbers, sizeof frame, 0, frame);
            expect_pair(UNPACK, frame, sizeof frame, sizeof numbers, 0, numbers);
        }
        if (n % 10) continue;
        // tables with up to three bytes changed, each mostly where a rule looks
        static const size_t from[] = {2 * 186, 2 * 193, 2 * 198, 2 * 243, 2 * 1483, 2 * 5963, 0}, size[] = {14, 10, 26, 1200, 6400, 3908, DROLKHISE_TABLES};
        memcpy(tables, sets[0], sizeof tables);
        for (uint32_t k = below(4); k > 0; k--) {
            uint32_t part = below(7);
            damage(tables + from[part], size[part]);
        }
        number = second_check(tables, told);
        rules[told[0]]++;
        expect_pair(CHECK_TABLES, tables, sizeof tables, sizeof told, number, told);
        if (drolkhise_reset(tables, sizeof tables, image, sizeof image) != number) fail("reset answers another number than the table check");
    }
    for (int rule = 0; rule <= 6 && count >= 10000; rule++)
        if (rules[rule] == 0) fail("no tables were told to break rule %d", rule);
    printf("rules told %lu %lu %lu %lu %lu %lu, none %lu; fields too wide %lu; ", rules[1], rules[2], rules[3], rules[4], rules[5], rules[6], rules[0], wide);
    said("table check, unpack and pack, random");
}

// ---- threads

enum { THREADS = 4, STACK = 1 << 20, PAINT = 0x5a };

// A player with `together` decodes 64 frames in one call.
struct player {
    int together;
    uint8_t *stack, payloads[MOST * DROLKHISE_PAYLOAD], samples[MOST * DROLKHISE_SAMPLES];
    uint64_t digest;
    pthread_t thread;
};

static uint64_t digest(uint64_t d, const uint8_t *bytes, size_t n) {
    for (size_t k = 0; k < n; k++) d = (d ^ bytes[k]) * 0x100000001b3;
    return d;
}

// The whole recording, with buffers of this thread's own, and a digest of all that was left.
static void *play(void *given) {
    struct player *p = given;
    const struct recording *r = &recordings[0];
    uint8_t image[DROLKHISE_IMAGE], samples[DROLKHISE_SAMPLES] = {0};
    uint64_t d = 0xcbf29ce484222325;
    if (p->together) {
        uint8_t numbers[MOST];
        d = drolkhise_cold_start(sets[0], DROLKHISE_TABLES, image, sizeof image);
        for (int times = 0; times < 20; times++) {
            numbers[0] = drolkhise_decode_frames(sets[0], DROLKHISE_TABLES, image, sizeof image, p->payloads, MOST * DROLKHISE_PAYLOAD, p->samples, MOST * DROLKHISE_SAMPLES, numbers, MOST) ? 99 : numbers[0];
            d = digest(digest(digest(d, numbers, MOST), image, sizeof image), p->samples, MOST * DROLKHISE_SAMPLES);
        }
        p->digest = d;
        return NULL;
    }
    for (int times = 0; times < 5; times++) {
        uint8_t number = drolkhise_reset(sets[0], DROLKHISE_TABLES, image, sizeof image);
        for (size_t k = 0; k < r->count; k++) {
            number = r->lines[k].is_frame ? drolkhise_decode(sets[0], DROLKHISE_TABLES, image, sizeof image, r->lines[k].payload, DROLKHISE_PAYLOAD, samples, sizeof samples)
                                          : drolkhise_missed_frame(image, sizeof image);
            d = digest(digest(digest(d, &number, 1), image, sizeof image), samples, sizeof samples);
        }
    }
    p->digest = d;
    return NULL;
}

static void lend(struct player *p, int together) {
    const struct recording *r = &recordings[0];
    p->together = together;
    memset(p->samples, 0, sizeof p->samples);
    for (size_t k = 0; k < MOST; k++) memcpy(p->payloads + k * DROLKHISE_PAYLOAD, r->lines[k % r->count].payload, DROLKHISE_PAYLOAD);
}

static void threads(int together) {
    static struct player alone, players[THREADS];
    size_t deepest = 0;
    lend(&alone, together);
    play(&alone);
    for (int t = 0; t < THREADS; t++) {
        pthread_attr_t how;
        lend(&players[t], together);
        players[t].stack = mmap(NULL, STACK, PROT_READ | PROT_WRITE, MAP_PRIVATE | MAP_ANONYMOUS, -1, 0);
        if (players[t].stack == MAP_FAILED) fail("no memory");
        memset(players[t].stack, PAINT, STACK);
        if (pthread_attr_init(&how) || pthread_attr_setstack(&how, players[t].stack, STACK) || pthread_create(&players[t].thread, &how, play, &players[t])) fail("no thread");
    }
    for (int t = 0; t < THREADS; t++) {
        size_t free = 0;
        pthread_join(players[t].thread, NULL);
        if (players[t].digest != alone.digest) fail("a thread beside others decoded something else");
        while (players[t].stack[free] == PAINT) free++;
        if (STACK - free > deepest) deepest = STACK - free;
    }
    printf("%d threads at once, %s: as one alone; %zu bytes of stack at most, a thread's own among them\n", (int)THREADS, together ? "64 frames in a call" : "a frame in a call", deepest);
}

int main(int argc, char **argv) {
    const char *mode;
    if (argc > 1 && !strcmp(argv[1], "-r")) records = stdout, argc--, argv++;
    mode = argc > 1 ? argv[1] : "";
    int random = !strcmp(mode, "calls") || !strcmp(mode, "fields"), from = random ? 4 : 2;
    if (argc < from + 2 || (argc - from) / 2 > MOST_SETS) fail("test_c.c says what it takes");
    for (int k = 0; from + 2 * k + 1 < argc; k++) {
        read_set(argv[from + 2 * k], k);
        read_recording(argv[from + 2 * k + 1], &recordings[k]);
        if (recordings[k].count == 0) fail("a recording is empty");
    }
    make_rooms();
    if (strcmp(mode, "calls") && strcmp(mode, "text") && strcmp(mode, "threads")) play_to_middle();
    if (random) seed = strtoull(argv[2], NULL, 10) * 2 + 1;
    if (!strcmp(mode, "calls")) calls(strtoul(argv[3], NULL, 10), (argc - from) / 2);
    else if (!strcmp(mode, "fields")) fields(strtoul(argv[3], NULL, 10));
    else if (!strcmp(mode, "text")) text();
    else if (!strcmp(mode, "lengths")) lengths();
    else if (!strcmp(mode, "order")) every_fault();
    else if (!strcmp(mode, "images")) images();
    else if (!strcmp(mode, "batches")) batches();
    else if (!strcmp(mode, "threads")) threads(0), threads(1);
    else fail("no mode %s", mode);
    if (fflush(stdout) || ferror(stdout)) fail("cannot write");
    return 0;
}
