// The shelf's functions of include/drolkhise.h. tools/try_shelf builds this and runs it:
//
//     try_shelf                              calls as standard input says; what each answered and left goes to standard output. tools/try_shelf says the two forms
//     try_shelf SEED TABLES RECORDING..      seeks to every frame of each recording, from many sets of saves, compared with playing it
#include <stdint.h>
#include <stdio.h>
#include <stdlib.h>
#include <string.h>

#include "drolkhise.h"

enum { GUARD = 64, FILL = 0xa5, NONE = -128, SLOTS = 16 };
enum { ANEW, SAVE, HOLD, LET_GO, FETCH, LOAD };

// A buffer with guard bytes on both sides, the first of which are lent too where a length is too long.
static uint8_t records_room[GUARD + DROLKHISE_RECORDS + GUARD], images_room[GUARD + DROLKHISE_SHELF + GUARD], image_room[GUARD + DROLKHISE_IMAGE + GUARD],
    slot_room[GUARD + 1 + GUARD];
static uint8_t *const records = records_room + GUARD, *const images = images_room + GUARD, *const image = image_room + GUARD, *const slot = slot_room + GUARD;

// As they were before the call.
static uint8_t before[DROLKHISE_SHELF], lent[DROLKHISE_IMAGE];

static uint8_t *pool;

static void fill(uint8_t *room, size_t size) {
    memset(room, FILL, GUARD);
    memset(room + GUARD + size, FILL, GUARD);
}

static int untouched(const uint8_t *room, size_t size) {
    for (int k = 0; k < GUARD; k++)
        if (room[k] != FILL || room[GUARD + size + (size_t)k] != FILL) return 0;
    return 1;
}

static void take(void *to, size_t size) {
    if (fread(to, 1, size, stdin) != size) exit(2);
}

static uint32_t number(const uint8_t *b, int bytes) {
    uint32_t n = 0;
    while (bytes--) n = n << 8 | b[bytes];
    return n;
}

static size_t length(size_t right, int8_t more) { return more == NONE ? 0 : right + (size_t)(ptrdiff_t)more; }

static uint8_t *at(uint8_t *buffer, int8_t more) { return more == NONE ? NULL : buffer; }

// ---- seeks

enum { LONGEST = 1 << 20, MOST = 4096 };

static uint8_t tables[DROLKHISE_TABLES + 1], text[LONGEST], played[MOST + 1][DROLKHISE_IMAGE];
static size_t text_length, frames;
static unsigned long sought;
static uint64_t drawn;

static uint32_t draw(uint32_t below) {
    drawn = drawn * 6364136223846793005u + 1442695040888963407u;
    return (uint32_t)(drawn >> 33) % below;
}

static void fail(const char *what, unsigned long k) {
    fprintf(stderr, "try_shelf: FAILED: %s, frame %lu\n", what, k);
    exit(1);
}

static size_t read_file(const char *path, uint8_t *to, size_t most) {
    FILE *in = fopen(path, "rb");
    if (!in) exit(2);
    size_t n = fread(to, 1, most, in);
    fclose(in);
    return n;
}

// The image before each frame, by single calls from the recording's start.
static void play(void) {
    uint8_t now[DROLKHISE_IMAGE], payload[DROLKHISE_PAYLOAD], samples[DROLKHISE_SAMPLES];
    size_t at = 0;
    int heard = text_length >= 1 && text[0] == '+' && (text_length == 1 || text[1] == '\n');
    if ((heard ? drolkhise_reset : drolkhise_cold_start)(tables, DROLKHISE_TABLES, now, sizeof now)) fail("the tables are refused", 0);
    if (heard) at = 2;
    for (frames = 0; at < text_length && frames < MOST; frames++) {
        memcpy(played[frames], now, sizeof now);
        size_t end = at;
        while (end < text_length && text[end] != '\n') end++;
        int good = end - at == 2 * DROLKHISE_PAYLOAD;
        for (size_t k = at; good && k < end; k++) good = strchr("0123456789abcdefABCDEF", text[k]) != NULL && text[k] != 0;
        for (size_t k = 0; good && k < DROLKHISE_PAYLOAD; k++) {
            char pair[3] = {(char)text[at + 2 * k], (char)text[at + 2 * k + 1], 0};
            payload[k] = (uint8_t)strtoul(pair, NULL, 16);
        }
        if (good) drolkhise_decode(tables, DROLKHISE_TABLES, now, sizeof now, payload, sizeof payload, samples, sizeof samples);
        else drolkhise_missed_frame(now, sizeof now);
        at = end + 1;
    }
}

// A seek: what it answers, and whether the image after it is this one.
static void seek(size_t tables_length, size_t records_length, size_t images_length, uint32_t k, size_t image_length, uint8_t answer, const uint8_t *after) {
    uint8_t shelf[DROLKHISE_RECORDS];
    memcpy(shelf, records, sizeof shelf);
    memcpy(before, images, sizeof before);
    fill(image_room, DROLKHISE_IMAGE);
    memset(image, FILL, DROLKHISE_IMAGE);
    if (drolkhise_seek(tables, tables_length, records, records_length, images, images_length, text, text_length, k, image, image_length) != answer) fail("a seek's number", k);
    if (memcmp(image, after, DROLKHISE_IMAGE)) fail("a seek's image", k);
    if (memcmp(shelf, records, sizeof shelf) || memcmp(before, images, sizeof before) || !untouched(image_room, DROLKHISE_IMAGE)) fail("a seek wrote to what it only reads", k);
    sought++;
}

static void seek_all(void) {
    static const uint8_t zeros[DROLKHISE_IMAGE];
    for (uint32_t k = 0; k <= frames + 1; k++) {
        int found = 0;
        for (int s = 0; s < SLOTS; s++) found |= records[5 * s] && number(records + 5 * s + 1, 4) <= k;
        int there = found && k < frames;
        seek(DROLKHISE_TABLES, DROLKHISE_RECORDS, DROLKHISE_SHELF, k, DROLKHISE_IMAGE, there ? 0 : 15, there ? played[k] : zeros);
    }
}

static void save(size_t k) {
    if (drolkhise_shelf_save(records, DROLKHISE_RECORDS, images, DROLKHISE_SHELF, played[k], DROLKHISE_IMAGE, (uint32_t)k, slot, 1)) fail("a save is refused", k);
}

static void seek_edges(void) {
    static uint8_t zeros[DROLKHISE_IMAGE], filled[DROLKHISE_IMAGE];
    memset(filled, FILL, sizeof filled);
    memset(records, 0, DROLKHISE_RECORDS);
    memset(images, 0, DROLKHISE_SHELF);
    save(1);
    uint32_t last = (uint32_t)frames - 1, none = 0, past = 4294967295u;
    size_t r = DROLKHISE_RECORDS, m = DROLKHISE_SHELF, i = DROLKHISE_IMAGE, t = DROLKHISE_TABLES;
    images[DROLKHISE_MARK] = 3; // broken, and refused last
    for (int fault = 0; fault < 32; fault++) {
        size_t tl = fault & 1 ? t - 1 : t, rl = fault & 4 ? r - 1 : r, ml = fault & 8 ? m - 1 : m, il = fault & 16 ? i - 1 : i;
        uint32_t k = fault & 2 ? none : last;
        uint8_t answer = fault & 16 ? 11 : fault & 12 ? 12 : fault & 2 ? 15 : fault & 1 ? 1 : 5;
        seek(tl, rl, ml, k, il, answer, answer == 11 ? filled : zeros);
    }
    seek(t + 1, r, m, last, i, 1, zeros);
    seek(t, r + 1, m, last, i, 12, zeros);
    seek(t, r, m + 1, last, i, 12, zeros);
    seek(t, r, m, last, i + 1, 11, filled);
    seek(t, r, m, past, i, 15, zeros);
    seek(t, r, m, (uint32_t)frames, i, 15, zeros);
    for (size_t at = 0; at < t; at++) { // a table that breaks a rule: 4, before the broken save's 5
        uint8_t old = tables[at], unread[DROLKHISE_IMAGE];
        tables[at] ^= 0x80;
        int breaks = drolkhise_reset(tables, t, unread, sizeof unread) == 4;
        if (breaks) seek(t, r, m, last, i, 4, zeros);
        tables[at] = old;
        if (breaks) break;
    }
}

static int seeks(int count, char **words) {
    drawn = strtoull(words[1], NULL, 10);
    if (read_file(words[2], tables, sizeof tables) != DROLKHISE_TABLES) return 2;
    fill(records_room, DROLKHISE_RECORDS);
    fill(images_room, DROLKHISE_SHELF);
    for (int w = 3; w < count; w++) {
        text_length = read_file(words[w], text, LONGEST);
        play();
        for (int set = 0; set < 40; set++) {
            memset(records, 0, DROLKHISE_RECORDS);
            memset(images, 0, DROLKHISE_SHELF);
            // none; the first frame; the last; sixteen spread evenly; then any, some of them twice, some let go
            int saves = set == 0 ? 0 : set < 3 ? 1 : set == 3 ? SLOTS : (int)draw(SLOTS + 1);
            for (int s = 0; s < saves; s++) save(set == 1 ? 0 : set == 2 ? frames - 1 : set == 3 ? frames * (size_t)s / SLOTS : draw((uint32_t)frames));
            for (int s = 0; set > 20 && s < saves; s++)
                if (draw(3) == 0) drolkhise_shelf_let_go(records, DROLKHISE_RECORDS, images, DROLKHISE_SHELF, (uint32_t)s);
            seek_all();
        }
        seek_edges();
        printf("%s: %lu frames\n", words[w], (unsigned long)frames);
    }
    printf("%lu seeks: ok\n", sought);
    return 0;
}

int main(int count, char **words) {
    if (count > 3) return seeks(count, words);
    static char out[1 << 16];
    setvbuf(stdout, out, _IOFBF, sizeof out);
    uint8_t head[15];
    take(head, 2);
    size_t pooled = number(head, 2);
    pool = malloc(pooled * DROLKHISE_IMAGE);
    take(pool, pooled * DROLKHISE_IMAGE);
    fill(records_room, DROLKHISE_RECORDS);
    fill(images_room, DROLKHISE_SHELF);
    while (fread(head, 1, sizeof head, stdin) == sizeof head) {
        const uint8_t *given = pool + number(head + 1, 2) * DROLKHISE_IMAGE;
        uint32_t frame = number(head + 3, 4), which = number(head + 7, 4);
        int8_t more[4];
        memcpy(more, head + 11, 4);
        size_t r = length(DROLKHISE_RECORDS, more[0]), m = length(DROLKHISE_SHELF, more[1]), i = length(DROLKHISE_IMAGE, more[2]), s = length(1, more[3]);
        memcpy(before, images, DROLKHISE_SHELF);
        fill(image_room, DROLKHISE_IMAGE);
        fill(slot_room, 1);
        memcpy(image, given, DROLKHISE_IMAGE);
        memcpy(lent, given, DROLKHISE_IMAGE);
        slot[0] = FILL;
        uint8_t answer = 0;
        switch (head[0]) {
        case ANEW:
            memset(records, 0, DROLKHISE_RECORDS);
            memset(images, 0, DROLKHISE_SHELF);
            memset(before, 0, DROLKHISE_SHELF);
            break;
        case LOAD:
            take(records, DROLKHISE_RECORDS);
            for (int k = 0; k < SLOTS; k++) {
                uint8_t pair[2];
                take(pair, 2);
                memcpy(images + k * DROLKHISE_IMAGE, pool + number(pair, 2) * DROLKHISE_IMAGE, DROLKHISE_IMAGE);
            }
            memcpy(before, images, DROLKHISE_SHELF);
            break;
        case SAVE: answer = drolkhise_shelf_save(at(records, more[0]), r, at(images, more[1]), m, at(image, more[2]), i, frame, at(slot, more[3]), s); break;
        case HOLD: answer = drolkhise_shelf_hold(at(records, more[0]), r, at(images, more[1]), m, which); break;
        case LET_GO: answer = drolkhise_shelf_let_go(at(records, more[0]), r, at(images, more[1]), m, which); break;
        case FETCH: answer = drolkhise_shelf_fetch(at(records, more[0]), r, at(images, more[1]), m, which, at(image, more[2]), i); break;
        default: return 2;
        }
        unsigned changed = 0;
        for (int k = 0; k < SLOTS; k++)
            if (memcmp(before + k * DROLKHISE_IMAGE, images + k * DROLKHISE_IMAGE, DROLKHISE_IMAGE)) changed |= 1u << k;
        int kept = untouched(records_room, DROLKHISE_RECORDS) && untouched(images_room, DROLKHISE_SHELF) && untouched(image_room, DROLKHISE_IMAGE) && untouched(slot_room, 1)
                   && (head[0] == FETCH || !memcmp(image, lent, DROLKHISE_IMAGE));
        uint8_t told[5] = {answer, (uint8_t)kept, slot[0], (uint8_t)changed, (uint8_t)(changed >> 8)};
        fwrite(told, 1, sizeof told, stdout);
        fwrite(records, 1, DROLKHISE_RECORDS, stdout);
        for (int k = 0; k < SLOTS; k++)
            if (changed >> k & 1) fwrite(images + k * DROLKHISE_IMAGE, 1, DROLKHISE_IMAGE, stdout);
        if (head[0] == FETCH) fwrite(image, 1, DROLKHISE_IMAGE, stdout);
    }
    return fflush(stdout) ? 2 : 0;
}
