/* Drolkhise for a player in C: the decoder of recorded railway radio calls, 320 samples a frame, over plain bytes that the caller lends.
 *
 * Link libdesk.a, which `tools/build desk` writes: an archive for x86-64 Linux that needs memcpy and memset and nothing else. Where tools/install has put
 * it, `cc player.c $(pkg-config --cflags --libs drolkhise)` does. A call takes some 40 KB of stack and no heap; drolkhise_decode_frames some 80 KB.
 *
 * Each buffer is a pointer and its length in bytes, and is looked at only where the length is the right one. Any lengths and any bytes may be lent;
 * what is wrong with them is answered by a number (enum drolkhise_refusal). A null pointer may be lent with length 0, which is a wrong length.
 * Buffers of one call may not overlap. Any alignment will do. Nothing is kept between calls, so any thread may call at any time, two threads at once
 * where neither writes what the other is lent. */
#ifndef DROLKHISE_H
#define DROLKHISE_H

#include <stddef.h>
#include <stdint.h>

#ifdef __cplusplus
extern "C" {
#endif

/* The lengths, in bytes. */
enum drolkhise_length {
    DROLKHISE_TABLES = 15834, /* the table file: 5,963 words of 16 bits, low byte first, then 3,908 bytes; only read */
    DROLKHISE_IMAGE = 526,    /* the image: all that the decoder carries from one frame of a call to the next; read and written */
    DROLKHISE_PAYLOAD = 20,   /* a frame; only read, but by drolkhise_pack written */
    DROLKHISE_SAMPLES = 640,  /* room for 320 samples of 16 bits with a sign, low byte first; only written */
    DROLKHISE_TOLD = 5,       /* room for what is told of tables that break a set rule; only written */
    DROLKHISE_FIELDS = 48,    /* the 24 fields of a frame, each a number of 16 bits without a sign, low byte first */
    DROLKHISE_RECORDS = 80,   /* the shelf's sixteen slot records, of 5 bytes each; read and written */
    DROLKHISE_SHELF = 16 * DROLKHISE_IMAGE /* the shelf's images, one for each slot; read and written */
};

/* How many frames one call of drolkhise_decode_frames may have. */
enum { DROLKHISE_MOST_FRAMES = 64 };

/* The image's last byte but one is the mark: 2, the next frame's sound has the sender's lags, gains and filters; 0 or 1, the decoder is still recovering
 * from a loss or a late start. The last byte is 2 where, with mark 2, the excitation of the next frame is the sender's too; else 0 or 1. Look at them before
 * a decode to know it of that frame. A player has no other use for the bytes of an image: it may copy them, keep them and decode on from them later. */
enum { DROLKHISE_MARK = DROLKHISE_IMAGE - 2, DROLKHISE_SURE = DROLKHISE_IMAGE - 1 };

/* What a call answers: 0, or the first of these that applies, tried in the order in which they stand here, but that drolkhise_decode_frames tries 3 before 2.
 * A call tries only what it is lent. */
enum drolkhise_refusal {
    DROLKHISE_ACCEPTED = 0,
    DROLKHISE_IMAGE_LENGTH = 11,  /* the image is not 526 bytes long */
    DROLKHISE_SHELF_LENGTH = 12,  /* the shelf's records or its images, or the room for a slot's number, are of another length */
    DROLKHISE_NO_SLOT = 13,       /* the slot is none of 0 to 15, or has no users */
    DROLKHISE_SLOT_FULL = 14,     /* no slot is free for a save, or the slot to be held has 255 users */
    DROLKHISE_NO_FRAME = 15,      /* no save is held at or below the frame that is sought, or the recording has no such frame */
    DROLKHISE_TABLES_LENGTH = 1,  /* the tables are not 15,834 bytes long */
    DROLKHISE_SAMPLES_LENGTH = 2, /* the room for samples is not 640 bytes long, of several frames that for samples or for numbers not as long as they ask;
                                   * the room for what is told is not 5 bytes long; the fields, or the room for them, are not 48 */
    DROLKHISE_PAYLOAD_LENGTH = 3, /* the frame is not 20 bytes long, or several are not 1 to 64 frames */
    DROLKHISE_TABLES_RULE = 4,    /* the tables break a set rule */
    DROLKHISE_IMAGE_RULE = 5,     /* the image is no decoder's: one of its floats is no number within 131,072, or one of its last two bytes is above 2 */
    DROLKHISE_PADDING = 6,        /* a padding bit of the frame is set: one of the two highest of its last byte */
    DROLKHISE_CODE_INDEX = 7,     /* a code index of the frame has no position under these tables */
    DROLKHISE_FIELD_WIDTH = 8     /* a field is wider than its bits */
};

/* Begins a call that is heard from its first frame: writes the image that the sender began with, 2 and 2 in its last bytes.
 * Refused (1, 4) it writes an image of zeros; with 11 nothing. */
uint8_t drolkhise_reset(const uint8_t *tables, size_t tables_length, uint8_t *image, size_t image_length);

/* Begins a call that may have been joined late: the same image with 0 and 0. Refusals as above. */
uint8_t drolkhise_cold_start(const uint8_t *tables, size_t tables_length, uint8_t *image, size_t image_length);

/* A frame: writes its 320 samples and the next image, whose mark is one higher, up to 2.
 * Refused (1 to 7) it writes only the last two bytes, 0 and 0, and leaves the samples as they were; with 11 nothing. */
uint8_t drolkhise_decode(const uint8_t *tables, size_t tables_length, uint8_t *image, size_t image_length, const uint8_t *payload, size_t payload_length,
                         uint8_t *samples, size_t samples_length);

/* 1 to 64 frames, their payloads laid end to end: what their single calls write, one after the other, with the tables and the image looked through once. There
 * is room for 640 bytes of samples a frame, which is read too, and for one number a frame: what its own call would answer, 0, 6 or 7. A frame that is refused
 * leaves its samples as they were and the last two bytes 0, and the next goes on from there.
 * Refused (1, 3, 2, 4, 5; 3 where the payloads are not 20 bytes a frame or not 1 to 64 frames, 2 where either room is not as long as they ask) it decodes no
 * frame and writes only the last two bytes, 0 and 0; with 11 nothing. */
uint8_t drolkhise_decode_frames(const uint8_t *tables, size_t tables_length, uint8_t *image, size_t image_length, const uint8_t *payloads, size_t payloads_length,
                                uint8_t *samples, size_t samples_length, uint8_t *numbers, size_t numbers_length);

/* A frame of the call that did not arrive, or several together: writes only the last two bytes, 0 and 0, also into an image that is no
 * decoder's (5); with 11 nothing. */
uint8_t drolkhise_missed_frame(uint8_t *image, size_t image_length);

/* The shelf keeps up to sixteen images, so that a player can go back in a call or let several listeners stand at different frames of it. It is two buffers
 * that the caller lends, both zeros at first: the records, for each slot how many use it (1 byte) and the number of the frame that its image is to be decoded
 * with (4 bytes, low byte first); and the images. Whoever saves an image is its slot's first user. Whoever else is to use it holds the slot, and each user lets
 * go of it once. While a slot has users no save takes it, so that a fetch gives exactly the image that was saved there, to each of them; when the last has let
 * go, the slot is free, and a later save writes over it. Rely on that where only these functions write to both buffers, and let go of a slot only as often as
 * you saved and held it: the count cannot know whose letting-go it was. Two threads need a lock for the shelf. */

/* Saves an image in the lowest slot without users, for one user, with the number of the frame that it is to be decoded with, and writes the slot, 0 to 15, to
 * the one byte of `slot`. Refused (11, 12, 14, 5) it writes nothing. */
uint8_t drolkhise_shelf_save(uint8_t *records, size_t records_length, uint8_t *images, size_t images_length, const uint8_t *image, size_t image_length,
                             uint32_t frame, uint8_t *slot, size_t slot_length);

/* One user more of a slot that has users, up to 255. Refused (12, 13, 14) it writes nothing. */
uint8_t drolkhise_shelf_hold(uint8_t *records, size_t records_length, const uint8_t *images, size_t images_length, uint32_t slot);

/* One user fewer. Refused (12, 13) it writes nothing. */
uint8_t drolkhise_shelf_let_go(uint8_t *records, size_t records_length, const uint8_t *images, size_t images_length, uint32_t slot);

/* Writes the image that was saved in a slot that has users. Refused (12, 13, 5) it writes an image of zeros; with 11 nothing. */
uint8_t drolkhise_shelf_fetch(const uint8_t *records, size_t records_length, const uint8_t *images, size_t images_length, uint32_t slot, uint8_t *image,
                              size_t image_length);

/* Writes the image that frame `frame` of a recording is to be decoded with: that of the held save with the largest frame number not above it (of equal ones in
 * the lowest slot), decoded forward over the lines between, missed and refused ones too. The recording is its text, of any length; its frames are its lines,
 * from 0, a first line `+` not counted. If each save is this recording's image before the frame of its number, what is written is the image of playing it
 * from its start. Nothing but the image is written. Refused (12, 15, 1, 4, 5) it becomes zeros; with 11 nothing is written. */
uint8_t drolkhise_seek(const uint8_t *tables, size_t tables_length, const uint8_t *records, size_t records_length, const uint8_t *images, size_t images_length,
                       const uint8_t *recording, size_t recording_length, uint32_t frame, uint8_t *image, size_t image_length);

/* Checks the tables, as each call does that is lent them, and tells what is wrong: of those that break a set rule (4) writes the lowest rule that is broken,
 * 1 to 6 (1 the index limit and the class bases, 2 pulses, 3 shape selectors, 4 positions, 5 ALT entries, 6 floats), to the first byte of `told`, and to the
 * other four, low byte first, the first place that breaks it: a word's number, from 0, or for a float that of its first byte behind the 5,963 words.
 * With any other number (0, 1) it writes zeros; with `told` of another length, which is 2 where the tables are as long as they must be, nothing. */
uint8_t drolkhise_check_tables(const uint8_t *tables, size_t tables_length, uint8_t *told, size_t told_length);

/* The fields of half a frame in their order, and how many bits each has. Field k of the first half is at bytes 2 * k and 2 * k + 1 of the fields, low byte
 * first, and of the second half DROLKHISE_HALF bytes on. */
enum drolkhise_field {
    DROLKHISE_GAIN_LOW0,      /* 4 */
    DROLKHISE_GAIN_LOW1,      /* 4 */
    DROLKHISE_CODE0,          /* 16 */
    DROLKHISE_CODE1,          /* 16 */
    DROLKHISE_GAIN_HIGH0,     /* 3 */
    DROLKHISE_GAIN_HIGH1,     /* 3 */
    DROLKHISE_MODE,           /* 1 */
    DROLKHISE_STAGE1,         /* 7 */
    DROLKHISE_STAGE2_LOW,     /* 6 */
    DROLKHISE_STAGE2_HIGH,    /* 6 */
    DROLKHISE_ABSOLUTE_PITCH, /* 8 */
    DROLKHISE_RELATIVE_PITCH  /* 5 */
};
enum { DROLKHISE_HALF = DROLKHISE_FIELDS / 2 };

/* Takes a frame apart: writes its fields, as the decoder has them. Refused (3, 6) it writes zeros; with 2 nothing. No tables are asked for, so a frame that a
 * decode refuses with 7 has fields too. */
uint8_t drolkhise_unpack(const uint8_t *payload, size_t payload_length, uint8_t *fields, size_t fields_length);

/* Puts a frame together: writes the one that has these fields. Refused (2, 3, 8; 3 where the room for the frame is not 20 bytes long) it writes nothing. Fields
 * that are accepted are those that the frame is unpacked to, and a frame that was unpacked is packed to the same bytes. */
uint8_t drolkhise_pack(const uint8_t *fields, size_t fields_length, uint8_t *payload, size_t payload_length);

/* What a call answered, in words. */
static inline const char *drolkhise_refusal_text(uint8_t number) {
    switch (number) {
    case DROLKHISE_ACCEPTED: return "accepted";
    case DROLKHISE_TABLES_LENGTH: return "the tables are not 15,834 bytes long";
    case DROLKHISE_SAMPLES_LENGTH: return "the room for samples, for numbers or for what is told, or the fields, are of another length";
    case DROLKHISE_PAYLOAD_LENGTH: return "the frame is not 20 bytes long, or there are not 1 to 64";
    case DROLKHISE_TABLES_RULE: return "the tables break a set rule";
    case DROLKHISE_IMAGE_RULE: return "the image is no decoder's";
    case DROLKHISE_PADDING: return "a padding bit of the frame is set";
    case DROLKHISE_CODE_INDEX: return "a code index of the frame has no position";
    case DROLKHISE_FIELD_WIDTH: return "a field is wider than its bits";
    case DROLKHISE_IMAGE_LENGTH: return "the image is not 526 bytes long";
    case DROLKHISE_SHELF_LENGTH: return "the shelf's records or images, or the room for a slot, are of another length";
    case DROLKHISE_NO_SLOT: return "there is no such slot, or it has no users";
    case DROLKHISE_SLOT_FULL: return "no slot is free, or the slot has 255 users";
    case DROLKHISE_NO_FRAME: return "no save is at or below the frame, or the recording has no such frame";
    default: return "no such refusal";
    }
}

#ifdef __cplusplus
}
#endif

#endif
