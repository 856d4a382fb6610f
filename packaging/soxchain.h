/* soxchain: exact sound effects in one pass and in bounded memory.
 *
 * One call converts a sound in memory; a stream is fed a block at a time. docs/library.md says what is proved of these calls.
 *
 * What the caller owes. No pointer is NULL, even where its length is 0. Buffers that a call reads and those that it
 * writes do not overlap. Words and files are passed as consecutive bytes, with the end of each, counted from the first byte: "vol"
 * and "0.5" are the bytes vol0.5 with the ends 3 and 6. A call keeps no pointer that it was given. There is no global state:
 * threads may use streams at the same time, each its own.
 */
#ifndef SOXCHAIN_H
#define SOXCHAIN_H

#include <stddef.h>
#include <stdint.h>

#ifdef __cplusplus
extern "C" {
#endif

/* What a call answers. The first three are also the statuses of the program soxchain. */
enum {
    SOXCHAIN_OK = 0,
    SOXCHAIN_REFUSED = 1,         /* the words or the coefficient files are refused; a message says why */
    SOXCHAIN_FAILED = 2,          /* the sound is refused or cut off, or no memory was found; a message says why */
    SOXCHAIN_NO_MEMORY = 3,       /* no memory was found */
    SOXCHAIN_BAD_ENDS = 4,        /* the ends of words or files are out of order, or past their bytes */
    SOXCHAIN_NO_STREAM = 5,       /* the handle has no stream */
    SOXCHAIN_BAD_RATE = 6,        /* a rate of 0 */
    SOXCHAIN_BAD_CHANNELS = 7,    /* no channel, or more than 16 */
    SOXCHAIN_PART_OF_FRAME = 8,   /* samples that make no whole frames */
    SOXCHAIN_TOO_LONG = 9,        /* more than 2^40 frames */
    SOXCHAIN_NOT_WAITING = 10,    /* the end, where the stream does not wait for frames */
    SOXCHAIN_BAD_SNAPSHOT = 11    /* bytes to which no stream of these words, rate and channels was frozen */
};

/* What a status says, in English. The text is never freed. */
const char *soxchain_strerror(int status);

/* What soxchain_convert did. */
typedef struct soxchain_report {
    size_t output_length;    /* the bytes of the output */
    size_t messages_length;  /* the bytes of the messages, a line each */
    uint64_t frames_in;      /* the frames that were read */
    uint64_t frames_out;     /* the frames that the effects gave */
    uint64_t bytes_out;      /* the bytes of the output, the head among them */
    uint64_t moves;          /* the hand-overs of frames */
    uint64_t clips[32];      /* the samples that each effect clipped */
    uint64_t out_clips;      /* the samples that were clipped when they were written */
    uint64_t missing;        /* the announced bytes that were not there */
    uint64_t stray;          /* the bytes after the last whole frame */
} soxchain_report;

/* Converts a sound in memory. The words are those of the program's command line, as - -t wav - vol 0.5; the files are the bytes of
 * the coefficient files that they name, in order. Output and messages are copied where the buffer has space for all their bytes,
 * and else not at all; the report has both lengths, also then. */
int soxchain_convert(const uint8_t *words, size_t words_length, const size_t *word_ends, size_t word_count,
                     const uint8_t *files, size_t files_length, const size_t *file_ends, size_t file_count,
                     const uint8_t *input, size_t input_length,
                     uint8_t *output, size_t output_capacity,
                     uint8_t *messages, size_t messages_capacity,
                     soxchain_report *report);

/* The handle of a stream. It begins as SOXCHAIN_NO_HANDLE, with no stream. It is not to be copied: one handle has the stream. */
typedef struct soxchain_stream {
    void *at;
} soxchain_stream;

#define SOXCHAIN_NO_HANDLE {NULL}

/* What a stream waits for. */
enum {
    SOXCHAIN_WAITS_FOR_FRAMES = 0,  /* or for the end */
    SOXCHAIN_WAITS_FOR_ROOM = 1,    /* free space in the output */
    SOXCHAIN_WAITS_FOR_NOTHING = 2, /* all was given */
    SOXCHAIN_WAITS_FOR_END = 3      /* no frame changes what is still to be given */
};

/* How many frames soxchain_feed took and gave, and what the stream then waits for. */
typedef struct soxchain_passed {
    size_t taken;
    size_t given;
    uint32_t waits;
} soxchain_passed;

/* Makes the stream of effects, whose words are those after OUT on the program's command line, as vol 0.5, for frames of so many
 * channels at this rate, and stores it in the handle; a stream that was there is freed. messages_length gets the length of the
 * message where the words are refused, which is copied where the buffer has space for all of it. */
int soxchain_new(const uint8_t *words, size_t words_length, const size_t *word_ends, size_t word_count,
                 const uint8_t *files, size_t files_length, const size_t *file_ends, size_t file_count,
                 uint32_t rate, size_t channels,
                 uint8_t *messages, size_t messages_capacity, size_t *messages_length,
                 soxchain_stream *stream);

/* Takes frames from the front of the input and writes those that are given to the front of the output, until the output has no
 * space for another frame, or no frame is left that can be taken. Samples are interleaved, and lengths are counted in samples. The
 * output may have any length: a frame is taken only while there is space for one more than was due before it, and where there is no
 * space for one frame, nothing changes. What follows the frames given stays as it was. */
int soxchain_feed(soxchain_stream *stream, const int32_t *input, size_t input_length, int32_t *output, size_t output_capacity,
                  soxchain_passed *passed);

/* Signals the end of input to the stream; then soxchain_feed with an input of length 0 gives what is left. */
int soxchain_end(soxchain_stream *stream);

/* The frames that the stream holds, and the maximum that it may hold; 0 where there is no stream. */
uint64_t soxchain_held(soxchain_stream *stream);
uint64_t soxchain_hold(soxchain_stream *stream);

/* The samples that an effect clipped; effects count from 1. 0 where there is no such effect, or no stream. */
uint64_t soxchain_clips(soxchain_stream *stream, size_t effect);

/* Frames in a second and samples in a frame that the stream gives; 0 where there is no stream. */
uint32_t soxchain_rate(soxchain_stream *stream);
size_t soxchain_channels(soxchain_stream *stream);

/* The stream as bytes, of the form that docs/library.md describes. They are copied where the buffer has space for all of them;
 * length gets their number. The stream stays as it is. */
int soxchain_freeze(soxchain_stream *stream, uint8_t *buffer, size_t buffer_length, size_t *length);

/* Goes on from a stream that was frozen to these bytes, in this process or another. This stream has to be made of the same words,
 * files, rate and channels. Where it answers another status than SOXCHAIN_OK the stream is as it was. */
int soxchain_thaw(soxchain_stream *stream, const uint8_t *bytes, size_t bytes_length);

/* Frees the stream, if there is one. The handle is then as it began. */
void soxchain_free(soxchain_stream *stream);

/* A simpler interface: effects from an argument list, and frames of int or short. It uses the calls above, and is tested, not
 * proved. Here a pointer may be NULL where its length is 0, and so may each pointer to a result. */

/* The version, as "0.1.0". */
const char *soxchain_version_string(void);

/* Effects with their state. */
typedef struct soxchain_effects soxchain_effects;

/* The effects of an argument list, as {"echo", "0.8", "0.9", "100", "0.3"}, for frames of so many channels at this rate. NULL where
 * they are refused or no memory is found; error then gets the status, and SOXCHAIN_OK else. A coefficient file is not read: give
 * fir its numbers, or use soxchain_new. */
soxchain_effects *soxchain_open(int argc, const char *const argv[], uint32_t rate, int channels, int *error);

/* Frees the effects, if there are any. */
void soxchain_close(soxchain_effects *effects);

/* Samples in a frame and frames in a second that come out; 0 where there are no effects. */
int soxchain_output_channels(soxchain_effects *effects);
uint32_t soxchain_output_rate(soxchain_effects *effects);

/* Takes frames from the front of the input, and writes those that come out to the front of the output, until no frame or no
 * space is left. Samples are interleaved; lengths are counted in frames. used and made get how many frames were taken and
 * given; frames that change nothing any more count as taken. With is_end no frame comes after these: call again with what is left of
 * the input, and then with none, until made is 0.
 * The statuses are those of soxchain_feed and soxchain_end. */
int soxchain_process_int(soxchain_effects *effects, const int32_t *input, size_t input_frames, size_t *used, int32_t *output,
                         size_t output_frames, size_t *made, int is_end);

/* The same for samples of 16 bits. Inside they are times 65536; what comes out is rounded with halves upward, and the greatest
 * numbers are clipped, as in a file of 16 bits. */
int soxchain_process_short(soxchain_effects *effects, const int16_t *input, size_t input_frames, size_t *used, int16_t *output,
                           size_t output_frames, size_t *made, int is_end);

#ifdef __cplusplus
}
#endif

#endif
