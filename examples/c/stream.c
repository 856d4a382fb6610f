/* A sound from standard input through a stream of effects to standard output, both samples of 32 bits as this machine has them.
 *
 *     stream [-r RATE] [-c CHANNELS] [-n FRAMES SNAPSHOT | -t SNAPSHOT] EFFECT [WORD ..]
 *
 * With -n it stops after so many frames of input and keeps the stream in SNAPSHOT; with -t it goes on from there, perhaps in
 * another process, with the input after those frames. The status is 0, or what the library answered.
 */
#include "soxchain.h"

#include <stdio.h>
#include <stdlib.h>
#include <string.h>

enum { BLOCK = 1024, MAX_CHANNELS = 16 };

static const uint8_t no_bytes[1];
static const size_t no_ends[1];

static int told(const char *what, int status) {
    fprintf(stderr, "stream: %s: %s\n", what, soxchain_strerror(status));
    return status;
}

/* Makes the stream of these words. */
static int make(int count, char **words, uint32_t rate, size_t channels, soxchain_stream *stream) {
    uint8_t messages[1024];
    size_t length = 0, size = 0, at = 0;
    for (int i = 0; i < count; i++) size += strlen(words[i]);
    uint8_t *bytes = malloc(size + 1);
    size_t *ends = malloc(((size_t)count + 1) * sizeof *ends);
    int status = SOXCHAIN_NO_MEMORY;
    if (bytes != NULL && ends != NULL) {
        for (int i = 0; i < count; i++) {
            memcpy(bytes + at, words[i], strlen(words[i]));
            ends[i] = at += strlen(words[i]);
        }
        status = soxchain_new(bytes, size, ends, (size_t)count, no_bytes, 0, no_ends, 0, rate, channels, messages, sizeof messages,
                              &length, stream);
        if (length <= sizeof messages) fwrite(messages, 1, length, stderr);
    }
    free(bytes);
    free(ends);
    return status == SOXCHAIN_OK ? status : told("effects", status);
}

/* Keeps the stream in a file. */
static int keep(soxchain_stream *stream, const char *name) {
    uint8_t none[1];
    size_t length = 0;
    int status = soxchain_freeze(stream, none, 0, &length);
    if (status != SOXCHAIN_OK) return told(name, status);
    uint8_t *bytes = malloc(length + 1);
    FILE *file = fopen(name, "wb");
    if (bytes == NULL || file == NULL) status = SOXCHAIN_NO_MEMORY;
    if (status == SOXCHAIN_OK) status = soxchain_freeze(stream, bytes, length, &length);
    if (status == SOXCHAIN_OK && fwrite(bytes, 1, length, file) != length) status = SOXCHAIN_FAILED;
    if (file != NULL && fclose(file) != 0) status = SOXCHAIN_FAILED;
    free(bytes);
    return status == SOXCHAIN_OK ? status : told(name, status);
}

/* Goes on from a file. */
static int go_on(soxchain_stream *stream, const char *name) {
    FILE *file = fopen(name, "rb");
    if (file == NULL) return told(name, SOXCHAIN_FAILED);
    uint8_t *bytes = NULL;
    size_t length = 0, room = 0;
    for (;;) {
        if (length == room) {
            room = 2 * room + 4096;
            uint8_t *more = realloc(bytes, room);
            if (more == NULL) break;
            bytes = more;
        }
        size_t got = fread(bytes + length, 1, room - length, file);
        if (got == 0) break;
        length += got;
    }
    fclose(file);
    int status = bytes == NULL ? SOXCHAIN_NO_MEMORY : soxchain_thaw(stream, bytes, length);
    free(bytes);
    return status == SOXCHAIN_OK ? status : told(name, status);
}

/* Feeds what is in a block, and writes what comes; then waits says what the stream waits for. */
static int feed(soxchain_stream *stream, const int32_t *input, size_t frames, size_t channels, uint32_t *waits) {
    int32_t output[BLOCK * MAX_CHANNELS];
    soxchain_passed passed = {0, 0, 0};
    size_t width = soxchain_channels(stream);
    do {
        int status = soxchain_feed(stream, input, frames * channels, output, BLOCK * width, &passed);
        if (status != SOXCHAIN_OK) return told("feed", status);
        if (fwrite(output, width * sizeof *output, passed.given, stdout) != passed.given) return told("write", SOXCHAIN_FAILED);
        input += passed.taken * channels;
        frames -= passed.taken;
    } while (passed.waits == SOXCHAIN_WAITS_FOR_ROOM || (frames > 0 && passed.waits == SOXCHAIN_WAITS_FOR_FRAMES));
    *waits = passed.waits;
    return SOXCHAIN_OK;
}

/* Feeds standard input to the end, or so many frames of it; then the end, unless the stream is to be kept. */
static int run(soxchain_stream *stream, size_t channels, uint64_t most, int is_kept) {
    int32_t input[BLOCK * MAX_CHANNELS];
    uint32_t waits = SOXCHAIN_WAITS_FOR_FRAMES;
    int status = SOXCHAIN_OK;
    while (status == SOXCHAIN_OK && waits == SOXCHAIN_WAITS_FOR_FRAMES && most > 0) {
        size_t wanted = most < BLOCK ? (size_t)most : BLOCK;
        size_t got = fread(input, channels * sizeof *input, wanted, stdin);
        if (got == 0) break;
        most -= got;
        status = feed(stream, input, got, channels, &waits);
    }
    if (status != SOXCHAIN_OK || is_kept) return status;
    if (waits != SOXCHAIN_WAITS_FOR_NOTHING) status = soxchain_end(stream);
    if (status != SOXCHAIN_OK) return told("end", status);
    return feed(stream, input, 0, channels, &waits);
}

int main(int count, char **words) {
    uint32_t rate = 8000;
    size_t channels = 1;
    uint64_t most = UINT64_MAX;
    const char *kept = NULL, *thawed = NULL;
    int at = 1;
    for (; at + 1 < count && words[at][0] == '-'; at += 2) {
        if (strcmp(words[at], "-r") == 0) rate = (uint32_t)strtoul(words[at + 1], NULL, 10);
        else if (strcmp(words[at], "-c") == 0) channels = strtoul(words[at + 1], NULL, 10);
        else if (strcmp(words[at], "-t") == 0) thawed = words[at + 1];
        else if (strcmp(words[at], "-n") == 0 && at + 2 < count) {
            most = strtoull(words[at + 1], NULL, 10);
            kept = words[at + 2];
            at++;
        } else break;
    }
    soxchain_stream stream = SOXCHAIN_NO_HANDLE;
    int status = make(count - at, words + at, rate, channels, &stream);
    if (status == SOXCHAIN_OK && thawed != NULL) status = go_on(&stream, thawed);
    if (status == SOXCHAIN_OK) status = run(&stream, channels, most, kept != NULL);
    if (status == SOXCHAIN_OK && kept != NULL) status = keep(&stream, kept);
    soxchain_free(&stream);
    return status;
}
