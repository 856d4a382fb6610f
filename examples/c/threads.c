/* One sound through several chains at once, each in a thread of its own: samples of 32 bits from standard input, as this machine has
 * them, and to standard output what the chains give, one chain after the other.
 *
 *     threads [-r RATE] [-c CHANNELS] CHAIN ..
 *
 * A CHAIN is one word, as 'vol 0.5 echo 1 1 100 0.5'. Each thread has a stream of its own, and feeds it pieces of another size. The
 * status is 0, or what the library answered first.
 */
#include "soxchain.h"

#include <pthread.h>
#include <stdio.h>
#include <stdlib.h>
#include <string.h>

enum { MOST_CHAINS = 64, CAPACITY = 4096 };

static const uint8_t no_bytes[1];
static const size_t no_ends[1];

typedef struct job {
    const char *chain;
    const int32_t *input;
    size_t samples, channels, piece;
    uint32_t rate;
    int32_t *output;
    size_t given;
    int status;
} job;

/* Makes the stream of a chain, whose words lie between blanks. */
static int make(const job *it, soxchain_stream *stream) {
    size_t length = strlen(it->chain), size = 0, count = 0, told = 0;
    uint8_t *bytes = malloc(length + 1), none[1];
    size_t *ends = malloc((length + 1) * sizeof *ends);
    int status = SOXCHAIN_NO_MEMORY;
    if (bytes != NULL && ends != NULL) {
        for (size_t i = 0; i < length; i++) {
            if (it->chain[i] != ' ') bytes[size++] = (uint8_t)it->chain[i];
            if (it->chain[i] != ' ' && (it->chain[i + 1] == ' ' || it->chain[i + 1] == '\0')) ends[count++] = size;
        }
        status = soxchain_new(bytes, size, ends, count, no_bytes, 0, no_ends, 0, it->rate, it->channels, none, 0, &told, stream);
    }
    free(bytes);
    free(ends);
    return status;
}

/* Keeps samples that were given. */
static int keep(job *it, const int32_t *samples, size_t count) {
    int32_t *more = realloc(it->output, (it->given + count + 1) * sizeof *more);
    if (more == NULL) return SOXCHAIN_NO_MEMORY;
    memcpy(more + it->given, samples, count * sizeof *samples);
    it->output = more;
    it->given += count;
    return SOXCHAIN_OK;
}

/* Feeds samples, as many as the stream takes. */
static int feed(job *it, soxchain_stream *stream, const int32_t *input, size_t samples, uint32_t *waits) {
    int32_t room[CAPACITY];
    soxchain_passed passed;
    size_t width = soxchain_channels(stream);
    do {
        int status = soxchain_feed(stream, input, samples, room, CAPACITY, &passed);
        if (status == SOXCHAIN_OK) status = keep(it, room, passed.given * width);
        if (status != SOXCHAIN_OK) return status;
        input += passed.taken * it->channels;
        samples -= passed.taken * it->channels;
    } while (passed.waits == SOXCHAIN_WAITS_FOR_ROOM || (samples > 0 && passed.waits == SOXCHAIN_WAITS_FOR_FRAMES));
    *waits = passed.waits;
    return SOXCHAIN_OK;
}

/* The whole of a thread: a stream from its beginning to its end. */
static void *run(void *given) {
    job *it = given;
    soxchain_stream stream = SOXCHAIN_NO_HANDLE;
    uint32_t waits = SOXCHAIN_WAITS_FOR_FRAMES;
    size_t piece = it->piece * it->channels;
    it->status = make(it, &stream);
    for (size_t at = 0; it->status == SOXCHAIN_OK && at < it->samples && waits == SOXCHAIN_WAITS_FOR_FRAMES; at += piece)
        it->status = feed(it, &stream, it->input + at, it->samples - at < piece ? it->samples - at : piece, &waits);
    if (it->status == SOXCHAIN_OK && waits != SOXCHAIN_WAITS_FOR_NOTHING) it->status = soxchain_end(&stream);
    if (it->status == SOXCHAIN_OK) it->status = feed(it, &stream, it->input, 0, &waits);
    soxchain_free(&stream);
    return NULL;
}

/* All of standard input. */
static int32_t *read_all(size_t *samples) {
    int32_t *input = NULL;
    size_t room = 0, got;
    *samples = 0;
    do {
        if (*samples == room) {
            int32_t *more = realloc(input, (room += 65536) * sizeof *more);
            if (more == NULL) {
                free(input);
                return NULL;
            }
            input = more;
        }
        got = fread(input + *samples, sizeof *input, room - *samples, stdin);
        *samples += got;
    } while (got > 0);
    return input;
}

/* Runs all jobs, each in a thread, and writes what they gave, in order. */
static int run_all(job *jobs, size_t count) {
    pthread_t threads[MOST_CHAINS];
    size_t started = 0;
    int status = SOXCHAIN_OK;
    while (started < count && pthread_create(&threads[started], NULL, run, &jobs[started]) == 0) started++;
    for (size_t i = 0; i < started; i++) pthread_join(threads[i], NULL);
    if (started < count) status = SOXCHAIN_FAILED;
    for (size_t i = 0; i < started; i++) {
        if (status == SOXCHAIN_OK) status = jobs[i].status;
        if (status == SOXCHAIN_OK && fwrite(jobs[i].output, sizeof(int32_t), jobs[i].given, stdout) != jobs[i].given)
            status = SOXCHAIN_FAILED;
        free(jobs[i].output);
    }
    return status;
}

int main(int count, char **words) {
    uint32_t rate = 8000;
    size_t channels = 1, samples;
    int at = 1;
    for (; at + 1 < count && words[at][0] == '-'; at += 2) {
        if (strcmp(words[at], "-r") == 0) rate = (uint32_t)strtoul(words[at + 1], NULL, 10);
        else if (strcmp(words[at], "-c") == 0) channels = strtoul(words[at + 1], NULL, 10);
    }
    if (count - at > MOST_CHAINS) return SOXCHAIN_FAILED;
    int32_t *input = read_all(&samples);
    job jobs[MOST_CHAINS];
    for (int i = at; i < count; i++) {
        job it = {words[i], input, samples, channels, 1 + 97 * (size_t)(i - at), rate, NULL, 0, SOXCHAIN_OK};
        jobs[i - at] = it;
    }
    int status = input == NULL ? SOXCHAIN_NO_MEMORY : run_all(jobs, (size_t)(count - at));
    free(input);
    if (status != SOXCHAIN_OK) fprintf(stderr, "threads: %s\n", soxchain_strerror(status));
    return status;
}
