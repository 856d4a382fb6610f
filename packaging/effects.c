/* The simpler interface of the library: effects from an argument list, frames of int or short. It is not proved; what it calls is. */
#include "soxchain.h"

#include <stdlib.h>
#include <string.h>

enum { BLOCK_SAMPLES = 4096 };

struct soxchain_effects {
    soxchain_stream stream;
    size_t inputs;
    size_t outputs;
    int has_ended;
};

static const uint8_t no_bytes[1];
static const size_t no_ends[1];
static const int32_t no_samples[1];

const char *soxchain_version_string(void) {
    return SOXCHAIN_VERSION;
}

/* Makes the stream of these words. */
static int make(int argc, const char *const argv[], uint32_t rate, size_t channels, soxchain_stream *stream) {
    uint8_t message[1];
    size_t size = 0, at = 0, told = 0, count = argc < 0 ? 0 : (size_t)argc;
    for (size_t i = 0; i < count; i++) size += strlen(argv[i]);
    uint8_t *bytes = malloc(size + 1);
    size_t *ends = malloc((count + 1) * sizeof *ends);
    int status = SOXCHAIN_NO_MEMORY;
    if (bytes != NULL && ends != NULL) {
        for (size_t i = 0; i < count; i++) {
            memcpy(bytes + at, argv[i], strlen(argv[i]));
            ends[i] = at += strlen(argv[i]);
        }
        status = soxchain_new(bytes, size, ends, count, no_bytes, 0, no_ends, 0, rate, channels, message, 0, &told, stream);
    }
    free(bytes);
    free(ends);
    return status;
}

soxchain_effects *soxchain_open(int argc, const char *const argv[], uint32_t rate, int channels, int *error) {
    static const soxchain_stream none = SOXCHAIN_NO_HANDLE;
    int status = SOXCHAIN_BAD_CHANNELS;
    soxchain_effects *effects = NULL;
    if (channels > 0) {
        effects = malloc(sizeof *effects);
        status = SOXCHAIN_NO_MEMORY;
    }
    if (effects != NULL) {
        effects->stream = none;
        status = make(argc, argv, rate, (size_t)channels, &effects->stream);
        effects->inputs = (size_t)channels;
        effects->outputs = soxchain_channels(&effects->stream);
        effects->has_ended = 0;
    }
    if (status != SOXCHAIN_OK) {
        free(effects);
        effects = NULL;
    }
    if (error != NULL) *error = status;
    return effects;
}

void soxchain_close(soxchain_effects *effects) {
    if (effects == NULL) return;
    soxchain_free(&effects->stream);
    free(effects);
}

int soxchain_output_channels(soxchain_effects *effects) {
    return effects == NULL ? 0 : (int)effects->outputs;
}

uint32_t soxchain_output_rate(soxchain_effects *effects) {
    return effects == NULL ? 0 : soxchain_rate(&effects->stream);
}

/* Does no frame change any more what comes out? */
static int has_enough(const soxchain_passed *passed) {
    return passed->waits == SOXCHAIN_WAITS_FOR_END || passed->waits == SOXCHAIN_WAITS_FOR_NOTHING;
}

/* Signals the end of input, once, where the stream waits for frames. */
static int end(soxchain_effects *effects, const soxchain_passed *passed) {
    int is_waiting = passed->waits == SOXCHAIN_WAITS_FOR_FRAMES || passed->waits == SOXCHAIN_WAITS_FOR_END;
    if (effects->has_ended || !is_waiting) return SOXCHAIN_OK;
    int status = soxchain_end(&effects->stream);
    effects->has_ended = status == SOXCHAIN_OK;
    return status;
}

int soxchain_process_int(soxchain_effects *effects, const int32_t *input, size_t input_frames, size_t *used, int32_t *output,
                         size_t output_frames, size_t *made, int is_end) {
    int32_t no_space[1];
    size_t taken = 0, given = 0;
    int status = effects == NULL ? SOXCHAIN_NO_STREAM : SOXCHAIN_OK;
    int goes_on = status == SOXCHAIN_OK;
    while (goes_on) {
        soxchain_passed passed = {0, 0, SOXCHAIN_WAITS_FOR_FRAMES};
        size_t left = input_frames - taken, room = output_frames - given;
        int had_ended = effects->has_ended;
        status = soxchain_feed(&effects->stream, left == 0 ? no_samples : input + taken * effects->inputs, left * effects->inputs,
                               room == 0 ? no_space : output + given * effects->outputs, room * effects->outputs, &passed);
        taken = has_enough(&passed) ? input_frames : taken + passed.taken;
        given += passed.given;
        if (status == SOXCHAIN_OK && is_end && taken == input_frames) status = end(effects, &passed);
        goes_on = status == SOXCHAIN_OK && (passed.taken != 0 || passed.given != 0 || had_ended != effects->has_ended);
    }
    if (used != NULL) *used = taken;
    if (made != NULL) *made = given;
    return status;
}

/* A sample in 16 bits, rounded with halves upward; the greatest ones are clipped, as in a file of 16 bits. */
static int16_t narrowed(int32_t sample) {
    int64_t rounded = ((int64_t)sample + 0x8000) >> 16;
    return (int16_t)(rounded > INT16_MAX ? INT16_MAX : rounded);
}

int soxchain_process_short(soxchain_effects *effects, const int16_t *input, size_t input_frames, size_t *used, int16_t *output,
                           size_t output_frames, size_t *made, int is_end) {
    int32_t wide_input[BLOCK_SAMPLES], wide_output[BLOCK_SAMPLES];
    size_t taken = 0, given = 0, step_used = 1, step_made = 0;
    int status = effects == NULL ? SOXCHAIN_NO_STREAM : SOXCHAIN_OK;
    while (status == SOXCHAIN_OK && (step_used != 0 || step_made != 0)) {
        size_t most_in = BLOCK_SAMPLES / effects->inputs, most_out = BLOCK_SAMPLES / (effects->outputs ? effects->outputs : 1);
        size_t in = input_frames - taken, out = output_frames - given;
        if (in > most_in) in = most_in;
        if (out > most_out) out = most_out;
        for (size_t i = 0; i < in * effects->inputs; i++) wide_input[i] = input[taken * effects->inputs + i] * 0x10000;
        status = soxchain_process_int(effects, wide_input, in, &step_used, wide_output, out, &step_made,
                                      is_end && in == input_frames - taken);
        for (size_t i = 0; i < step_made * effects->outputs; i++) output[given * effects->outputs + i] = narrowed(wide_output[i]);
        taken += step_used;
        given += step_made;
    }
    if (used != NULL) *used = taken;
    if (made != NULL) *made = given;
    return status;
}
