/* A sound from standard input through effects to standard output, both samples of 16 bits as this machine has them.
 *
 *     simple RATE CHANNELS EFFECT [WORD ..]
 */
#include "soxchain.h"

#include <stdio.h>
#include <stdlib.h>

enum { SAMPLES = 4096 };

int main(int argc, char **argv) {
    static int16_t input[SAMPLES], output[SAMPLES];
    if (argc < 4) {
        fputs("usage: simple RATE CHANNELS EFFECT [WORD ..]\n", stderr);
        return SOXCHAIN_REFUSED;
    }
    int channels = atoi(argv[2]), status = SOXCHAIN_OK, is_end = 0;
    soxchain_effects *effects = soxchain_open(argc - 3, (const char *const *)argv + 3, (uint32_t)strtoul(argv[1], NULL, 10), channels, &status);
    if (effects == NULL) {
        fprintf(stderr, "simple: %s\n", soxchain_strerror(status));
        return status;
    }
    size_t in_frame = 2 * (size_t)channels, out_channels = (size_t)soxchain_output_channels(effects), made = 0;
    while (status == SOXCHAIN_OK && !(is_end && made == 0)) {
        size_t frames = is_end ? 0 : fread(input, in_frame, SAMPLES / (size_t)channels, stdin), done = 0, used = 0;
        is_end = is_end || frames == 0;
        do {
            status = soxchain_process_short(effects, input + done * (size_t)channels, frames - done, &used, output,
                                            SAMPLES / out_channels, &made, is_end);
            done += used;
            fwrite(output, 2 * out_channels, made, stdout);
        } while (status == SOXCHAIN_OK && (done < frames || made == SAMPLES / out_channels));
    }
    soxchain_close(effects);
    return status == SOXCHAIN_OK && (ferror(stdin) || fflush(stdout) != 0) ? SOXCHAIN_FAILED : status;
}
