/* The sample quantiser. */
#ifndef PLAIN_QUANTISE_H
#define PLAIN_QUANTISE_H

#include <math.h>
#include <stddef.h>
#include <stdint.h>

/* The first index of a sample that is not a number, or the length. */
static size_t first_nan(const float *samples, size_t len)
{
    size_t i = 0;
    while (i < len && samples[i] == samples[i])
        i++;
    return i;
}

static float refuse(uint64_t *numbers, uint64_t refusal, uint64_t index)
{
    numbers[0] = refusal;
    numbers[1] = index;
    return 0;
}

/* Samples to channel values, a byte each; gives the peak. The numbers become the refusal or 0, then the clipped count, a refusal's first
 * index, or 0. */
static float quantise(float scale, const float *samples, size_t samples_len, uint8_t *output, size_t output_len, uint64_t *numbers)
{
    if (samples_len != output_len)
        return refuse(numbers, 20, 0);
    if (!(scale > 0 && scale < INFINITY))
        return refuse(numbers, 21, 0);
    size_t nan_index = first_nan(samples, samples_len);
    if (nan_index < samples_len)
        return refuse(numbers, 22, nan_index);
    float peak = 0;
    size_t clipped = 0;
    for (size_t i = 0; i < samples_len; i++) {
        float p = scale * samples[i], magnitude = fabsf(p);
        double quarters = 4.0 * magnitude;
        int nearest = quarters < 32 ? (int)(quarters + 0.5) : 32; /* a double holds the sum exactly where it matters */
        int level = nearest < 32 ? nearest : 31;
        output[i] = (uint8_t)(p < 0 ? -level : level);
        clipped += nearest == 32;
        peak = magnitude > peak ? magnitude : peak;
    }
    numbers[0] = 0;
    numbers[1] = clipped;
    return peak;
}

#endif
