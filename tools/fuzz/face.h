/* What the Rust original makes of the same calls; where it is not here, nothing is compared. */
#include <simmerpatch.h>

#ifdef ORIGINAL
/* From original.rs. Each is 1 where the original makes the same samples and carries the same. */
int original_resamples(simmerpatch_record given, const int16_t *input, size_t n, const int16_t *out, size_t made,
                       simmerpatch_record after);
int original_by_two(int split, simmerpatch_two given, const int16_t *input, size_t n, const int16_t *low,
                    const int16_t *high, simmerpatch_two after);
int original_by_three(simmerpatch_six given, const int16_t *input, size_t n, const int16_t *out, simmerpatch_six after);
#else
#define original_resamples(given, input, n, out, made, after) 1
#define original_by_two(split, given, input, n, low, high, after) 1
#define original_by_three(given, input, n, out, after) 1
#endif
