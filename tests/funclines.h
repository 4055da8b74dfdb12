/* What libfunclines.a (10 to 68) and libfunclines_disk.a (70 to 95) export: each function calls the ported function of
 * its name, and asks what that one asks of lengths and counts: tests/funclines.c tests them before it calls. Here
 * `const float x[N]` is Rattle's `&[f32; N]`, and a pointer with a length behind it a slice. */
#ifndef FUNCLINES_H
#define FUNCLINES_H

#include <stdbool.h>
#include <stddef.h>
#include <stdint.h>

#define SAMPLES 16
#define SAMPLES24 24
#define ANGLES 64
#define PAIRED_ANGLES 24
#define PAIRS 276
#define PIXELS 320
#define TABLES 3

/* `some` is false where there is nothing. */
struct two { float values[2]; };
struct known2 { float values[2]; bool known; };
struct four { bool some; float values[4]; };
struct swapped { float values[3]; bool swapped; };
struct seed5 { bool some; float values[5]; };
struct fit6 { float values[6]; };
struct start { bool some; float values[6]; size_t updates; };
struct ring { float values[6], mean; size_t counts[3]; };
struct set { size_t n; float angles[ANGLES]; };
struct index { bool some; size_t i; };
struct pair { bool some; size_t i, j; };
struct scored { uint16_t i, j; float edge_score; bool forced; };
struct pairs { size_t n; struct scored pairs[PAIRS]; };
struct fit9 { bool some; float values[9]; };
struct leaders { struct fit9 first, second; };
struct best { struct fit9 fit; size_t trials; };
struct sums { float total, sums[ANGLES]; };
struct rows { float sums[3], rows[7][PIXELS]; };   /* three rows; what stands behind them is of no account */

/* 10 to 17 */
float fl_rem_euclid_pi(float x);
float fl_rem_euclid_tau(float x);
float fl_max(float x, float y);
float fl_min(float x, float y);
float fl_sqrt(float x);
float fl_narrow(double x);
uint32_t fl_total_key(float x);
float fl_to_radians(float x);
size_t fl_bin_of(float angle);

/* 20 to 24 */
float fl_sin(float x);
float fl_cos(float x);
float fl_tanh(float x);
float fl_exp(float x);
float fl_atan2(float y, float x);

/* 30 to 35, 51 and 52 */
float fl_wrap_pi(float a);
float fl_signed_line_delta(float a, float b);
float fl_line_delta(float a, float b);
float fl_line_separation(float a0, float a1);
float fl_pair_disagreement(float a0, float a1, float b0, float b1);
bool fl_valid_pair(float a0, float a1);

/* 40 to 46; a matrix goes by rows, and the seed is theta1, theta2, amp, mu */
struct four fl_solve_4x4(const float a[16], const float b[4]);
struct two fl_axis_std_errors(const float jtj[16], float ssr, size_t n);
struct known2 fl_axis_std_errors_known(const float jtj[16], float ssr, size_t n);
struct fit6 fl_degenerate_fit(float centered_var);
struct swapped fl_canonicalize_tracking_swap(float theta1, float theta2, float amp);
float fl_wrap_to_tau(float x);
struct start fl_fit_with_seed(const float samples[SAMPLES], const float ring_phi[SAMPLES], const float seed[4],
                              float centered_var);

/* 50 to 54 */
struct two fl_second_harmonic(const float samples[SAMPLES], const float ring_phi[SAMPLES], float mean);
struct seed5 fl_score_seed_pair(const float centered[SAMPLES], float centered_sum_sq, float mean,
                                const float h1[SAMPLES], const float h2[SAMPLES], float theta1, float theta2);
struct seed5 fl_insert_seed_candidate(struct seed5 top, const float candidate[5]);

/* 60 to 66; 66 is fl_fit_ring with its mean */
struct ring fl_fit_ring(const float samples[SAMPLES], const float ring_phi[SAMPLES]);
bool fl_fit_is_suspicious(const float fit[6]);
float fl_relative_rms(const float fit[6]);
struct start fl_robust_grid_fit(const float samples[SAMPLES], const float ring_phi[SAMPLES], float mean,
                                float centered_var);
struct start fl_refine_seed_candidates(const float samples[SAMPLES], const float ring_phi[SAMPLES],
                                       float centered_var, struct seed5 top);
struct ring fl_fit_ring24(const float samples[SAMPLES24], const float ring_phi[SAMPLES24]);

/* 67 and 68; the tables are the words of a jb_tables. A match is the first table's index, or TABLES. */
struct ring fl_tables_fit(const float *tables, const float samples[SAMPLES], const float ring_phi[SAMPLES]);
size_t fl_tables_match(const float *tables, const float ring_phi[SAMPLES]);
struct seed5 fl_score_cached_seed_model(const float centered[SAMPLES], float centered_sum_sq, float mean, float theta1,
                                        float theta2, float q_mean, const float q_centered[SAMPLES], float denom);

/* 70 to 77 */
struct set fl_push_unique(struct set set, float angle, float min_sep);
struct set fl_histogram_candidates(const float *grad_angles, size_t, const float *grad_weights, size_t, float base0,
                                   float base1);
struct pair fl_forced_seed_pair(struct set set, float base0, float base1);
struct pair fl_forced_histogram_pair(struct set set, const float *edges, size_t);
struct index fl_closest_candidate(struct set set, float target);
bool fl_matches_pair(struct pair forced, size_t i, size_t j);
struct pairs fl_build_pair_pool(struct set set, const float *edges, size_t, float total, struct pair seed,
                                struct pair histogram);
float fl_combine_edge_pair(float a, float b, float total);

/* 80 to 83 */
struct fit9 fl_score_pair_cached(float val_energy, const float *vals_centered, size_t, float theta0, float theta1,
                                 float width, float edge_score, const float *h0, size_t, const float *h1, size_t);
struct sums fl_precompute_edge_alignments(const float *grad_angles, size_t, const float *grad_weights, size_t,
                                          struct set set);
bool fl_fit_is_better(const float a[9], const float b[9]);
struct two fl_fit_std_errors(const float *xs, size_t, const float *ys, size_t, const float *vals_centered, size_t,
                             const float fit[9]);

/* 90 to 95 */
struct best fl_best_disk_fit(float val_energy, float base0, float base1, const float *xs, size_t, const float *ys, size_t,
                             const float *vals_centered, size_t, const float *grad_angles, size_t,
                             const float *grad_weights, size_t);
struct pairs fl_rank(struct pairs pool);
struct leaders fl_insert_top(struct fit9 first, struct fit9 second, const float fit[9]);
struct fit9 fl_refine_fit_cached(const float seed[9], float val_energy, const float *xs, size_t, const float *ys, size_t,
                                 const float *vals_centered, size_t, const float *grad_angles, size_t,
                                 const float *grad_weights, size_t);
float fl_edge_weight_total(const float *grad_weights, size_t);
struct rows fl_build_axis_rows(const float *xs, size_t, const float *ys, size_t, const float *grad_angles, size_t,
                               const float *grad_weights, size_t, float base, const float offsets[3], float width);

#endif
