/* The stray-light tracer for C hosts: target/hosts/libnonseq.a, made by hosts/build.
 *
 * Every call takes every value, checks what it is given, does nothing undefined and ends. `refusal` is 0 where
 * nothing is refused, else the number of the refusal (NONSEQ_.. below), and `place` is the list place of what
 * was refused, from 0. A call that is refused before it runs changes nothing.
 *
 * A slice is a pointer and a length. The pointer must point to that many elements, must be aligned, and must not be
 * NULL even where the length is 0; slices that a call writes must not overlap any other slice of that call. The
 * calls can't check this.
 *
 * A call has its buffers on the stack of the thread that makes it, which must have, whatever the call is given,
 *   768 KiB  nonseq_stray_map
 *   512 KiB  nonseq_trace_given_rays
 *   256 KiB  nonseq_put_answer
 *    64 KiB  every other call
 * of which at least 16 KiB are left to the thread itself; with less the program ends at the stack's guard page. The
 * floating-point environment must be C's default: rounding to nearest, subnormal numbers kept (no flush-to-zero, no
 * denormals-are-zero, which linking by -ffast-math can set), no traps. The calls can't check these either, and nothing
 * else is asked of a caller.
 *
 * A solid is 42 doubles (sizes p, q, r, reflectance, six coefficients of its medium, its matrix row by row, the
 * inverse of it) and 4 whole numbers (shape, active, finish, medium). A flat ray is 8 doubles (origin, direction,
 * wavelength, power) and 10 whole numbers (bounce, number of media, eight media). The maps hold the pixels of
 * all detectors one after another, each row by row; the hit list has 4 doubles (x, y, flux, wavelength) and 4 whole
 * numbers (detector, bounce, reflections, total reflections) a hit. */
#ifndef NONSEQ_H
#define NONSEQ_H

#include <stddef.h>
#include <stdint.h>

#ifdef __cplusplus
extern "C" {
#endif

enum {
    NONSEQ_DONE = 0,
    NONSEQ_INVALID_THRESHOLD = 1,
    NONSEQ_BOUNCE_LIMIT_TOO_LARGE = 2,
    NONSEQ_LIST_TOO_LONG = 3,
    NONSEQ_NO_SUCH_DETECTOR = 4,
    NONSEQ_INVALID_DETECTOR_SIZE = 5,
    NONSEQ_ZERO_RESOLUTION = 6,
    NONSEQ_RESOLUTION_TOO_LARGE = 7,
    NONSEQ_PARALLEL_UP = 8,
    NONSEQ_INVALID_SLICE_LENGTH = 9,
    NONSEQ_INVALID_RAY = 10,
    NONSEQ_INVALID_MEDIA = 11,
    NONSEQ_HIT_LIST_FULL = 12,
    NONSEQ_HIT_COUNT_FULL = 13,
    NONSEQ_INVALID_WAVELENGTH = 14,
    NONSEQ_INVALID_INDEX = 15,
    NONSEQ_RAY_NOT_FINITE = 16,
    NONSEQ_INVALID_SCENE_TEXT = 17,
    NONSEQ_INVALID_DETECTOR_POSE = 18
};

enum {
    NONSEQ_MAX_SOLIDS = 32,
    NONSEQ_MAX_DETECTORS = 8,
    NONSEQ_MAX_RAYS = 4096,
    NONSEQ_MAX_BOUNCES = 16,
    NONSEQ_MAX_GIVEN_MEDIA = 8,
    NONSEQ_MAX_RESOLUTION = 4096,
    NONSEQ_MAX_SCENE_TEXT = 65536,
    NONSEQ_MAX_ANSWER = 131072
};

/* Doubles and whole numbers of one of each in its two slices. */
enum {
    NONSEQ_RUN_DOUBLES = 7,
    NONSEQ_RUN_WHOLES = 3,
    NONSEQ_SOLID_DOUBLES = 42,
    NONSEQ_SOLID_WHOLES = 4,
    NONSEQ_DETECTOR_DOUBLES = 11,
    NONSEQ_DETECTOR_WHOLES = 2,
    NONSEQ_RAY_DOUBLES = 8,
    NONSEQ_RAY_WHOLES = 10,
    NONSEQ_HIT_DOUBLES = 4,
    NONSEQ_HIT_WHOLES = 4
};

/* Shapes, finishes, media and filters by number. CYLINDER has no ends, CLOSED_CYLINDER has both. */
enum { NONSEQ_PLANE, NONSEQ_DISK, NONSEQ_SPHERE, NONSEQ_CYLINDER, NONSEQ_BOX, NONSEQ_CLOSED_CYLINDER };
enum { NONSEQ_SPECULAR, NONSEQ_MIRROR, NONSEQ_ABSORBER };
enum { NONSEQ_AIR, NONSEQ_CONSTANT, NONSEQ_SELLMEIER1, NONSEQ_SCHOTT };
/* GHOSTS_ONLY leaves out light that was only totally reflected. */
enum { NONSEQ_ALL, NONSEQ_SIGNAL_ONLY, NONSEQ_GHOSTS_ONLY, NONSEQ_TIR_ONLY, NONSEQ_STRAY_LIGHT };

typedef struct { double x, y, z; } nonseq_vec3;

typedef struct {
    nonseq_vec3 origin, direction;
    double wavelength_nm, energy;
} nonseq_ray;

typedef struct {
    nonseq_vec3 center, normal, up;
    double width_mm, height_mm;
    uint32_t res_x, res_y;
    double total_flux_watts;
    uint32_t total_rays_hit;
} nonseq_detector;

typedef struct {
    nonseq_detector list[NONSEQ_MAX_DETECTORS];
    uint32_t count;
} nonseq_detectors;

typedef struct {
    double local_x, local_y, flux_watts, wavelength_nm;
    uint32_t detector, bounce_count, reflection_count, tir_count;
} nonseq_hit;

typedef struct {
    double launched_flux_watts, detected_flux_watts, absorbed_flux_watts, escaped_flux_watts;
    double lost_flux_watts; /* of mirrored rays that were not above the threshold, and so not made */
} nonseq_ledger;

/* weak: rays that the threshold left unmade, at clear solids and mirrors */
typedef struct { uint32_t made, dim, spent, caught, gone, surface, weak; } nonseq_tallies;

typedef struct {
    nonseq_ledger ledger;
    uint32_t total_rays_traced, total_interactions;
    nonseq_tallies tallies;
} nonseq_report;

typedef struct {
    double min_power_threshold;
    uint32_t max_bounces, ambient;
    double a, b, c, d, e, f;
} nonseq_config;

typedef struct {
    nonseq_vec3 origin, direction;
    double wavelength_nm, energy;
    uint32_t bounce_count, media_count, media[NONSEQ_MAX_GIVEN_MEDIA];
} nonseq_given_ray;

typedef struct { uint32_t refusal, place; } nonseq_checked;
typedef struct { uint32_t refusal, place; double value; } nonseq_reading;
typedef struct { uint32_t refusal, place; nonseq_detector detector; } nonseq_made;
typedef struct { uint32_t refusal, place, crosses; double t, local_x, local_y; } nonseq_crossing;
typedef struct { uint32_t refusal, place; size_t used; nonseq_detectors detectors; } nonseq_recorded;
typedef struct { uint32_t refusal, place; double total_flux_watts; size_t hit_count; } nonseq_filtered;
typedef struct { uint32_t refusal, place; size_t first, pixels; } nonseq_part;
typedef struct { uint32_t refusal, place, solids, detectors, rays; } nonseq_scene;
typedef struct { uint32_t refusal, place; size_t length; } nonseq_text;
typedef struct {
    uint32_t refusal, place;
    size_t used;
    nonseq_report report;
    nonseq_detectors detectors;
} nonseq_traced;

/* A detector is refused by 5, 6, 7, 18 or 8, asked in this order, below written 5 to 8 and 18. 18 is for a centre,
 * normal or up with a part that is not finite, and for a normal or up whose length (the root of the sum of its parts'
 * squares, as a double) is at most 1e-15 or not finite: such a detector faces nowhere. */

/* A detector that has caught nothing, zeros where it is refused (5 to 8 and 18). */
nonseq_made nonseq_new_detector(nonseq_vec3 center, nonseq_vec3 normal, nonseq_vec3 up, double width_mm,
                                double height_mm, uint32_t res_x, uint32_t res_y);
/* 5 to 8 and 18. */
nonseq_checked nonseq_check_detector(nonseq_detector detector);
/* 3, then 5 to 8 and 18 of each. */
nonseq_checked nonseq_check_detectors(nonseq_detectors detectors);
/* Where a ray crosses a detector's face (5 to 8 and 18, 10); crosses is 0 where it does not. */
nonseq_crossing nonseq_intersect_ray(nonseq_detector detector, nonseq_ray ray);
/* The area of a pixel in square metres (5 to 8 and 18). */
nonseq_reading nonseq_pixel_area_m2(nonseq_detector detector);

/* One hit into its pixel, its detector's record and the list, wholly or not at all (3, 5 to 8 and 18, 4, 9, 12, 13).
 * The records and the number used that come back go into the next call. */
nonseq_recorded nonseq_record_hit_classified(nonseq_detectors detectors, double *flux, size_t flux_len,
    uint32_t *hits, size_t hits_len, double *hit_values, size_t hit_values_len,
    uint32_t *hit_tags, size_t hit_tags_len, size_t used, nonseq_hit hit);
/* Detector `asked` under a filter (17 for a filter over 4, then 3, 5 to 8 and 18, 4, 9): the work map, which has just
 * the pixels of that detector, is zeroed and refilled; NONSEQ_ALL leaves it, its map is the detector's part of flux. */
nonseq_filtered nonseq_refilter(nonseq_detectors detectors, uint32_t asked, uint32_t filter,
    const double *flux, size_t flux_len, double *work, size_t work_len,
    const double *hit_values, size_t hit_values_len, const uint32_t *hit_tags, size_t hit_tags_len,
    size_t used);
/* Where a detector's pixels stand in the maps (3, 5 to 8 and 18, 4). */
nonseq_part nonseq_pixels_of(nonseq_detectors detectors, uint32_t asked);
/* Watts a square metre on a pixel (3, 5 to 8 and 18, 4, 9); 0 outside the resolution. */
nonseq_reading nonseq_irradiance_at(nonseq_detectors detectors, uint32_t asked, const double *flux, size_t flux_len,
                                    uint32_t px, uint32_t py);

/* Traces `given` flat rays through `count` solids. 17, 1, 2, 3, 5 to 8 and 18, 9, 10, 11 come before the run and
 * change nothing; 12 to 16 come in it, and the hits of the steps before them stay. */
nonseq_traced nonseq_trace_rays(nonseq_config config, const double *solid_values, size_t solid_values_len,
    const uint32_t *solid_tags, size_t solid_tags_len, uint32_t count,
    const double *ray_values, size_t ray_values_len, const uint32_t *ray_tags, size_t ray_tags_len,
    uint32_t given, nonseq_detectors detectors, double *flux, size_t flux_len, uint32_t *hits, size_t hits_len,
    double *hit_values, size_t hit_values_len, uint32_t *hit_tags, size_t hit_tags_len, size_t used);
/* The same with the rays as structs. */
nonseq_traced nonseq_trace_given_rays(nonseq_config config, const double *solid_values, size_t solid_values_len,
    const uint32_t *solid_tags, size_t solid_tags_len, uint32_t count,
    const nonseq_given_ray *rays, size_t rays_len, nonseq_detectors detectors, double *flux, size_t flux_len,
    uint32_t *hits, size_t hits_len, double *hit_values, size_t hit_values_len,
    uint32_t *hit_tags, size_t hit_tags_len, size_t used);
/* Detected, absorbed and escaped power over launched, without lost; 1 where none was launched. */
double nonseq_energy_conservation_ratio(nonseq_ledger ledger);

/* A scene text into eight slices, the numbers of each block in the text's order (17 with the line's number leaves
 * them); `detector_values` and `detector_tags` are the detectors' 11 doubles and 2 whole numbers. A filter `-` is
 * stored as 5. */
nonseq_scene nonseq_read_scene(const uint8_t *text, size_t text_len, double *run_values, size_t run_values_len,
    uint32_t *run_tags, size_t run_tags_len, double *solid_values, size_t solid_values_len,
    uint32_t *solid_tags, size_t solid_tags_len, double *detector_values, size_t detector_values_len,
    uint32_t *detector_tags, size_t detector_tags_len, double *ray_values, size_t ray_values_len,
    uint32_t *ray_tags, size_t ray_tags_len);
/* Texts are written whole from the buffer's start on, or not at all where they do not fit; their length comes back. */

/* The answer of a tracing. A filter over 4 (17), detectors (3, 5 to 8 and 18), slices that are not theirs or more
 * than 4,096 pixels (9) are refused: the buffer is left and length is 0. NONSEQ_MAX_ANSWER bytes hold any answer. */
nonseq_text nonseq_put_answer(uint8_t *buf, size_t buf_len, nonseq_report report, nonseq_detectors detectors,
    uint32_t filter, const double *flux, size_t flux_len, const double *hit_values, size_t hit_values_len,
    const uint32_t *hit_tags, size_t hit_tags_len, size_t used);
size_t nonseq_put_refusal(uint8_t *buf, size_t buf_len, uint32_t refusal, uint32_t place);
/* The answer to a scene text, as straymap prints it; NONSEQ_MAX_ANSWER bytes hold any answer. */
size_t nonseq_stray_map(uint8_t *buf, size_t buf_len, const uint8_t *text, size_t text_len);

#ifdef __cplusplus
}
#endif
#endif
