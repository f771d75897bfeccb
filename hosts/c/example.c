/* Document 01's scene through the C calls: one ray on one pixel of four. Prints the answer, then tries some
 * refusals, the layout of the structs and the numbers of shapes, finishes, media and filters. */
#include "nonseq.h"
#include <stdio.h>
#include <string.h>

static int wrong;

static void expect(const char *what, int holds)
{
    if (!holds) {
        printf("not so: %s\n", what);
        wrong = 1;
    }
}

static void layout(void)
{
    expect("a vector has 24 bytes", sizeof(nonseq_vec3) == 24);
    expect("a ray has 64 bytes", sizeof(nonseq_ray) == 64);
    expect("a detector has 112 bytes", sizeof(nonseq_detector) == 112);
    expect("its total stands at 96", offsetof(nonseq_detector, total_flux_watts) == 96);
    expect("the detectors have 904 bytes", sizeof(nonseq_detectors) == 904);
    expect("a hit has 48 bytes", sizeof(nonseq_hit) == 48);
    expect("a report has 80 bytes", sizeof(nonseq_report) == 80);
    expect("the rules have 64 bytes", sizeof(nonseq_config) == 64);
    expect("a given ray has 104 bytes", sizeof(nonseq_given_ray) == 104);
    expect("a tracing's answer has 1000 bytes", sizeof(nonseq_traced) == 1000);
}

static void numbers(void)
{
    expect("the closed cylinder is shape 5", NONSEQ_PLANE == 0 && NONSEQ_CYLINDER == 3 && NONSEQ_CLOSED_CYLINDER == 5);
    expect("the absorber is finish 2", NONSEQ_SPECULAR == 0 && NONSEQ_ABSORBER == 2);
    expect("Schott's is medium 3", NONSEQ_AIR == 0 && NONSEQ_SCHOTT == 3);
    expect("stray light is filter 4", NONSEQ_ALL == 0 && NONSEQ_STRAY_LIGHT == 4);
}

int main(void)
{
    nonseq_vec3 center = {0, 0, 10}, normal = {0, 0, 1}, up = {0, 1, 0}, nowhere = {0, 0, 0};
    nonseq_made made = nonseq_new_detector(center, normal, up, 4, 4, 2, 2);
    nonseq_detectors detectors;
    nonseq_given_ray ray = {{1, 1, 0}, {0, 0, 1}, 550, 1, 0, 0, {0}};
    nonseq_config config = {0, 4, NONSEQ_AIR, 0, 0, 0, 0, 0, 0};
    double solid_values[1] = {0}, flux[4] = {0}, hit_values[8] = {0}, work[4];
    uint32_t solid_tags[1] = {0}, hits[4] = {0}, hit_tags[8] = {0};
    uint8_t text[1024];
    nonseq_traced t;
    nonseq_filtered f;
    nonseq_text a;

    layout();
    numbers();
    expect("the detector is made", made.refusal == NONSEQ_DONE);
    expect("no columns are refused by 6", nonseq_new_detector(center, normal, up, 4, 4, 0, 2).refusal == NONSEQ_ZERO_RESOLUTION);
    expect("a normal of 0 faces nowhere", nonseq_new_detector(center, nowhere, up, 4, 4, 2, 2).refusal == NONSEQ_INVALID_DETECTOR_POSE);
    memset(&detectors, 0, sizeof detectors);
    detectors.list[0] = made.detector;
    detectors.count = 1;

    t = nonseq_trace_given_rays(config, solid_values, 0, solid_tags, 0, 0, &ray, 1, detectors, flux, 4, hits, 4, hit_values, 8, hit_tags, 8, 0);
    expect("the ray is traced", t.refusal == NONSEQ_DONE && t.used == 1);
    expect("all of it is detected", nonseq_energy_conservation_ratio(t.report.ledger) == 1 && t.report.ledger.lost_flux_watts == 0);
    a = nonseq_put_answer(text, sizeof text, t.report, t.detectors, NONSEQ_ALL, flux, 4, hit_values, 8, hit_tags, 8, t.used);
    expect("the answer fits", a.refusal == NONSEQ_DONE && a.length <= sizeof text);
    fwrite(text, 1, a.length, stdout);
    text[0] = '?';
    expect("one byte too few, and the length is told", nonseq_put_answer(text, a.length - 1, t.report, t.detectors, NONSEQ_ALL, flux, 4, hit_values, 8, hit_tags, 8, t.used).length == a.length && text[0] == '?');
    a = nonseq_put_answer(text, sizeof text, t.report, t.detectors, 5, flux, 4, hit_values, 8, hit_tags, 8, t.used);
    expect("there is no filter 5, and the buffer is left", a.refusal == NONSEQ_INVALID_SCENE_TEXT && a.length == 0 && text[0] == '?');
    expect("one byte too few, and nothing is written", nonseq_put_refusal(text, 17, 17, 4) == 19 && text[0] == '?');

    f = nonseq_refilter(t.detectors, 0, NONSEQ_GHOSTS_ONLY, flux, 4, work, 4, hit_values, 8, hit_tags, 8, t.used);
    expect("it is no ghost", f.refusal == NONSEQ_DONE && f.hit_count == 0 && work[3] == 0);
    f = nonseq_refilter(t.detectors, 1, NONSEQ_ALL, flux, 4, work, 4, hit_values, 8, hit_tags, 8, t.used);
    expect("there is no detector 1", f.refusal == NONSEQ_NO_SUCH_DETECTOR);
    config.ambient = 4;
    t = nonseq_trace_given_rays(config, solid_values, 0, solid_tags, 0, 0, &ray, 1, t.detectors, flux, 4, hits, 4, hit_values, 8, hit_tags, 8, t.used);
    expect("there is no medium 4", t.refusal == NONSEQ_INVALID_SCENE_TEXT && t.used == 1);
    return wrong;
}
