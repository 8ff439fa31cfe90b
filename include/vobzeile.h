/*
 * Vobzeile: the linear step of a global positioning kernel. Link with libexports.a and the C library (x86-64 Linux).
 *
 * Types. size_t has 64 bits, double is IEEE 754 binary64. A buffer is two arguments, a pointer and then the number of its elements.
 *
 * Buffers. A pointer is aligned for its type and has that many elements behind it for the whole call. A buffer that a call changes
 * overlaps no other buffer of that call; buffers that it only reads may overlap. With length 0 nothing is read or written through the
 * pointer; pass a non-null aligned one all the same (the address of any object of the type will do), since NULL is nowhere promised.
 * No function keeps anything between calls: threads may call at the same time and share buffers that their calls only read; a buffer
 * that a call changes belongs to that call while it runs.
 *
 * Floating point. Results are promised in the default environment: round to nearest, subnormal numbers neither flushed to zero nor
 * read as zero.
 *
 * The network. n cameras, m points, b bearings, e directions. A row is a bearing or a direction; rows are numbered bearings first
 * (0 to b-1), then directions (b to b+e-1), and share their buffers:
 *
 *   ends      2(b+e)   camera, point of a bearing; source, target of a direction; counted from 0
 *   rays      3(b+e)   x, y, z of a bearing's ray or of a direction
 *   weights     b+e    finite, not below 0
 *   scales      b+e    finite, above 0
 *   points      3m     x, y, z
 *   offsets     m+1    the point lists: point p has rows[offsets[p]] to rows[offsets[p+1] - 1], in any order
 *   rows         b
 *   marks        b     written by the calls that test the lists ('Marks' below)
 *
 * Offsets go from 0 to b and never fall, and the lists name every bearing once, under its own point. Sums over a point's bearings go in
 * list order, so that another order may round otherwise.
 *
 * Rays are used as they are given: they are not normalised, and zero ones are not refused. For a ray of unit length the scale is one
 * over the distance that the row is taken to span. With weights w and scales s a solve finds, up to rounding and the residual that
 * refusal 13 allows, the positions that minimise, with the anchor held at 0,
 *
 *   sum over rows of w |s (second end - first end) - ray|^2  +  1e-6 sum over cameras |camera|^2
 *
 * where no camera has two bearings to one point. The anchor is the camera of the greatest sum of w s^2, the first of equals. The
 * bearings of a point of a weight (its sum of w s^2) below 1e-12 are left out, and it keeps its old position.
 *
 * Limits: n 1 to 4,096; m and e 0 to 65,536; b 0 to 262,144; dense limit 0 to 256. (The solve program, which stands on these functions,
 * takes images of at most 16,384 bytes and 64 cameras.)
 *
 * Answers. A function (but vobzeile_sqrt) returns 0, and `report` then holds what was asked; or it returns the number of a refusal, whose
 * place is then the report's first number; for 11 to 13 a camera is its second ('Cameras' below). The report's other numbers are left. A
 * report has 1 number; that of a solve, of vobzeile_counts and of vobzeile_read has 4. One of another length is refused by 3, in its turn
 * after 1 and 2 (an image's 20 to 22 come before these), and left; where one of those refuses first, its place is stored if the report has
 * a first number.
 *
 *    1  n is 0 or over 4,096                                      place 0
 *    2  m, b or e over its limit                                  place 0
 *    3  a length differs from its count, or a work buffer is too short     place 0
 *    4  a camera or point number out of range                     row
 *    5  direction with source = target                            row
 *    6  offsets fall or do not go from 0 to b, or a bearing is missing, named twice or under another point     place 0
 *    7  weight, scale, ray, direction or position outside the domain     row, b+e+p for point p, b+e+m+c for camera c
 *    8  route not 1, 2 or 3, or dense limit over 256              place 0
 *    9  iterative: diagonal + 1e-6 not finite                     camera
 *   11  iterative: curvature not finite, or at most 2^-52 times the size of the old product     component (0, 1, 2 for x, y, z), and camera
 *   12  iterative: new product not finite, or old one at or below 0     component, and camera
 *   13  iterative: final residual not finite or above the allowed component, and camera
 *   14  route 1 and n-1 over the dense limit                      n-1
 *   15  dense: pivot not finite or not above 0                    dense row (cameras without the anchor, in order)
 *   16  dense: factor entry not finite                            dense row
 *   17  dense: back-substituted number not finite                 dense row
 *   20  image under 36 bytes, version not 1, or not 4 sections    place 0
 *   21  image: offsets or lengths break the image rule            pair
 *   22  image: section length differs from what the counts say    section
 *   23  image: output shorter than the image                      bytes needed
 *
 * There is no 10: where a camera's diagonal + 1e-6 is finite it is above 0, whatever network is sent.
 *
 * Cameras. Curvature, new product and final residual are sums of products over the cameras, in ascending order and without the anchor.
 * After 11, 12 or 13, which only a solve returns, report[1] is the first camera with which that sum, in the component report[0], was no
 * longer finite: look first at the rows of this camera. It is n where the sum stayed finite; then the curvature was too small (11), the old
 * product at or below 0 (12), the residual above the allowed (13).
 *
 * 1 to 8 and 20 to 22 are tested in number order (an image's 20 to 22 before the rest), each at its lowest place. 9 to 17 leave the
 * outputs untouched, the others every buffer but the report's first number and, where 6 has been tested, the marks.
 *
 * Marks. vobzeile_solve, vobzeile_dots and vobzeile_scales test 6, and are lent `marks` for it: just b numbers, of any content. Where 1 to
 * 5 refuse, they are left; otherwise all b are 0 after the call, whether it answers or is refused (by 6 to 17).
 */
#ifndef VOBZEILE_H
#define VOBZEILE_H

#include <stddef.h>
#include <stdint.h>

#if SIZE_MAX != UINT64_MAX
#error "vobzeile.h: size_t must have 64 bits"
#endif

#ifdef __cplusplus
extern "C" {
#endif

/* The square root, correctly rounded; -0.0 for -0.0, a NaN below zero. */
double vobzeile_sqrt(double x);

/*
 * Builds point lists from the ends of b bearings, ascending under each point; `ends` has 2b numbers or more, so directions may follow.
 * Fills `offsets` (m+1) and `rows` (b); report[0] is 0 after an answer. Refuses by 3 and 4 (a bearing's point number is not below m), and
 * then leaves both. Counts are not held to their limits.
 */
size_t vobzeile_list_points(
    size_t m, size_t b,
    const size_t *ends, size_t ends_len,
    size_t *offsets, size_t offsets_len,
    size_t *rows, size_t rows_len,
    size_t *report, size_t report_len);

/*
 * Whether rows of a weight above 0 join every camera to camera 0: report[0] is 1 or 0. `nodes` has n+m numbers or more; those n+m are 0
 * after an answer, any more are left. Refuses by 1 to 5 and, for a weight, 7.
 */
size_t vobzeile_connected(
    size_t n, size_t m, size_t b, size_t e,
    const size_t *ends, size_t ends_len,
    const double *weights, size_t weights_len,
    size_t *nodes, size_t nodes_len,
    size_t *report, size_t report_len);

/*
 * The parts that rows of a weight above 0 join: fills `labels` (n), each camera's with the lowest camera that it reaches; report[0] is
 * the number of parts. `nodes` and refusals as of vobzeile_connected.
 */
size_t vobzeile_parts(
    size_t n, size_t m, size_t b, size_t e,
    const size_t *ends, size_t ends_len,
    const double *weights, size_t weights_len,
    size_t *nodes, size_t nodes_len,
    size_t *labels, size_t labels_len,
    size_t *report, size_t report_len);

/*
 * The doubles that a solve's work buffer needs, in report[0]: 24n + 4m + b + e + d*d + 3d, where d is n-1 if the route may go dense
 * within the limit, else 0 (0 too if 8 would refuse the route or the limit). Refuses by 1, 2 and (the report's length) 3.
 */
size_t vobzeile_work_length(
    size_t n, size_t m, size_t b, size_t e,
    size_t route, size_t limit,
    size_t *report, size_t report_len);

/*
 * The dot of each row with its baseline, into `out` (b+e): a bearing's ray with point - camera, a direction with target - source. The
 * cameras are those of `trial` where `mark` is not 0, else of `current`: 3n doubles each (both may be the same buffer), of which only
 * those are read. `mark` is one number and has nothing to do with `marks`. `points` are the placed ones. Refuses by 1 to 7; report[0] is
 * 0 after an answer.
 */
size_t vobzeile_dots(
    size_t n, size_t m, size_t b, size_t e,
    const size_t *ends, size_t ends_len,
    const double *rays, size_t rays_len,
    const double *weights, size_t weights_len,
    const double *scales, size_t scales_len,
    const double *points, size_t points_len,
    const size_t *offsets, size_t offsets_len,
    const size_t *rows, size_t rows_len,
    size_t *marks, size_t marks_len,
    const double *current, size_t current_len,
    const double *trial, size_t trial_len,
    size_t mark,
    double *out, size_t out_len,
    size_t *report, size_t report_len);

/*
 * The scale of each row, kept or renewed, into `out` (b+e): max(dot / squared baseline, 1e-5), or the row's old scale where its point's
 * weight, or (without bearings) its own, or the squared baseline is below 1e-12. Arguments, refusals and report as of vobzeile_dots.
 */
size_t vobzeile_scales(
    size_t n, size_t m, size_t b, size_t e,
    const size_t *ends, size_t ends_len,
    const double *rays, size_t rays_len,
    const double *weights, size_t weights_len,
    const double *scales, size_t scales_len,
    const double *points, size_t points_len,
    const size_t *offsets, size_t offsets_len,
    const size_t *rows, size_t rows_len,
    size_t *marks, size_t marks_len,
    const double *current, size_t current_len,
    const double *trial, size_t trial_len,
    size_t mark,
    double *out, size_t out_len,
    size_t *report, size_t report_len);

/*
 * Places every camera and point: fills `cameras` (3n) and `placed` (3m); `points` are the old ones, which a point of a weight below 1e-12
 * keeps. Route 1 is dense, 2 iterative, 3 iterative and then dense if that refused and n-1 is within the limit. `report` has 4 numbers:
 * anchor, answering route (3: dense after iterative), rounds (0 where dense answered), and how many cameras, the anchor among them, have
 * fewer than 2 rows: a bearing on a point of a weight below 1e-12 is not counted, a direction is counted at both of its ends, whatever its
 * weight, and a row given twice counts twice. A refusal leaves all but the first, 11 to 13 all but the first two. `work` has at least the
 * doubles of vobzeile_work_length, with any content; unless 1 to 8 refused, those are +0.0 afterwards, and any more are left. Refuses by 1
 * to 17. Points are not tested for finiteness.
 */
size_t vobzeile_solve(
    size_t n, size_t m, size_t b, size_t e,
    const size_t *ends, size_t ends_len,
    const double *rays, size_t rays_len,
    const double *weights, size_t weights_len,
    const double *scales, size_t scales_len,
    const double *points, size_t points_len,
    const size_t *offsets, size_t offsets_len,
    const size_t *rows, size_t rows_len,
    size_t *marks, size_t marks_len,
    size_t route, size_t limit,
    double *work, size_t work_len,
    double *cameras, size_t cameras_len,
    double *placed, size_t placed_len,
    size_t *report, size_t report_len);

/*
 * The counts of a network image: n, m, b, e in `report`, which has 4 numbers. Refuses by 20 to 22, then 1, 2 and (the report's length) 3;
 * a refusal leaves all but report[0].
 *
 * An image is little-endian: version 1 and section count 4 (16 bits each), four pairs of offset and length (32 bits each), counts (16
 * bytes: n, m, b, e), bearings (48 bytes each: camera and point in 32 bits, ray, weight, scale), directions (48), points (24).
 */
size_t vobzeile_counts(
    const uint8_t *bytes, size_t bytes_len,
    size_t *report, size_t report_len);

/*
 * Reads a network image into buffers of the lengths that its counts ask for. It has no point lists: vobzeile_list_points builds some.
 * Report as of vobzeile_counts. Refuses by 20 to 22, then 1 to 5 and 7, all before the first number is stored.
 */
size_t vobzeile_read(
    const uint8_t *bytes, size_t bytes_len,
    size_t *ends, size_t ends_len,
    double *rays, size_t rays_len,
    double *weights, size_t weights_len,
    double *scales, size_t scales_len,
    double *points, size_t points_len,
    size_t *report, size_t report_len);

/*
 * Writes the image of a network, 52 + 48(b+e) + 24m bytes, to the front of `out` and leaves the bytes after it; report[0] is the bytes
 * written. Refuses by 1 to 5 and 7, then 23: with an `out` of length 0 it tests a network and tells its image's length.
 */
size_t vobzeile_write(
    size_t n, size_t m, size_t b, size_t e,
    const size_t *ends, size_t ends_len,
    const double *rays, size_t rays_len,
    const double *weights, size_t weights_len,
    const double *scales, size_t scales_len,
    const double *points, size_t points_len,
    uint8_t *out, size_t out_len,
    size_t *report, size_t report_len);

#ifdef __cplusplus
}
#endif

#endif
