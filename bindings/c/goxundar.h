/* goxundar.h: the Kalman filter and smoother of libgoxundar.a, for C and C++.
 *
 * WHAT IT DOES
 *
 * Something can't be read directly: a crystal's offset and rate, say. These hidden numbers are the STATES. From time to time there are READINGS
 * that depend on them, noisy, late, missing or doubled. The filter goes through the periods in order. For each it tells the best estimate of the
 * states from the readings so far, and how far off that may be, as a covariance. The smoother then goes back, and tells for each period the best
 * estimate from all readings, earlier and later. A filter's run can also be cut, saved as bytes, and carried on after a power cycle.
 *
 * Every call ends with an answer or with a numbered refusal, whatever is passed for sizes and numbers. You need not check first.
 *
 * THE MODEL
 *
 *     reading[t] = d + Z[t] * state[t] + noise,             the noise of element i has variance H[i][i]
 *     state[t+1] = c + T[t] * state[t] + R * disturbance,   disturbance k has variance Q[k][k]
 *
 * The design Z is the same in all periods, or there is a list of designs, one for each. So it is with the transition T.
 *
 * Readings are in the units that you choose, states too. The library only sees numbers. A variance is in the square of its unit.
 *
 *     p   elements: how many readings a period has room for     1 to 8
 *     m   states                                                1 to 8
 *     r   disturbances                                          1 to 8
 *     n   periods                                               1 to 4096; of a stretch of a run 0 to 4096
 *
 * A missing reading is a NaN, any NaN. Each place of y is one or the other: a number, or a gap. An infinite reading is refused.
 *
 * THE START
 *
 * For each state, say by its flag what is known of it before the first reading. Flag 0: it is known, with mean a1 and covariance p_star. Flag 1:
 * nothing is known, and the filter works as if its variance had no bound (the exact diffuse start). Then a1 there, and the state's row and column
 * of p_star, are 0. At power-up, flag 1 is the honest choice.
 *
 * INPUT PARTS. A part is a pointer and its count of elements. Matrices are row by row: entry (i, j) of a matrix with k columns is at i * k + j.
 * The counts are exact.
 *
 *     z        p * m       the design Z, if it is the same in all periods; else empty (count 0)
 *     zs       k * p * m   k designs one after the other, k from 1 to 4096; else empty. Period t takes the t-th. Exactly one of z and zs is empty
 *     repeats  a byte      0: zs has a design for every period. Any other: once zs has run out its last design is used again. See A LIST OF DESIGNS
 *     h        p * p       H, the readings' noise: diagonal, its entries 0 or more. 0 is a reading without noise
 *     t        m * m       T, how the states move from one period to the next, if it is the same in all periods; else empty
 *     ts       k * m * m   k transitions one after the other, k from 1 to 4096; else empty. The t-th leads from period t to the next. Exactly one of
 *                          t and ts is empty. See A LIST OF TRANSITIONS
 *     rr       m * r       R, which disturbance moves which state
 *     q        r * r       Q, the disturbances' variances: diagonal, its entries 0 or more
 *     c        m           added to the states in each step; zeros if there is nothing to add
 *     d        p           added to the readings; zeros likewise
 *     a1       m           the start's mean
 *     p_star   m * m       the start's covariance, mirrored
 *     flags    m           the start's flags, a byte per state, 0 or 1
 *     y        n * p       the readings: element i of period t is at t * p + i
 *
 * A LIST OF DESIGNS
 *
 * A list zs with fewer designs than periods is taken for a mistake, and refused with 14. If it is short on purpose, hand over 1 for repeats:
 *
 *     goxundar_filter(1, 1, 1, 14, NULL, 0, zs, 12, 0, ...)   twelve designs for fourteen periods: refused
 *     goxundar_filter(1, 1, 1, 14, NULL, 0, zs, 12, 1, ...)   answered: the twelfth design is that of the last three periods
 *
 * A list with more designs than periods is fine, with either. With z, the constant design, repeats has no effect: hand over 0.
 *
 * A LIST OF TRANSITIONS
 *
 * A heated cabinet changes a crystal's rate law with the season. Then T is a list, ts: matrix t leads from period t to period t + 1. The smoother's
 * step back from t to t - 1 takes matrix t - 1, the one that led into t. The last period's matrix leads to place n of the predicted parts. So there
 * is one for each period, and fewer are refused with 2. repeats is for designs alone, and does not change that:
 *
 *     goxundar_filter(1, 1, 1, 14, z, 1, NULL, 0, 0, h, 1, NULL, 0, ts, 12, ...)   twelve transitions for fourteen periods: refused
 *     goxundar_filter(1, 1, 1, 14, z, 1, NULL, 0, 0, h, 1, NULL, 0, ts, 14, ...)   answered
 *
 * A longer list is fine; refusal 3 looks at all of it. Refusal 10 looks at the first matrix alone: a later one may lead from a flagged state into an
 * unflagged one. One matrix, listed once for each period, gives what it gives as t, bit for bit, refusals too.
 *
 * OUTPUT PARTS. The count is at least what stands here. What is lent beyond that stays as it was.
 *
 *     pred_mean  (n+1) * m      the states' mean predicted for period t, before its readings. Place n is the forecast after the last period
 *     pred_cov   (n+1) * m * m  its covariance, the bounded part
 *     pred_inf   (n+1) * m * m  its diffuse covariance, the unbounded part: all 0 once the readings have settled all states
 *     filt_mean  n * m          the states' mean after period t's readings
 *     filt_cov   n * m * m      its covariance, the bounded part
 *     kinds      n * p          what became of each reading, a byte of 0 to 5: see goxundar_kind. One that was skipped is told by its cause
 *     v          n * p          the reading less what was expected of it; +0.0 where it was skipped
 *     f_star     n * p          the variance of that, the bounded part; +0.0 where it was skipped
 *     f_inf      n * p          the unbounded part; +0.0 but where the kind is GOXUNDAR_DIFFUSE
 *     m_star     n * p * m      the covariance of the states with that, the bounded part; +0.0 where it was skipped
 *     m_inf      n * p * m      the unbounded part; +0.0 but where the kind is GOXUNDAR_DIFFUSE
 *     sm_mean    n * m          (smoother) the states' mean in period t, from all readings
 *     sm_cov     n * m * m      (smoother) its covariance
 *
 * A standard deviation is the square root of a covariance's diagonal entry, (i, i). BEWARE while a state is not settled: filt_cov has the bounded
 * part alone, so it can be 0 for a state of which nothing is known. The states are settled after period t when the entries of pred_inf's place
 * t + 1 are 0; of place n, the last, when the sum of their squares is at most 1e-10. Where the last place is not settled, that also holds of sm_cov.
 *
 * THE ANSWER, written where a call returns 0
 *
 *     loglik     the log-likelihood: how well the model fits the readings. Higher is better, for the same readings
 *     d_diffuse  how many periods began with some state not settled; they are the first ones
 *     heard      how many readings are not gaps
 *     news       how many readings were used (their kind is GOXUNDAR_USUAL or GOXUNDAR_DIFFUSE)
 *     cov_off    the first period in which a covariance ran off, plus 1; 0 for none. See NUMBERS THAT RAN OFF
 *     mean_off   the first period in which a mean ran off, plus 1; 0 for none
 *
 * A reading can be heard and be no news: it tells only what is known already, as when one radio check arrives on two inputs. It moves nothing, and
 * its kind says why: see WHY A READING WAS SKIPPED.
 *
 * The values of readings reach no covariance, kind, variance or count, nor cov_off. Only which of them are gaps does. Nor do a1, c and d reach any of
 * these, or refusal 12: what they can bring about is refusal 2, 6 or 7. So accuracy tables can be drawn up before there is any reading, and before it
 * is known where the states will start: with 0 for each reading that will come, NaN for each gap, and zeros for a1, c and d.
 *
 * WHY A READING WAS SKIPPED
 *
 * Every place of kinds has one of six numbers. Two are of readings that were used; the other four tell why one was not. Counted, the six come to n * p.
 *
 *     GOXUNDAR_GAP            there was none: y has a NaN
 *     GOXUNDAR_TOO_SMALL      it adds nothing: what it would read was known beforehand. Its variance is 0, or at most 1e-10 of its scale, which is
 *                             what the variance would be if no two of its terms cancelled. So it goes with one check that comes on two inputs
 *                             without noise. Or the scale overflows; then the model may be mistyped
 *     GOXUNDAR_BELOW_DUST     only rounding is left of it: readings used before it in this period told the rest. Its variance is at most 1e-14 of
 *                             what it could be at the period's begin
 *     GOXUNDAR_FAILED_REPLAY  doubtful: such readings left at most 1e-6 of its variance. So the period was worked out a second time, by square
 *                             roots, which keep more digits, and by these at most 1e-14 of it is left
 *
 * These are tests, made one after the other, and the first that a reading fails is told. So one that fails the scale's is told as too small, though it
 * be below the dust line too. In a period that begins with some state not settled they look at the bounded part of the variance, and the last one is
 * not made: a reading that only it could fail is used. A gap is not tested. Where a call returns 12, every place says gap.
 *
 * For a service desk: a gap is a check that did not come. Too small, or only rounding, is as a rule a check that came twice, and as it should be.
 * Doubtful is a check that nearly came twice: the noise of its input may be set too low.
 *
 * In an answered call a skipped reading could as well be a gap: heard would be less by one, its own kind GOXUNDAR_GAP, and nothing else other.
 *
 * NUMBERS THAT RAN OFF
 *
 * A mistyped model can make numbers overflow: a rate that keeps 0.98 of itself in a period, typed as 98, does so within 80 periods without a reading.
 * Nothing is refused for it. Infinities and NaNs are carried on like other numbers, and would be seen late. So every answer tells the first period
 * with a number that is not finite, and that separately of covariances and means:
 *
 *     cov_off    in the period's pred_cov, pred_inf or filt_cov
 *     mean_off   in its pred_mean or filt_mean
 *
 * Periods count from 0, and period t is told as t + 1, so that 0 is none. Place n of the predicted parts is no period, and is left out. mean_off may
 * go by a1, c, d and the values of readings, but not by the value of a reading that was no news.
 *
 * The reports go by what these five parts hold, and by nothing else. So they do not tell of
 *  - a NaN in the diffuse covariance: it ends the diffuse start, and zeros are written in its place;
 *  - a call that is refused: where numbers overflow so early that no reading is news, that is refusal 12;
 *  - a reading that is skipped because its scale overflows, while the covariance stays finite: its kind is GOXUNDAR_TOO_SMALL;
 *  - the smoothed parts, v, f_star, f_inf, m_star, m_inf and loglik.
 *
 * A RUN IN STRETCHES
 *
 * goxundar_stretch runs the next n periods of a run, over the readings of these n periods alone. A run may be cut after any period, any number of
 * times. Its stretches then write what goxundar_filter writes over all its periods at once, and the last one answers what it answers, bit for bit.
 *
 *     begins  not 0: the run begins here, and saved is empty, else refusal 15. 0: it goes on from saved. So a file that was emptied does not
 *             begin a run anew in silence: it is refused
 *     saved   the GOXUNDAR_SAVED_LEN(m) bytes that the stretch before has saved. Any fault of them is refusal 15, of their count too
 *     last    not 0: this is the run's last stretch. Refusal 12 is judged in this one alone, over all readings since the run began, and blanks only
 *             what this stretch was lent
 *     save    GOXUNDAR_SAVED_LEN(m) bytes or more, else refusal 2: the run is saved here, where the call returns 0 and the stretch is not the last.
 *             What is lent beyond that stays as it was. The last stretch saves nothing: its save may have any count, 0 too, and stays as it was
 *
 *  - The saved bytes hold the run, and of the model its sizes p, m and r alone. Hand every stretch the same model; nothing can tell if you do.
 *    a1, p_star and flags are checked in every stretch, and used in the first.
 *  - A list, zs or ts, is handed over whole each time: its matrices count from the run's first period. There are at least as many of them as periods
 *    done plus n, else refusal 2 for ts, 14 for zs; zs may have fewer where repeats is not 0. repeats is not saved: hand over the same each time. All
 *    stretches together have 4096 periods at most.
 *  - The six places of the answer are since the run began, in every stretch. cov_off and mean_off count from the run's first period, and what an
 *    earlier stretch has told stays. Of place n the next stretch tells: it is its first period.
 *  - Place n of the predicted parts is written as by the filter. pred_inf there has not been tested yet, so the next stretch's place 0, which has,
 *    may be 0 where it is not. That one counts.
 *  - Periods that went by without power are gaps: run them, with NaN for each reading.
 *
 * docs/SAVED.md has the bytes one by one, and how to keep them safe. Bytes 28 to 35 are the number of periods done, most significant first. What the
 * library of interface 1 has saved is 16 bytes shorter, and is refused with 15.
 *
 * POINTERS
 *
 *  - Where a part's count is 0, its pointer is not followed, and may be null. Otherwise it points to that many elements, aligned for their type.
 *    No check can tell if that is so: it is the one thing that you must see to.
 *  - No output part, and none of the last six places, overlaps any other part or place: save is another array than saved. Inputs may overlap
 *    inputs: one array of zeros can be c and a1 at once.
 *  - The last six are not null. On a refusal they stay as they were.
 *  - The library allocates nothing, keeps nothing between calls, and uses only what is lent. Calls on different outputs may run at the same time.
 *
 * Floating point is to be as C programs start: rounding to nearest, subnormal numbers kept (no -ffast-math in the program that links this).
 *
 * AN OLDER HEADER DOES NOT LINK
 *
 * When the parameters of the calls change, or what is written means something else, so does the interface's number, GOXUNDAR_INTERFACE. The library's
 * symbols end in it: goxundar_filter is goxundar_filter_5 there. Write the plain names: macros of this header put the number behind them, also where
 * you take an address. An object that was compiled against another interface asks for symbols that are not there, and the linker says so. Without the
 * number it would link, and hand over other parameters: the library would take counts for pointers, and write there. Or it would read the outputs
 * wrongly. Compile it again with this header.
 *
 *     1   its symbols had no number, and its answers four places
 *     2   cov_off and mean_off, last in every call
 *     3   repeats, right after zs, in every call
 *     4   ts, right after t, in every call
 *     5   no parameter changed. Kinds 3 to 5 are new: before, all that was skipped had kind 0, so that an older object would take 3 to 5 for news. The
 *         name GOXUNDAR_SKIPPED, of kind 0, is gone: source that has it does not compile, and is to say which causes it means
 *
 * From another language, or by dlsym, ask for the name with the number.
 */
#ifndef GOXUNDAR_H
#define GOXUNDAR_H

#include <stddef.h>
#include <stdint.h>

#ifdef __cplusplus
extern "C" {
#endif

/* The interface's number, and the calls' symbols, which end in it: an object of another interface must not link. */
#define GOXUNDAR_INTERFACE 5
#define goxundar_filter goxundar_filter_5
#define goxundar_smooth goxundar_smooth_5
#define goxundar_stretch goxundar_stretch_5

/* The largest p, m and r; the largest n, and count of listed designs or transitions. */
#define GOXUNDAR_MAX_SIZE 8
#define GOXUNDAR_MAX_PERIODS 4096

/* The needed counts of the output parts, for sizes in their ranges. The smoothed parts need what the filtered ones do. */
#define GOXUNDAR_PRED_MEAN_LEN(m, n) (((size_t)(n) + 1) * (size_t)(m))
#define GOXUNDAR_PRED_COV_LEN(m, n) (((size_t)(n) + 1) * (size_t)(m) * (size_t)(m)) /* pred_cov, pred_inf */
#define GOXUNDAR_MEAN_LEN(m, n) ((size_t)(n) * (size_t)(m))                         /* filt_mean, sm_mean */
#define GOXUNDAR_COV_LEN(m, n) ((size_t)(n) * (size_t)(m) * (size_t)(m))            /* filt_cov, sm_cov */
#define GOXUNDAR_RECORD_LEN(p, n) ((size_t)(n) * (size_t)(p))                       /* kinds, v, f_star, f_inf */
#define GOXUNDAR_GAIN_LEN(p, m, n) ((size_t)(n) * (size_t)(p) * (size_t)(m))        /* m_star, m_inf */

/* The length of a saved run, exactly: 160 bytes for one state, 2232 for eight. */
#define GOXUNDAR_SAVED_LEN(m) (120 + 8 * (size_t)(m) + 32 * (size_t)(m) * (size_t)(m))

/* What a call returns: 0, or the first refusal that applies, in this order. 15 is given by goxundar_stretch alone. There a list's reach is judged
 * right after it, since it goes by the periods done, first that of ts: 1, 2, 3 to 11, 15, 2 for a short ts, 14, 12.
 * 1 to 11, 14 and 15 write nothing. 12 sets the needed count of every output to 0 (+0.0, and GOXUNDAR_GAP), and leaves what is beyond it. */
enum goxundar_refusal {
    GOXUNDAR_ANSWERED = 0,
    GOXUNDAR_DIMENSION = 1,         /* p, m or r is not 1 to 8, or n is not 1 to 4096 (goxundar_stretch: 0 to 4096) */
    GOXUNDAR_LENGTH = 2,            /* an input has not its exact count, an output is too short, or not exactly one of z and zs, or of t and ts, is
                                       given. Or ts is given, and there are fewer transitions than n (goxundar_stretch: than periods done plus n) */
    GOXUNDAR_LIST_SHORT = 14,       /* zs is given, repeats is 0, and there are fewer designs than n (goxundar_stretch: than periods done plus n) */
    GOXUNDAR_NON_FINITE_SYSTEM = 3, /* z, zs, h, t, ts, rr or q has a NaN or an infinity; of a list each matrix counts, used or not */
    GOXUNDAR_NOT_PSD = 4,           /* a diagonal entry of h or q is below 0: a variance can't be */
    GOXUNDAR_Q_NOT_DIAGONAL = 5,    /* an entry of q off its diagonal is not 0 */
    GOXUNDAR_NON_FINITE_START = 6,  /* c, d, a1 or p_star has a NaN or an infinity */
    GOXUNDAR_START_SHAPE = 7,       /* a flag is above 1; p_star is not mirrored, or has a diagonal entry below 0; or a flagged state has a1, or an
                                       entry in its row or column of p_star, that is not 0 */
    GOXUNDAR_NON_DIAGONAL_H = 8,    /* an entry of h off its diagonal is not 0 */
    GOXUNDAR_INFINITE_READING = 9,  /* a reading is infinite (a NaN is a gap, and fine) */
    GOXUNDAR_MIXED_DRIVEN = 10,     /* t, or the first matrix of ts, leads from a flagged state into an unflagged one: its entry (unflagged, flagged)
                                       is not 0 */
    GOXUNDAR_NON_FINITE_NOISE = 11, /* R * Q * R', symmetrised, has an entry that is not finite: it overflows */
    GOXUNDAR_BAD_SAVED = 15,        /* the run goes on, and saved is not a saved run: its length or a section's count is wrong; it has another p, m or
                                       r than the call; its periods done and n are above 4096 together; its diffuse periods, cov_off or mean_off are
                                       above its periods done, its heard above p times these, its news above its heard, or its diffuse state not 0
                                       or 1; or it has a NaN with other bits than 0x7FF8000000000000. Or the run begins, and saved is not empty */
    GOXUNDAR_NO_INFORMATION = 12    /* there are readings, and none of them is news (goxundar_stretch: judged in the last stretch alone) */
};

/* What became of a reading. Where it was not used, nothing moved, its numbers are +0.0, and the kind is the cause: the first test that it failed. */
enum goxundar_kind {
    GOXUNDAR_GAP = 0,          /* there was no reading */
    GOXUNDAR_USUAL = 1,        /* used; v and f_star are its numbers */
    GOXUNDAR_DIFFUSE = 2,      /* used, and it settled something of which nothing was known; v, f_star and f_inf are its numbers */
    GOXUNDAR_TOO_SMALL = 3,    /* no news, it adds nothing: its variance is too small against its scale */
    GOXUNDAR_BELOW_DUST = 4,   /* no news, only rounding: its variance is below the dust line */
    GOXUNDAR_FAILED_REPLAY = 5 /* no news, doubtful: its variance failed when the period was replayed */
};

/* The filter. */
uint32_t goxundar_filter(
    size_t p, size_t m, size_t r, size_t n,
    const double *z, size_t z_len,
    const double *zs, size_t zs_len, uint8_t repeats,
    const double *h, size_t h_len,
    const double *t, size_t t_len,
    const double *ts, size_t ts_len,
    const double *rr, size_t rr_len,
    const double *q, size_t q_len,
    const double *c, size_t c_len,
    const double *d, size_t d_len,
    const double *a1, size_t a1_len,
    const double *p_star, size_t p_star_len,
    const uint8_t *flags, size_t flags_len,
    const double *y, size_t y_len,
    double *pred_mean, size_t pred_mean_len,
    double *pred_cov, size_t pred_cov_len,
    double *pred_inf, size_t pred_inf_len,
    double *filt_mean, size_t filt_mean_len,
    double *filt_cov, size_t filt_cov_len,
    uint8_t *kinds, size_t kinds_len,
    double *v, size_t v_len,
    double *f_star, size_t f_star_len,
    double *f_inf, size_t f_inf_len,
    double *m_star, size_t m_star_len,
    double *m_inf, size_t m_inf_len,
    double *loglik, size_t *d_diffuse, size_t *heard, size_t *news, size_t *cov_off, size_t *mean_off);

/* The filter, and then the smoother: all that goxundar_filter writes, and the two smoothed parts. */
uint32_t goxundar_smooth(
    size_t p, size_t m, size_t r, size_t n,
    const double *z, size_t z_len,
    const double *zs, size_t zs_len, uint8_t repeats,
    const double *h, size_t h_len,
    const double *t, size_t t_len,
    const double *ts, size_t ts_len,
    const double *rr, size_t rr_len,
    const double *q, size_t q_len,
    const double *c, size_t c_len,
    const double *d, size_t d_len,
    const double *a1, size_t a1_len,
    const double *p_star, size_t p_star_len,
    const uint8_t *flags, size_t flags_len,
    const double *y, size_t y_len,
    double *pred_mean, size_t pred_mean_len,
    double *pred_cov, size_t pred_cov_len,
    double *pred_inf, size_t pred_inf_len,
    double *filt_mean, size_t filt_mean_len,
    double *filt_cov, size_t filt_cov_len,
    uint8_t *kinds, size_t kinds_len,
    double *v, size_t v_len,
    double *f_star, size_t f_star_len,
    double *f_inf, size_t f_inf_len,
    double *m_star, size_t m_star_len,
    double *m_inf, size_t m_inf_len,
    double *sm_mean, size_t sm_mean_len,
    double *sm_cov, size_t sm_cov_len,
    double *loglik, size_t *d_diffuse, size_t *heard, size_t *news, size_t *cov_off, size_t *mean_off);

/* The filter, over a stretch of a run: from its start or from saved bytes, and to its end or to be saved. */
uint32_t goxundar_stretch(
    size_t p, size_t m, size_t r, size_t n,
    const double *z, size_t z_len,
    const double *zs, size_t zs_len, uint8_t repeats,
    const double *h, size_t h_len,
    const double *t, size_t t_len,
    const double *ts, size_t ts_len,
    const double *rr, size_t rr_len,
    const double *q, size_t q_len,
    const double *c, size_t c_len,
    const double *d, size_t d_len,
    const double *a1, size_t a1_len,
    const double *p_star, size_t p_star_len,
    const uint8_t *flags, size_t flags_len,
    const double *y, size_t y_len,
    uint8_t begins, const uint8_t *saved, size_t saved_len, uint8_t last,
    double *pred_mean, size_t pred_mean_len,
    double *pred_cov, size_t pred_cov_len,
    double *pred_inf, size_t pred_inf_len,
    double *filt_mean, size_t filt_mean_len,
    double *filt_cov, size_t filt_cov_len,
    uint8_t *kinds, size_t kinds_len,
    double *v, size_t v_len,
    double *f_star, size_t f_star_len,
    double *f_inf, size_t f_inf_len,
    double *m_star, size_t m_star_len,
    double *m_inf, size_t m_inf_len,
    uint8_t *save, size_t save_len,
    double *loglik, size_t *d_diffuse, size_t *heard, size_t *news, size_t *cov_off, size_t *mean_off);

#ifdef __cplusplus
}
#endif

#endif
