/* test.c: the calls through goxundar.h, against document 01: its bench figures, each part in its place, the refusals, lengths, empty parts; lists of
 * designs and of transitions; why readings were skipped; numbers that ran off; and runs in stretches, against the uncut ones and against document 02's
 * bytes.
 *
 * Every expected value is 01's or 02's, or follows from one of their rules as a comment says. None was taken from the program. Doubles are compared
 * by their bits, all NaNs as one. Each call is made three times, by goxundar_filter, by goxundar_smooth and by goxundar_stretch over the whole run:
 * the others answer and write all that the filter does. Each call with a constant transition is made once more with a list of copies of it, one for
 * each period, and must end the same. What lies beyond the needed count of an output must stay as it was, in every call; every answer's reports are
 * held against the numbers that the call has written; and its kinds against the readings and the counts. It is C99, and C++ too.
 */
#include <math.h>
#include <stdio.h>
#include <string.h>

#include "goxundar.h"

/* ---- checks, counted */

static unsigned long checks, failed;
static const char *figure = ""; /* what the checks are of */

static void check(int ok, const char *what)
{
    checks++;
    if (!ok) {
        failed++;
        printf("FAILED: %s: %s\n", figure, what);
    }
}

static void same(double got, double want, const char *what)
{
    int ok = memcmp(&got, &want, sizeof got) == 0 || (got != got && want != want);
    check(ok, what);
    if (!ok) printf("        %.17g, and not %.17g\n", got, want);
}

static void count(size_t got, size_t want, const char *what)
{
    check(got == want, what);
    if (got != want) printf("        %lu, and not %lu\n", (unsigned long)got, (unsigned long)want);
}

/* ---- a call's inputs */

enum { Z, ZS, H, T, TS, RR, Q, C, D, A1, P_STAR, FLAGS, Y, INPUTS };

struct call {
    size_t p, m, r, n;
    double z[16], zs[64], h[16], t[64], rr[16], q[16], c[8], d[8], a1[8], p_star[64];
    const double *ts; /* lent: such a list can be long */
    uint8_t flags[8];
    double y[4097];
    size_t len[INPUTS]; /* the counts that are passed */
    uint8_t repeats;
};

/* The counts that the sizes ask for, with a constant design and transition. */
static void exact(struct call *k)
{
    size_t p = k->p, m = k->m, r = k->r;
    k->len[Z] = p * m;
    k->len[ZS] = 0;
    k->len[H] = p * p;
    k->len[T] = m * m;
    k->len[TS] = 0;
    k->len[RR] = m * r;
    k->len[Q] = r * r;
    k->len[C] = m;
    k->len[D] = p;
    k->len[A1] = m;
    k->len[P_STAR] = m * m;
    k->len[FLAGS] = m;
    k->len[Y] = k->n * p;
}

/* That many designs of zs, and no constant one. */
static void listed(struct call *k, size_t designs)
{
    k->len[Z] = 0;
    k->len[ZS] = designs * k->p * k->m;
}

/* That many transitions, and no constant one. */
static void transitions(struct call *k, const double *ts, size_t matrices)
{
    k->ts = ts;
    k->len[T] = 0;
    k->len[TS] = matrices * k->m * k->m;
}

/* 01's model unless said: m = p = r = 1, Z = T = R = 1, H = 1, Q = 2, flagged, a1 = P* = 0. */
static void plain(struct call *k)
{
    memset(k, 0, sizeof *k);
    k->p = k->m = k->r = k->n = 1;
    k->z[0] = k->h[0] = k->t[0] = k->rr[0] = 1;
    k->q[0] = 2;
    k->flags[0] = 1;
    exact(k);
}

static void one_reading(struct call *k, double y0)
{
    plain(k);
    k->y[0] = y0;
}

static void two_readings(struct call *k, double y0, double y1)
{
    plain(k);
    k->n = 2;
    k->y[0] = y0;
    k->y[1] = y1;
    exact(k);
}

/* p = 2, both designs 1, one period. */
static void two_inputs(struct call *k, double y0, double y1)
{
    plain(k);
    k->p = 2;
    k->z[0] = k->z[1] = 1;
    k->h[0] = 0;
    k->y[0] = y0;
    k->y[1] = y1;
    exact(k);
}

/* m states, n periods, all readings 1, T the identity. */
static void sized(struct call *k, size_t m, size_t n)
{
    size_t i;
    plain(k);
    k->m = m;
    k->n = n;
    for (i = 0; i < m; i++) {
        k->z[i] = k->rr[i] = k->t[i * m + i] = 1;
        k->flags[i] = 1;
    }
    for (i = 0; i < n; i++) k->y[i] = 1;
    exact(k);
}

/* ---- the outputs, lent with more than is needed */

enum { PRED_MEAN, PRED_COV, PRED_INF, FILT_MEAN, FILT_COV, KINDS, V, F_STAR, F_INF, M_STAR, M_INF, SM_MEAN, SM_COV, OUTPUTS };
enum { BEYOND = 3 };

static double pred_mean[4097 * 8 + BEYOND], pred_cov[4097 * 64 + BEYOND], pred_inf[4097 * 64 + BEYOND];
static double filt_mean[4096 * 8 + BEYOND], filt_cov[4096 * 64 + BEYOND];
static uint8_t kinds[4096 + BEYOND];
static double v[4096 + BEYOND], f_star[4096 + BEYOND], f_inf[4096 + BEYOND], m_star[4096 * 8 + BEYOND], m_inf[4096 * 8 + BEYOND];
static double sm_mean[4096 * 8 + BEYOND], sm_cov[4096 * 64 + BEYOND];

static struct {
    const char *name;
    void *at;
    size_t bytes; /* of the whole array */
    size_t size;  /* of an element */
    size_t needed, lent;
} part[OUTPUTS] = {
    {"pred_mean", pred_mean, sizeof pred_mean, sizeof(double), 0, 0},
    {"pred_cov", pred_cov, sizeof pred_cov, sizeof(double), 0, 0},
    {"pred_inf", pred_inf, sizeof pred_inf, sizeof(double), 0, 0},
    {"filt_mean", filt_mean, sizeof filt_mean, sizeof(double), 0, 0},
    {"filt_cov", filt_cov, sizeof filt_cov, sizeof(double), 0, 0},
    {"kinds", kinds, sizeof kinds, 1, 0, 0},
    {"v", v, sizeof v, sizeof(double), 0, 0},
    {"f_star", f_star, sizeof f_star, sizeof(double), 0, 0},
    {"f_inf", f_inf, sizeof f_inf, sizeof(double), 0, 0},
    {"m_star", m_star, sizeof m_star, sizeof(double), 0, 0},
    {"m_inf", m_inf, sizeof m_inf, sizeof(double), 0, 0},
    {"sm_mean", sm_mean, sizeof sm_mean, sizeof(double), 0, 0},
    {"sm_cov", sm_cov, sizeof sm_cov, sizeof(double), 0, 0},
};

/* Lends the needed count and some more, or where the sizes are out of range the whole arrays. */
static void lend(const struct call *k)
{
    int in_range = k->p <= 2 && k->m <= GOXUNDAR_MAX_SIZE && k->n <= GOXUNDAR_MAX_PERIODS;
    int i;
    part[PRED_MEAN].needed = GOXUNDAR_PRED_MEAN_LEN(k->m, k->n);
    part[PRED_COV].needed = part[PRED_INF].needed = GOXUNDAR_PRED_COV_LEN(k->m, k->n);
    part[FILT_MEAN].needed = part[SM_MEAN].needed = GOXUNDAR_MEAN_LEN(k->m, k->n);
    part[FILT_COV].needed = part[SM_COV].needed = GOXUNDAR_COV_LEN(k->m, k->n);
    part[KINDS].needed = part[V].needed = part[F_STAR].needed = part[F_INF].needed = GOXUNDAR_RECORD_LEN(k->p, k->n);
    part[M_STAR].needed = part[M_INF].needed = GOXUNDAR_GAIN_LEN(k->p, k->m, k->n);
    for (i = 0; i < OUTPUTS; i++) part[i].lent = in_range ? part[i].needed + BEYOND : part[i].bytes / part[i].size;
}

/* ---- where a stretch goes on from, and what it saves */

static uint64_t number_in(const uint8_t *at)
{
    uint64_t number = 0;
    int i;
    for (i = 0; i < 8; i++) number = number << 8 | at[i];
    return number;
}

static uint8_t save[GOXUNDAR_SAVED_LEN(8) + BEYOND];

static struct stretch {
    uint8_t begins, last;
    const uint8_t *saved;
    size_t saved_len, save_lent;
} stretch;

/* All of a run in one stretch: it is the filter's call. */
static void whole(void)
{
    stretch.begins = stretch.last = 1;
    stretch.saved = NULL;
    stretch.saved_len = 0;
    stretch.save_lent = BEYOND;
}

/* ---- the answer's places */

static struct answer {
    double loglik;
    size_t d_diffuse, heard, news, cov_off, mean_off;
} answer;

enum { MARK = 0xA5 }; /* what each byte of the outputs and of the answer holds before a call */

static int marked(const void *at, size_t from, size_t to)
{
    const unsigned char *byte = (const unsigned char *)at;
    for (; from < to; from++)
        if (byte[from] != MARK) return 0;
    return 1;
}

static void mark_all(void)
{
    int i;
    for (i = 0; i < OUTPUTS; i++) memset(part[i].at, MARK, part[i].bytes);
    memset(save, MARK, sizeof save);
    memset(&answer, MARK, sizeof answer);
}

/* ---- the call */

enum { FILTER, SMOOTH, STRETCH, CALLS };

/* How many of the outputs it writes. */
static int parts_of(int which)
{
    return which == SMOOTH ? (int)OUTPUTS : (int)SM_MEAN;
}

/* The calls by their addresses: the plain names must do for that too. The parameters' types are spelled out, against the header's. The calls with
 * null parts, below, are made by name. */
#define SIZES size_t, size_t, size_t, size_t
#define IN const double *, size_t
#define OUT double *, size_t
#define BYTES_IN const uint8_t *, size_t
#define BYTES_OUT uint8_t *, size_t
#define GIVEN SIZES, IN, IN, uint8_t, IN, IN, IN, IN, IN, IN, IN, IN, IN, BYTES_IN, IN
#define LENT OUT, OUT, OUT, OUT, OUT, BYTES_OUT, OUT, OUT, OUT, OUT, OUT
#define PLACES double *, size_t *, size_t *, size_t *, size_t *, size_t *

static const struct {
    uint32_t (*filter)(GIVEN, LENT, PLACES);
    uint32_t (*smooth)(GIVEN, LENT, OUT, OUT, PLACES);
    uint32_t (*stretch)(GIVEN, uint8_t, BYTES_IN, uint8_t, LENT, BYTES_OUT, PLACES);
} by_address = {goxundar_filter, &goxundar_smooth, goxundar_stretch};

/* One of the calls, as lent. */
static uint32_t call(int which, const struct call *k)
{
    mark_all();
    if (which == FILTER)
        return by_address.filter(
            k->p, k->m, k->r, k->n, k->z, k->len[Z], k->zs, k->len[ZS], k->repeats, k->h, k->len[H], k->t, k->len[T], k->ts, k->len[TS],
            k->rr, k->len[RR], k->q, k->len[Q], k->c, k->len[C], k->d, k->len[D], k->a1, k->len[A1], k->p_star, k->len[P_STAR],
            k->flags, k->len[FLAGS], k->y, k->len[Y],
            pred_mean, part[PRED_MEAN].lent, pred_cov, part[PRED_COV].lent, pred_inf, part[PRED_INF].lent,
            filt_mean, part[FILT_MEAN].lent, filt_cov, part[FILT_COV].lent, kinds, part[KINDS].lent,
            v, part[V].lent, f_star, part[F_STAR].lent, f_inf, part[F_INF].lent, m_star, part[M_STAR].lent, m_inf, part[M_INF].lent,
            &answer.loglik, &answer.d_diffuse, &answer.heard, &answer.news, &answer.cov_off, &answer.mean_off);
    if (which == STRETCH)
        return by_address.stretch(
            k->p, k->m, k->r, k->n, k->z, k->len[Z], k->zs, k->len[ZS], k->repeats, k->h, k->len[H], k->t, k->len[T], k->ts, k->len[TS],
            k->rr, k->len[RR], k->q, k->len[Q], k->c, k->len[C], k->d, k->len[D], k->a1, k->len[A1], k->p_star, k->len[P_STAR],
            k->flags, k->len[FLAGS], k->y, k->len[Y],
            stretch.begins, stretch.saved, stretch.saved_len, stretch.last,
            pred_mean, part[PRED_MEAN].lent, pred_cov, part[PRED_COV].lent, pred_inf, part[PRED_INF].lent,
            filt_mean, part[FILT_MEAN].lent, filt_cov, part[FILT_COV].lent, kinds, part[KINDS].lent,
            v, part[V].lent, f_star, part[F_STAR].lent, f_inf, part[F_INF].lent, m_star, part[M_STAR].lent, m_inf, part[M_INF].lent,
            save, stretch.save_lent, &answer.loglik, &answer.d_diffuse, &answer.heard, &answer.news, &answer.cov_off, &answer.mean_off);
    return by_address.smooth(
        k->p, k->m, k->r, k->n, k->z, k->len[Z], k->zs, k->len[ZS], k->repeats, k->h, k->len[H], k->t, k->len[T], k->ts, k->len[TS],
        k->rr, k->len[RR], k->q, k->len[Q], k->c, k->len[C], k->d, k->len[D], k->a1, k->len[A1], k->p_star, k->len[P_STAR],
        k->flags, k->len[FLAGS], k->y, k->len[Y],
        pred_mean, part[PRED_MEAN].lent, pred_cov, part[PRED_COV].lent, pred_inf, part[PRED_INF].lent,
        filt_mean, part[FILT_MEAN].lent, filt_cov, part[FILT_COV].lent, kinds, part[KINDS].lent,
        v, part[V].lent, f_star, part[F_STAR].lent, f_inf, part[F_INF].lent, m_star, part[M_STAR].lent, m_inf, part[M_INF].lent,
        sm_mean, part[SM_MEAN].lent, sm_cov, part[SM_COV].lent,
        &answer.loglik, &answer.d_diffuse, &answer.heard, &answer.news, &answer.cov_off, &answer.mean_off);
}

/* Which bytes a call may have written: none on refusals 1 to 11, 14 and 15, the needed count otherwise; the answer where there is one; the smoothed
 * parts only by the smoother; the saved run only by a stretch that answers and is not the last. */
static void kept(int which, const struct call *k, uint32_t refusal)
{
    int writes = refusal == GOXUNDAR_ANSWERED || refusal == GOXUNDAR_NO_INFORMATION;
    int saves = which == STRETCH && refusal == GOXUNDAR_ANSWERED && !stretch.last;
    int i;
    check(marked(save, saves ? GOXUNDAR_SAVED_LEN(k->m) : 0, sizeof save), "save");
    for (i = 0; i < OUTPUTS; i++) {
        size_t written = writes && i < parts_of(which) ? part[i].needed * part[i].size : 0;
        check(marked(part[i].at, written, part[i].bytes), part[i].name);
    }
    if (refusal != GOXUNDAR_ANSWERED) {
        check(marked(&answer.loglik, 0, sizeof answer.loglik), "a refusal leaves loglik");
        check(marked(&answer.d_diffuse, 0, sizeof answer.d_diffuse), "a refusal leaves d_diffuse");
        check(marked(&answer.heard, 0, sizeof answer.heard), "a refusal leaves heard");
        check(marked(&answer.news, 0, sizeof answer.news), "a refusal leaves news");
        check(marked(&answer.cov_off, 0, sizeof answer.cov_off), "a refusal leaves cov_off");
        check(marked(&answer.mean_off, 0, sizeof answer.mean_off), "a refusal leaves mean_off");
    }
}

/* Whether period t of an output, which has that many numbers a period, has one that is not finite. */
static int off(const double *output, size_t t, size_t numbers)
{
    size_t i;
    for (i = t * numbers; i < (t + 1) * numbers; i++)
        if (!isfinite(output[i])) return 1;
    return 0;
}

/* The reports, by the numbers that were written: the first period of each kind, plus 1. What an earlier stretch has told stays, and what a stretch
 * tells it saves: the last two numbers of the bytes. */
static void reports(int which, const struct call *k)
{
    size_t m = k->m, length = GOXUNDAR_SAVED_LEN(m), done = 0, cov = 0, mean = 0, t;
    if (which == STRETCH && !stretch.begins) {
        done = (size_t)number_in(stretch.saved + 28);
        cov = (size_t)number_in(stretch.saved + length - 16);
        mean = (size_t)number_in(stretch.saved + length - 8);
    }
    for (t = 0; t < k->n; t++) {
        if (cov == 0 && (off(pred_cov, t, m * m) || off(pred_inf, t, m * m) || off(filt_cov, t, m * m))) cov = done + t + 1;
        if (mean == 0 && (off(pred_mean, t, m) || off(filt_mean, t, m))) mean = done + t + 1;
    }
    count(answer.cov_off, cov, "cov_off by the numbers written");
    count(answer.mean_off, mean, "mean_off by the numbers written");
    if (which == STRETCH && !stretch.last) {
        count((size_t)number_in(save + length - 16), cov, "cov_off as saved");
        count((size_t)number_in(save + length - 8), mean, "mean_off as saved");
    }
}

static int all_plus_zero(const double *at, size_t n)
{
    size_t i;
    for (i = 0; i < n; i++)
        if (at[i] != 0 || signbit(at[i])) return 0;
    return 1;
}

/* The records, by the readings: the six kinds come to n * p, a gap stands exactly where the reading is NaN, heard and news are what the kinds come to
 * since the run began, and the numbers that a kind does not use are +0.0. A saved run has heard and news in its last section, second and third. */
static void records(int which, const struct call *k)
{
    size_t m = k->m, places = k->n * k->p, of[6] = {0}, heard = 0, news = 0, i;
    int gaps = 1, zeros = 1;
    if (which == STRETCH && !stretch.begins) {
        heard = (size_t)number_in(stretch.saved + GOXUNDAR_SAVED_LEN(m) - 40);
        news = (size_t)number_in(stretch.saved + GOXUNDAR_SAVED_LEN(m) - 32);
    }
    for (i = 0; i < places; i++) {
        int usual = kinds[i] == GOXUNDAR_USUAL, diffuse = kinds[i] == GOXUNDAR_DIFFUSE;
        if (kinds[i] < 6) of[kinds[i]]++;
        if ((kinds[i] == GOXUNDAR_GAP) != (isnan(k->y[i]) != 0)) gaps = 0;
        if (!usual && !diffuse && !(all_plus_zero(v + i, 1) && all_plus_zero(f_star + i, 1) && all_plus_zero(m_star + i * m, m))) zeros = 0;
        if (!diffuse && !(all_plus_zero(f_inf + i, 1) && all_plus_zero(m_inf + i * m, m))) zeros = 0;
    }
    count(of[GOXUNDAR_GAP] + of[GOXUNDAR_USUAL] + of[GOXUNDAR_DIFFUSE] + of[GOXUNDAR_TOO_SMALL] + of[GOXUNDAR_BELOW_DUST] + of[GOXUNDAR_FAILED_REPLAY],
          places, "the six kinds together");
    check(gaps, "a gap where the reading is NaN, and nowhere else");
    count(answer.heard, heard + places - of[GOXUNDAR_GAP], "heard by the kinds");
    count(answer.news, news + of[GOXUNDAR_USUAL] + of[GOXUNDAR_DIFFUSE], "news by the kinds");
    check(zeros, "+0.0 for what a record does not use");
}

/* Refusal 12: every record is a gap, whatever the readings are. */
static void blanked(const struct call *k)
{
    size_t i;
    for (i = 0; i < k->n * k->p; i++) count(kinds[i], GOXUNDAR_GAP, "a record of refusal 12");
}

/* The constant transition as a list: a copy of it for each period of the run, the ones before a stretch too. 0 where there is none to copy. */
static int copied(struct call *to, int which, const struct call *k)
{
    static double copies[GOXUNDAR_MAX_PERIODS * 64];
    size_t one = k->m * k->m, periods = k->n, i;
    if (k->m < 1 || k->m > GOXUNDAR_MAX_SIZE || k->len[T] != one || k->len[TS] != 0) return 0;
    if (which == STRETCH && !stretch.begins && stretch.saved_len >= 36) periods += (size_t)number_in(stretch.saved + 28);
    if (periods < 1) periods = 1; /* no list is empty */
    if (periods > GOXUNDAR_MAX_PERIODS) periods = GOXUNDAR_MAX_PERIODS;
    for (i = 0; i < periods; i++) memcpy(copies + i * one, k->t, one * sizeof *copies);
    *to = *k;
    transitions(to, copies, periods);
    return 1;
}

static uint64_t bits_of(double x)
{
    uint64_t bits;
    memcpy(&bits, &x, sizeof bits);
    return bits;
}

static uint64_t mixed(uint64_t sum, uint64_t bits)
{
    return ((sum >> 29 | sum << 35) ^ bits) * 0x9E3779B97F4A7C15u;
}

static uint64_t mixed_double(uint64_t sum, double x)
{
    return mixed(sum, bits_of(x == x ? x : NAN));
}

/* A number for all that the outputs and the answer hold now, as lent. Where a bit is another, so is the number, but by a freak. All NaNs are one. */
static uint64_t left_now(void)
{
    uint64_t sum = mixed_double(0, answer.loglik);
    size_t j;
    int i;
    for (i = 0; i < OUTPUTS; i++)
        for (j = 0; j < part[i].lent; j++)
            sum = part[i].size == 1 ? mixed(sum, ((uint8_t *)part[i].at)[j]) : mixed_double(sum, ((double *)part[i].at)[j]);
    for (j = 0; j < sizeof save; j++) sum = mixed(sum, save[j]);
    sum = mixed(mixed(mixed(sum, answer.d_diffuse), answer.heard), answer.news);
    return mixed(mixed(sum, answer.cov_off), answer.mean_off);
}

/* A call with the usual lending, that must end so. With copies for a constant transition it ends so too, and leaves the same. */
static void ends(int which, const struct call *k, uint32_t want)
{
    static struct call copies;
    uint32_t refusal;
    uint64_t by_copies = 0;
    int has_copies = copied(&copies, which, k);
    lend(k);
    if (has_copies) {
        count(call(which, &copies), want, "the refusal, with copies of the transition");
        by_copies = left_now();
    }
    refusal = call(which, k);
    count(refusal, want, "the refusal");
    if (has_copies) check(left_now() == by_copies, "what is left, with copies of the transition");
    kept(which, k, refusal);
    if (refusal == GOXUNDAR_ANSWERED) reports(which, k);
    if (refusal == GOXUNDAR_ANSWERED) records(which, k);
    if (refusal == GOXUNDAR_NO_INFORMATION) blanked(k);
}

static void record(size_t at, uint8_t kind, double want_v, double want_f_star, double want_f_inf)
{
    count(kinds[at], kind, "the record's kind");
    same(v[at], want_v, "the record's v");
    same(f_star[at], want_f_star, "the record's f_star");
    same(f_inf[at], want_f_inf, "the record's f_inf");
}

/* The gain vectors of one state: the covariances times the design, which is 1. */
static void gain(size_t at, double want_m_star, double want_m_inf)
{
    same(m_star[at], want_m_star, "m_star");
    same(m_inf[at], want_m_inf, "m_inf");
}

/* ---- the figures */

/* 01's logarithm, for normal numbers above 0: operation by operation. */
static double ln(double x)
{
    const uint64_t hi_bits = 0x3FE62E42FEE00000u, lo_bits = 0x3DEA39EF35793C76u;
    double hi, lo, s, u, w, q = 1.0 / 23;
    int k, i;
    memcpy(&hi, &hi_bits, sizeof hi);
    memcpy(&lo, &lo_bits, sizeof lo);
    s = frexp(x, &k) * 2;
    k--;
    if (s >= 1.5) {
        s *= 0.5;
        k++;
    }
    u = (s - 1) / (s + 1);
    w = u * u;
    for (i = 10; i >= 0; i--) q = q * w + 1.0 / (2 * i + 1);
    return k * hi + (k * lo + (u + u) * q);
}

static double ln_2pi(void)
{
    const uint64_t pi_bits = 0x400921FB54442D18u;
    double pi;
    memcpy(&pi, &pi_bits, sizeof pi);
    return ln(2 * pi);
}

static void a_and_k(int which)
{
    static struct call k;
    figure = "A";
    one_reading(&k, 2);
    ends(which, &k, GOXUNDAR_ANSWERED);
    record(0, GOXUNDAR_DIFFUSE, 2, 1, 1);
    same(filt_mean[0], 2, "filtered mean");
    same(filt_cov[0], 1, "filtered covariance");
    same(pred_mean[1], 2, "next predicted mean");
    same(pred_cov[1], 3, "next predicted covariance");
    same(pred_inf[1], 0, "next diffuse covariance");
    count(answer.d_diffuse, 1, "d_diffuse");
    gain(0, 0, 1); /* the start's P* is 0 and its diffuse part 1 */
    /* K: the logarithm of 1 is +0.0. It can't be called, but A's f_inf is 1, so its likelihood term is that of ln 2 pi alone. */
    figure = "K";
    same(ln(1), 0, "this file's logarithm of 1");
    same(answer.loglik, -(0.5 * ln_2pi()), "the log-likelihood of A");
}

static void b_and_c(int which)
{
    static struct call k;
    figure = "B";
    two_readings(&k, 2, 6);
    ends(which, &k, GOXUNDAR_ANSWERED);
    record(1, GOXUNDAR_USUAL, 4, 4, 0);
    gain(1, 3, 0); /* the predicted covariance is 3, as A has it; unused gain vectors are +0.0 */
    same(filt_mean[1], 5, "filtered mean");
    same(filt_cov[1], 0.75, "filtered covariance");
    same(pred_mean[2], 5, "next predicted mean");
    same(pred_cov[2], 2.75, "next predicted covariance");
    /* the terms, in the Rust's order: those of (2, 1, 1) and of (4, 4) */
    same(answer.loglik, -(0.5 * ln_2pi()) - 0.5 * ((ln_2pi() + ln(4)) + 4.0 * 4 / 4), "log-likelihood");
    if (which != SMOOTH) return;
    figure = "C";
    same(sm_mean[0], 3, "first smoothed mean");
    same(sm_mean[1], 5, "second smoothed mean");
    same(sm_cov[0], 0.75, "first smoothed covariance");
    same(sm_cov[1], 0.75, "second smoothed covariance");
}

static void d_to_g(int which)
{
    static struct call k;
    figure = "D";
    one_reading(&k, NAN);
    ends(which, &k, GOXUNDAR_ANSWERED);
    same(answer.loglik, 0, "log-likelihood");
    record(0, GOXUNDAR_GAP, 0, 0, 0);
    gain(0, 0, 0);
    same(filt_mean[0], 0, "filtered mean");
    same(filt_cov[0], 0, "filtered covariance");
    same(pred_cov[1], 2, "next predicted covariance");
    same(pred_inf[1], 1, "next diffuse covariance");
    count(answer.heard, 0, "heard");

    figure = "E";
    two_readings(&k, NAN, 2);
    ends(which, &k, GOXUNDAR_ANSWERED);
    count(answer.d_diffuse, 2, "d_diffuse");
    same(filt_mean[1], 2, "filtered mean at the end");
    same(filt_cov[1], 1, "filtered covariance at the end");

    figure = "F";
    k.h[0] = 2;
    k.t[0] = ldexp(1, -9);
    ends(which, &k, GOXUNDAR_ANSWERED);
    count(answer.d_diffuse, 1, "d_diffuse");
    same(filt_mean[1], 1, "second filtered mean");
    same(filt_cov[1], 1, "second filtered covariance");

    figure = "G";
    k.t[0] = ldexp(1, -8);
    ends(which, &k, GOXUNDAR_ANSWERED);
    count(answer.d_diffuse, 2, "d_diffuse");
}

static void h_to_l(int which)
{
    static struct call k;
    int i;
    size_t j;
    figure = "H";
    two_inputs(&k, 2, 7);
    ends(which, &k, GOXUNDAR_ANSWERED);
    record(1, GOXUNDAR_TOO_SMALL, 0, 0, 0); /* its variance is 0, and so is its scale */
    same(filt_mean[0], 2, "filtered mean");
    same(filt_cov[0], 0, "filtered covariance");
    count(answer.heard, 2, "heard");
    count(answer.news, 1, "news");

    figure = "I";
    one_reading(&k, 1);
    k.flags[0] = 0;
    k.h[0] = 0;
    ends(which, &k, GOXUNDAR_NO_INFORMATION);
    for (i = 0; i < parts_of(which); i++) /* +0.0 and kind 0 are bytes of 0 */
        for (j = 0; j < part[i].needed * part[i].size; j++) check(((unsigned char *)part[i].at)[j] == 0, part[i].name);

    figure = "J";
    one_reading(&k, INFINITY);
    ends(which, &k, GOXUNDAR_INFINITE_READING);
    k.y[0] = -INFINITY;
    ends(which, &k, GOXUNDAR_INFINITE_READING);

    figure = "L";
    one_reading(&k, 2);
    k.m = 9;
    ends(which, &k, GOXUNDAR_DIMENSION);
}

/* No flag, P* = 1, p = 2, designs 1, H = (h, 0), any two finite readings. */
static void dust(int which)
{
    static struct call k;
    static const double readings[][2] = {{2, 7}, {0, -0.0}, {-1e300, 5e-324}, {3, 3}};
    static const struct {
        const char *figure;
        int power;
        uint8_t second;
    } rows[] = {
        {"H = 2^-10, clear", -10, GOXUNDAR_USUAL}, {"H = 2^-40, suspect", -40, GOXUNDAR_USUAL}, {"H = 2^-50, below", -50, GOXUNDAR_BELOW_DUST}};
    size_t i, j;
    for (i = 0; i < sizeof rows / sizeof *rows; i++)
        for (j = 0; j < sizeof readings / sizeof *readings; j++) {
            figure = rows[i].figure;
            two_inputs(&k, readings[j][0], readings[j][1]);
            k.flags[0] = 0;
            k.p_star[0] = 1;
            k.h[0] = ldexp(1, rows[i].power);
            ends(which, &k, GOXUNDAR_ANSWERED);
            count(kinds[0], GOXUNDAR_USUAL, "the first element's kind");
            count(kinds[1], rows[i].second, "the second element's kind");
            count(answer.heard, 2, "heard");
            count(answer.news, rows[i].second == GOXUNDAR_USUAL ? 2 : 1, "news");
        }
}

static void sizes(int which)
{
    static struct call k;
    figure = "m = 8, n = 1";
    sized(&k, 8, 1);
    ends(which, &k, GOXUNDAR_ANSWERED);
    figure = "m = 8, n = 4096";
    sized(&k, 8, 4096);
    ends(which, &k, GOXUNDAR_ANSWERED);
    count(answer.heard, 4096, "heard");
    figure = "m = 1, n = 4096";
    sized(&k, 1, 4096);
    ends(which, &k, GOXUNDAR_ANSWERED);
    count(answer.heard, 4096, "heard");
    figure = "m = 1, n = 4097";
    sized(&k, 1, 4097);
    ends(which, &k, GOXUNDAR_DIMENSION);
    figure = "m = 8, n = 4097";
    sized(&k, 8, 4097);
    ends(which, &k, GOXUNDAR_DIMENSION);
}

/* ---- every part in its place, row by row */

static void all_same(const double *got, const double *want, size_t n, const char *what)
{
    size_t i;
    for (i = 0; i < n; i++) same(got[i], want[i], what);
}

static void fill(double *to, const double *from, size_t n)
{
    memcpy(to, from, n * sizeof *to);
}

/* Two states, two inputs, one disturbance, one period; no two inputs have the same numbers. What is wanted was worked out by hand, by 01's rules;
 * each step is exact. Input 0 is a gap. Of input 1: v = (27 - 20) - 3, M* = P* z = (0, 4), F* = 4 + 4. So the gain is (0, 0.5), and P* loses
 * 0.5 * 4 at (1, 1). Then the step: T a + c, and T P T' + R Q R'. Over one period the smoothed moments are the filtered ones. */
static void places(int which)
{
    static const double z[] = {1, 2, 0, 1}, h[] = {1, 0, 0, 4}, t[] = {1, 1, 0, 1}, rr[] = {0, 1}, c[] = {100, 1000}, d[] = {10, 20};
    static const double a1[] = {5, 3}, p_star[] = {1, 0, 0, 4}, y[] = {NAN, 27};
    static const double want_pred_mean[] = {5, 3, 110, 1005}, want_pred_cov[] = {1, 0, 0, 4, 3, 2, 2, 4}, zeros[8] = {0};
    static const double want_mean[] = {5, 5}, want_cov[] = {1, 0, 0, 2}, want_m_star[] = {0, 0, 0, 4};
    static struct call k;
    figure = "every part in its place";
    memset(&k, 0, sizeof k);
    k.p = k.m = 2;
    k.r = k.n = 1;
    exact(&k);
    fill(k.z, z, 4);
    fill(k.h, h, 4);
    fill(k.t, t, 4);
    fill(k.rr, rr, 2);
    k.q[0] = 2;
    fill(k.c, c, 2);
    fill(k.d, d, 2);
    fill(k.a1, a1, 2);
    fill(k.p_star, p_star, 4);
    fill(k.y, y, 2);
    ends(which, &k, GOXUNDAR_ANSWERED);
    record(0, GOXUNDAR_GAP, 0, 0, 0);
    record(1, GOXUNDAR_USUAL, 4, 8, 0);
    all_same(pred_mean, want_pred_mean, 4, "pred_mean");
    all_same(pred_cov, want_pred_cov, 8, "pred_cov");
    all_same(pred_inf, zeros, 8, "pred_inf");
    all_same(filt_mean, want_mean, 2, "filt_mean");
    all_same(filt_cov, want_cov, 4, "filt_cov");
    all_same(m_star, want_m_star, 4, "m_star");
    all_same(m_inf, zeros, 4, "m_inf");
    count(answer.d_diffuse, 0, "d_diffuse");
    count(answer.heard, 1, "heard");
    count(answer.news, 1, "news");
    if (which != SMOOTH) return;
    all_same(sm_mean, want_mean, 2, "sm_mean");
    all_same(sm_cov, want_cov, 4, "sm_cov");
}

/* ---- the refusals, by 01's table */

/* A call whose lists have one matrix for two periods: the transitions' reach is judged first, and no marker is for it. Both are mended. */
static void reaches(int which, struct call *k)
{
    if (k->len[TS] > 0) {
        ends(which, k, GOXUNDAR_LENGTH);
        k->repeats = 1;
        ends(which, k, GOXUNDAR_LENGTH);
        k->repeats = 0;
        transitions(k, k->ts, 2);
    }
    ends(which, k, GOXUNDAR_LIST_SHORT);
    k->repeats = 1;
}

/* One call breaks every rule. They are mended one by one, in the table's order, so the refusals come in that order too. A list's reach, 2 of the
 * transitions and 14 of the designs, comes right after 2, in a stretch after 11. */
static void order(int which, int list)
{
    static double ts[8];
    static struct call k;
    double *t = list ? ts : k.t;
    int i;
    figure = list ? "the order of the refusals, with listed transitions" : "the order of the refusals";
    memset(&k, 0, sizeof k);
    k.p = k.m = k.r = 2;
    k.n = 4097; /* 1 */
    exact(&k);
    for (i = 0; i < 8; i++) ts[i] = 0;
    if (list) transitions(&k, ts, 1); /* 2: for two periods */
    ts[6] = ts[7] = 1; /* the second leads into the unflagged state, and may */
    k.len[Y] = 8;      /* 2 */
    listed(&k, 1);     /* 14: for two periods */
    k.z[0] = NAN;      /* not lent, so nothing */
    k.zs[3] = NAN;     /* 3 */
    t[3] = NAN;        /* 3 */
    k.h[3] = -1;       /* 4 */
    k.q[1] = 1;        /* 5 */
    k.d[1] = INFINITY; /* 6 */
    k.flags[0] = 2;    /* 7 */
    k.h[2] = 1;        /* 8 */
    k.y[1] = INFINITY; /* 9 */
    t[2] = 1;          /* 10: state 0 is flagged, state 1 is not */
    k.rr[3] = 1e200;   /* 11: with Q = 1, its square overflows */
    k.q[3] = 1;
    /* 12: Z and H are 0, so no reading tells anything */
    ends(which, &k, GOXUNDAR_DIMENSION);
    k.n = 2;
    ends(which, &k, GOXUNDAR_LENGTH);
    k.len[Y] = 4;
    if (which != STRETCH) reaches(which, &k);
    ends(which, &k, GOXUNDAR_NON_FINITE_SYSTEM);
    k.zs[3] = 0;
    ends(which, &k, GOXUNDAR_NON_FINITE_SYSTEM);
    t[3] = 1;
    ends(which, &k, GOXUNDAR_NOT_PSD);
    k.h[3] = 0;
    ends(which, &k, GOXUNDAR_Q_NOT_DIAGONAL);
    k.q[1] = 0;
    ends(which, &k, GOXUNDAR_NON_FINITE_START);
    k.d[1] = 0;
    ends(which, &k, GOXUNDAR_START_SHAPE);
    k.flags[0] = 1;
    ends(which, &k, GOXUNDAR_NON_DIAGONAL_H);
    k.h[2] = 0;
    ends(which, &k, GOXUNDAR_INFINITE_READING);
    k.y[1] = 0;
    ends(which, &k, GOXUNDAR_MIXED_DRIVEN);
    t[2] = 0;
    ends(which, &k, GOXUNDAR_NON_FINITE_NOISE);
    k.rr[3] = 1;
    if (which == STRETCH) reaches(which, &k);
    ends(which, &k, GOXUNDAR_NO_INFORMATION);
    k.zs[0] = 1; /* input 0 now reads state 0, of which nothing is known; in period 1 it is 0, as T says */
    ends(which, &k, GOXUNDAR_ANSWERED);
    count(answer.news, 1, "news");
}

/* The header's numbers are 01's and 02's. */
static void numbers(void)
{
    static const int in_order[] = {
        GOXUNDAR_ANSWERED, GOXUNDAR_DIMENSION, GOXUNDAR_LENGTH, GOXUNDAR_NON_FINITE_SYSTEM, GOXUNDAR_NOT_PSD, GOXUNDAR_Q_NOT_DIAGONAL,
        GOXUNDAR_NON_FINITE_START, GOXUNDAR_START_SHAPE, GOXUNDAR_NON_DIAGONAL_H, GOXUNDAR_INFINITE_READING, GOXUNDAR_MIXED_DRIVEN,
        GOXUNDAR_NON_FINITE_NOISE, GOXUNDAR_NO_INFORMATION};
    int i;
    figure = "the header's numbers";
    for (i = 0; i < 13; i++) check(in_order[i] == i, "a refusal's number");
    check(GOXUNDAR_LIST_SHORT == 14, "a refusal's number");
    check(GOXUNDAR_BAD_SAVED == 15, "a refusal's number");
    count(GOXUNDAR_SAVED_LEN(1), 160, "the length of a saved run, m = 1");
    count(GOXUNDAR_SAVED_LEN(2), 264, "the length of a saved run, m = 2");
    count(GOXUNDAR_SAVED_LEN(3), 432, "the length of a saved run, m = 3");
    count(GOXUNDAR_SAVED_LEN(8), 2232, "the length of a saved run, m = 8");
}

/* A call's symbol is its plain name and the interface's number: so a header with another number asks for other symbols. */
#define SPELLED_OUT(name) #name
#define SPELLED(name) SPELLED_OUT(name)
#define NUMBERED(name) name "_" SPELLED(GOXUNDAR_INTERFACE)

static void symbols(void)
{
    figure = "the calls' symbols";
    check(strcmp(SPELLED(goxundar_filter), NUMBERED("goxundar_filter")) == 0, "the filter's");
    check(strcmp(SPELLED(goxundar_smooth), NUMBERED("goxundar_smooth")) == 0, "the smoother's");
    check(strcmp(SPELLED(goxundar_stretch), NUMBERED("goxundar_stretch")) == 0, "a stretch's");
}

/* Sizes at and beyond their ends, with counts that are right for nothing. */
static void dimensions(int which)
{
    static struct call k;
    static const size_t out[] = {0, 9, (size_t)-1, (size_t)1 << (sizeof(size_t) * 4)};
    size_t i;
    figure = "a size out of its range";
    for (i = 0; i < sizeof out / sizeof *out; i++) {
        one_reading(&k, 2);
        k.p = out[i];
        ends(which, &k, GOXUNDAR_DIMENSION);
        k.p = 1;
        k.m = out[i];
        ends(which, &k, GOXUNDAR_DIMENSION);
        k.m = 1;
        k.r = out[i];
        ends(which, &k, GOXUNDAR_DIMENSION);
        k.r = 1;
        k.n = out[i] == 9 ? 4097 : out[i];
        /* a stretch may have 0 periods, and then a reading is one too many */
        ends(which, &k, which == STRETCH && k.n == 0 ? GOXUNDAR_LENGTH : GOXUNDAR_DIMENSION);
    }
}

/* Inputs one longer or shorter, outputs one shorter. */
static void lengths(int which)
{
    static struct call k;
    int i;
    figure = "an input's length";
    two_inputs(&k, 2, 7);
    k.ts = k.t; /* a number to lend, where there is one too many */
    for (i = 0; i < INPUTS; i++) {
        size_t right = k.len[i];
        k.len[i] = right + 1;
        ends(which, &k, GOXUNDAR_LENGTH);
        if (right > 0) {
            k.len[i] = right - 1;
            ends(which, &k, GOXUNDAR_LENGTH);
        }
        k.len[i] = right;
    }
    figure = "an output's length";
    for (i = 0; i < parts_of(which); i++) {
        lend(&k);
        part[i].lent = part[i].needed;
        count(call(which, &k), GOXUNDAR_ANSWERED, part[i].name);
        kept(which, &k, GOXUNDAR_ANSWERED);
        reports(which, &k);
        part[i].lent = part[i].needed - 1;
        count(call(which, &k), GOXUNDAR_LENGTH, part[i].name);
        kept(which, &k, GOXUNDAR_LENGTH);
    }
}

/* ---- what a call left, to compare with */

enum { KEPT = 4096 };
static struct left {
    unsigned char at[OUTPUTS][KEPT];
    size_t needed[OUTPUTS];
    int parts;
    struct answer answer;
} uncut, prefix, by_hand;

static void keep(struct left *to, int which)
{
    int i;
    to->parts = parts_of(which);
    for (i = 0; i < to->parts; i++) {
        to->needed[i] = part[i].needed * part[i].size;
        check(to->needed[i] <= KEPT, "room for what is kept");
        memcpy(to->at[i], part[i].at, to->needed[i]);
    }
    to->answer = answer;
}

/* The outputs of the last call are those that were kept, from period t of n on. */
static void as_kept(const struct left *want, size_t t, size_t n)
{
    int i;
    for (i = 0; i < want->parts; i++) {
        size_t block = want->needed[i] / (i <= PRED_INF ? n + 1 : n);
        size_t j, from = block * t, needed = part[i].needed * part[i].size;
        count(from + needed, want->needed[i], part[i].name);
        for (j = 0; j + part[i].size <= needed && from + needed == want->needed[i]; j += part[i].size) {
            double got, wanted;
            if (part[i].size == 1) {
                count(((unsigned char *)part[i].at)[j], want->at[i][from + j], part[i].name);
                continue;
            }
            memcpy(&got, (unsigned char *)part[i].at + j, sizeof got);
            memcpy(&wanted, want->at[i] + from + j, sizeof wanted);
            same(got, wanted, part[i].name);
        }
    }
}

static void answer_is(const struct answer *want)
{
    same(answer.loglik, want->loglik, "log-likelihood");
    count(answer.d_diffuse, want->d_diffuse, "d_diffuse");
    count(answer.heard, want->heard, "heard");
    count(answer.news, want->news, "news");
    count(answer.cov_off, want->cov_off, "cov_off");
    count(answer.mean_off, want->mean_off, "mean_off");
}

/* ---- lists of designs */

/* Exactly one of z and zs; period t takes the t-th design, and once they have run out the last, where the call is marked. */
static void designs(int which)
{
    static struct call k;
    figure = "listed designs";
    two_readings(&k, 2, 6);
    k.zs[0] = 1;
    k.len[ZS] = 1;
    ends(which, &k, GOXUNDAR_LENGTH); /* and z */
    listed(&k, 1);
    ends(which, &k, GOXUNDAR_LIST_SHORT);
    k.repeats = 1;
    ends(which, &k, GOXUNDAR_ANSWERED); /* the last design goes on: figure B */
    record(1, GOXUNDAR_USUAL, 4, 4, 0);
    k.zs[1] = 0;
    for (k.repeats = 0; k.repeats < 2; k.repeats++) {
        listed(&k, 2);
        ends(which, &k, GOXUNDAR_ANSWERED); /* a design of 0 reads noise alone, f_star is H: v = 6, and nothing moves */
        record(1, GOXUNDAR_USUAL, 6, 1, 0);
        same(filt_mean[1], 2, "filtered mean");
        same(filt_cov[1], 3, "filtered covariance");
        listed(&k, 0);
        ends(which, &k, GOXUNDAR_LENGTH);
    }
}

/* Fourteen periods of an offset and its rate, on two inputs; sixteen designs, no two of them the same. */
static void fourteen(struct call *k)
{
    size_t i;
    memset(k, 0, sizeof *k);
    k->p = k->m = 2;
    k->r = 1;
    k->n = 14;
    exact(k);
    k->t[0] = k->t[1] = k->t[3] = k->rr[1] = k->h[0] = k->flags[0] = k->flags[1] = 1;
    k->h[3] = 4;
    k->q[0] = 0.25;
    for (i = 0; i < 64; i++) k->zs[i] = (double)(i * i % 67) - 20;
    for (i = 0; i < 28; i++) k->y[i] = i % 5 == 3 ? NAN : (double)(i * i % 29);
}

/* The last design, written out for each period that has none. */
static void write_out(struct call *k)
{
    size_t one = k->p * k->m;
    for (; k->len[ZS] < k->n * one; k->len[ZS] += one) fill(k->zs + k->len[ZS], k->zs + k->len[ZS] - one, one);
}

/* Document 02's installer gave twelve designs for fourteen periods. With a marker, whatever its number, a short list is the one that is written out.
 * On a list that reaches, and on a constant design, a marker has no effect. */
static void short_lists(int which)
{
    static const uint8_t markers[] = {0, 1, 2, 0x80, 255};
    static struct call k, written_out;
    size_t given, i;
    for (given = 0; given <= 16; given++) { /* 0: a constant one */
        int runs_out = given > 0 && given < 14;
        figure = given == 0 ? "a constant design and a marker" : runs_out ? "a list that runs out" : "a list that reaches";
        fourteen(&k);
        if (given == 0)
            fill(k.z, k.zs, 4);
        else
            listed(&k, given);
        written_out = k;
        if (given > 0) write_out(&written_out);
        ends(which, &written_out, GOXUNDAR_ANSWERED);
        keep(&by_hand, which);
        for (i = 0; i < sizeof markers; i++) {
            k.repeats = markers[i];
            ends(which, &k, runs_out && k.repeats == 0 ? GOXUNDAR_LIST_SHORT : GOXUNDAR_ANSWERED);
            if (runs_out && k.repeats == 0) continue;
            as_kept(&by_hand, 0, 14);
            answer_is(&by_hand.answer);
        }
    }
}

/* ---- lists of transitions */

/* The season changes after period 0: T is 2, then 1. With H = 6 the first reading leaves a variance of 6, and the step makes 4 * 6 + 2 of it. Of the
 * second v = 36 - 4, F* = 26 + 6, so the gain is 26 / 32. Back by the T of period 0, which led into period 1: r = 2 * 32 / 32, N = 4 / 32, and the
 * first smoothed mean is 2 + 6 * 2. By the T of period 1 it would be 8. A third matrix leads from a period that there is not. */
static void season(int which)
{
    static const double ts[] = {2, 1, 7};
    static struct call k;
    size_t given;
    figure = "a change of season";
    for (given = 2; given <= 3; given++) {
        two_readings(&k, 2, 36);
        k.h[0] = 6;
        transitions(&k, ts, given);
        ends(which, &k, GOXUNDAR_ANSWERED);
        record(0, GOXUNDAR_DIFFUSE, 2, 6, 1);
        record(1, GOXUNDAR_USUAL, 32, 32, 0);
        same(pred_mean[1], 4, "predicted mean, place 1");
        same(pred_cov[1], 26, "predicted covariance, place 1");
        same(pred_mean[2], 30, "predicted mean, place 2");
        same(pred_cov[2], 6.875, "predicted covariance, place 2");
        same(answer.loglik, -(0.5 * ln_2pi()) - 0.5 * ((ln_2pi() + ln(32)) + 32.0 * 32 / 32), "log-likelihood");
        if (which != SMOOTH) continue;
        same(sm_mean[0], 14, "first smoothed mean");
        same(sm_mean[1], 30, "second smoothed mean");
        same(sm_cov[0], 1.5, "first smoothed covariance");
        same(sm_cov[1], 4.875, "second smoothed covariance");
    }
}

/* A known level that nothing disturbs, T = 2, 3, 5, and one reading, of the last period: in period t its mean is the product of the T before t, its
 * covariance the square of that. Of the reading v = 70 - 6, F* = 36 + 28. Each step is exact, and in hindsight the level still moves by 2 and 3. */
static void three_steps(int which)
{
    static const double ts[] = {2, 3, 5}, y[] = {NAN, NAN, 70};
    static const double want_pred_mean[] = {1, 2, 6, 210}, want_pred_cov[] = {1, 4, 36, 393.75};
    static const double want_mean[] = {1, 2, 42}, want_cov[] = {1, 4, 15.75}, want_sm_mean[] = {7, 14, 42}, want_sm_cov[] = {0.4375, 1.75, 15.75};
    static struct call k;
    figure = "three transitions";
    plain(&k);
    k.n = 3;
    exact(&k);
    transitions(&k, ts, 3);
    k.h[0] = 28;
    k.q[0] = 0;
    k.flags[0] = 0;
    k.a1[0] = k.p_star[0] = 1;
    fill(k.y, y, 3);
    ends(which, &k, GOXUNDAR_ANSWERED);
    record(2, GOXUNDAR_USUAL, 64, 64, 0);
    all_same(pred_mean, want_pred_mean, 4, "pred_mean");
    all_same(pred_cov, want_pred_cov, 4, "pred_cov");
    all_same(filt_mean, want_mean, 3, "filt_mean");
    all_same(filt_cov, want_cov, 3, "filt_cov");
    if (which != SMOOTH) return;
    all_same(sm_mean, want_sm_mean, 3, "sm_mean");
    all_same(sm_cov, want_sm_cov, 3, "sm_cov");
}

/* Exactly one of t and ts; 1 to 4096 matrices, whole ones; all of them finite, used or not. */
static void transition_lengths(int which)
{
    static double ts[4097];
    static struct call k;
    size_t i;
    figure = "the count of listed transitions";
    for (i = 0; i < 4097; i++) ts[i] = 1;
    one_reading(&k, 2);
    transitions(&k, ts, 0);
    ends(which, &k, GOXUNDAR_LENGTH); /* neither */
    transitions(&k, ts, 1);
    k.len[T] = 1;
    ends(which, &k, GOXUNDAR_LENGTH); /* both */
    transitions(&k, ts, 4097);
    ends(which, &k, GOXUNDAR_LENGTH);
    transitions(&k, ts, 4096);
    ends(which, &k, GOXUNDAR_ANSWERED); /* figure A */
    record(0, GOXUNDAR_DIFFUSE, 2, 1, 1);
    same(pred_cov[1], 3, "next predicted covariance");
    sized(&k, 2, 2);
    transitions(&k, ts, 2);
    for (i = 0; i <= 9; i++) { /* two periods of two states: eight numbers */
        k.len[TS] = i;
        ends(which, &k, i == 8 ? GOXUNDAR_ANSWERED : GOXUNDAR_LENGTH);
    }
    figure = "a listed transition that is not finite";
    for (i = 0; i < 3; i++) {
        static const double bad[] = {NAN, INFINITY, -INFINITY};
        one_reading(&k, 2);
        ts[4095] = bad[i];
        transitions(&k, ts, 4096);
        ends(which, &k, GOXUNDAR_NON_FINITE_SYSTEM);
        transitions(&k, ts, 4095);
        ends(which, &k, GOXUNDAR_ANSWERED);
    }
}

/* Fourteen periods, one to sixteen transitions, no two of them the same. A list that is too short is refused, marked or not, and before a list of
 * designs that is too short as well. A longer one gives what the first fourteen give. */
static void short_transitions(int which)
{
    static double ts[64];
    static struct call k;
    size_t given, designs, i;
    for (i = 0; i < 64; i++) ts[i] = i % 4 == 2 ? 0 : 1 + (double)(i * i % 37) / 64;
    fourteen(&k);
    fill(k.z, k.zs, 4);
    transitions(&k, ts, 14);
    figure = "transitions that reach";
    ends(which, &k, GOXUNDAR_ANSWERED);
    keep(&by_hand, which);
    for (given = 1; given <= 16; given++) {
        figure = given < 14 ? "transitions that run out" : "transitions that reach";
        transitions(&k, ts, given);
        for (k.repeats = 0; k.repeats < 2; k.repeats++) {
            ends(which, &k, given < 14 ? GOXUNDAR_LENGTH : GOXUNDAR_ANSWERED);
            if (given < 14) continue;
            as_kept(&by_hand, 0, 14);
            answer_is(&by_hand.answer);
        }
    }
    figure = "both lists";
    for (designs = 13; designs <= 14; designs++)
        for (given = 13; given <= 14; given++) {
            fourteen(&k);
            listed(&k, designs);
            transitions(&k, ts, given);
            ends(which, &k, given < 14 ? GOXUNDAR_LENGTH : designs < 14 ? GOXUNDAR_LIST_SHORT : GOXUNDAR_ANSWERED);
        }
}

/* State 0 is flagged, state 1 is not. The first transition may not lead from one into the other. The second may, and then both are unknown. */
static const double stay_then_lead[] = {1, 0, 0, 1, 1, 0, 1, 1, 1, 0, 0, 1};

static void led_later(struct call *k, const double *ts)
{
    memset(k, 0, sizeof *k);
    k->p = k->r = 1;
    k->m = k->n = 2;
    exact(k);
    k->z[0] = k->flags[0] = 1;
    k->y[0] = k->y[1] = NAN;
    transitions(k, ts, 2);
}

static void mixed_later(int which)
{
    static const double start[] = {1, 0, 0, 0}, led[] = {1, 1, 1, 1};
    static struct call k;
    figure = "a later transition that leads from a flagged state";
    led_later(&k, stay_then_lead);
    ends(which, &k, GOXUNDAR_ANSWERED);
    all_same(pred_inf, start, 4, "diffuse covariance, place 0");
    all_same(pred_inf + 4, start, 4, "diffuse covariance, place 1");
    all_same(pred_inf + 8, led, 4, "diffuse covariance, place 2");
    led_later(&k, stay_then_lead + 4); /* the second is the first now */
    ends(which, &k, GOXUNDAR_MIXED_DRIVEN);
}

/* ---- empty parts may be null */

static uint32_t all_null(int which, size_t size)
{
    if (which == FILTER)
        return goxundar_filter(
            size, size, size, size, NULL, 0, NULL, 0, 0, NULL, 0, NULL, 0, NULL, 0,
            NULL, 0, NULL, 0, NULL, 0, NULL, 0, NULL, 0, NULL, 0, NULL, 0, NULL, 0,
            NULL, 0, NULL, 0, NULL, 0, NULL, 0, NULL, 0, NULL, 0, NULL, 0, NULL, 0, NULL, 0, NULL, 0, NULL, 0,
            &answer.loglik, &answer.d_diffuse, &answer.heard, &answer.news, &answer.cov_off, &answer.mean_off);
    if (which == STRETCH)
        return goxundar_stretch(
            size, size, size, size, NULL, 0, NULL, 0, 0, NULL, 0, NULL, 0, NULL, 0,
            NULL, 0, NULL, 0, NULL, 0, NULL, 0, NULL, 0, NULL, 0, NULL, 0, NULL, 0,
            1, NULL, 0, 1, NULL, 0, NULL, 0, NULL, 0, NULL, 0, NULL, 0, NULL, 0, NULL, 0, NULL, 0, NULL, 0, NULL, 0, NULL, 0, NULL, 0,
            &answer.loglik, &answer.d_diffuse, &answer.heard, &answer.news, &answer.cov_off, &answer.mean_off);
    return goxundar_smooth(
        size, size, size, size, NULL, 0, NULL, 0, 0, NULL, 0, NULL, 0, NULL, 0,
        NULL, 0, NULL, 0, NULL, 0, NULL, 0, NULL, 0, NULL, 0, NULL, 0, NULL, 0,
        NULL, 0, NULL, 0, NULL, 0, NULL, 0, NULL, 0, NULL, 0, NULL, 0, NULL, 0, NULL, 0, NULL, 0, NULL, 0, NULL, 0, NULL, 0,
        &answer.loglik, &answer.d_diffuse, &answer.heard, &answer.news, &answer.cov_off, &answer.mean_off);
}

/* Figure A, with a null for the parts that are empty: of the designs and of the transitions, the list or the constant one. */
static void null_lists(int designs, int moves)
{
    static const double one = 1, zero = 0, two = 2;
    static const uint8_t flag = 1;
    uint32_t refusal;
    mark_all();
    refusal = goxundar_filter(
        1, 1, 1, 1, designs ? NULL : &one, designs ? 0 : 1, designs ? &one : NULL, designs ? 1 : 0, 0, &one, 1,
        moves ? NULL : &one, moves ? 0 : 1, moves ? &one : NULL, moves ? 1 : 0, &one, 1, &two, 1,
        &zero, 1, &zero, 1, &zero, 1, &zero, 1, &flag, 1, &two, 1, /* the inputs share their numbers */
        pred_mean, 2, pred_cov, 2, pred_inf, 2, filt_mean, 1, filt_cov, 1, kinds, 1, v, 1, f_star, 1, f_inf, 1, m_star, 1, m_inf, 1,
        &answer.loglik, &answer.d_diffuse, &answer.heard, &answer.news, &answer.cov_off, &answer.mean_off);
    count(refusal, GOXUNDAR_ANSWERED, "the refusal");
    record(0, GOXUNDAR_DIFFUSE, 2, 1, 1);
    count(answer.cov_off, 0, "cov_off");
    count(answer.mean_off, 0, "mean_off");
}

static void nulls(int which)
{
    int lists;
    figure = "null for every part";
    mark_all();
    count(all_null(which, 0), GOXUNDAR_DIMENSION, "sizes 0");
    kept(which, NULL, GOXUNDAR_DIMENSION);
    mark_all();
    count(all_null(which, (size_t)-1), GOXUNDAR_DIMENSION, "sizes that nothing can have");
    kept(which, NULL, GOXUNDAR_DIMENSION);
    mark_all();
    count(all_null(which, 1), GOXUNDAR_LENGTH, "sizes 1");
    kept(which, NULL, GOXUNDAR_LENGTH);
    figure = "null for an empty part";
    for (lists = 0; lists < 4; lists++) null_lists(lists & 1, lists >> 1);
}

/* ---- why a reading was skipped */

/* m states that stay as they are, p inputs, one period; nothing moves them. */
static void still(struct call *k, size_t p, size_t m)
{
    size_t i;
    memset(k, 0, sizeof *k);
    k->p = p;
    k->m = m;
    k->r = k->n = 1;
    exact(k);
    for (i = 0; i < m; i++) k->t[i * m + i] = 1;
    for (i = 0; i < p; i++) k->y[i] = 1 + (double)i;
}

static double double_of(uint64_t bits)
{
    double x;
    memcpy(&x, &bits, sizeof x);
    return x;
}

/* The kinds of two inputs. Of a second one that was skipped another finite reading moves nothing, and a gap moves heard, by one, and its own kind. */
static void kinds_are(int which, struct call *k, uint8_t first, uint8_t second)
{
    uint64_t left;
    ends(which, k, GOXUNDAR_ANSWERED);
    count(kinds[0], first, "input 0's kind");
    count(kinds[1], second, "input 1's kind");
    if (second == GOXUNDAR_USUAL || second == GOXUNDAR_DIFFUSE) return;
    left = left_now();
    k->y[1] = -1e300;
    ends(which, k, GOXUNDAR_ANSWERED);
    check(left_now() == left, "another number for a reading that is no news");
    k->y[1] = NAN;
    ends(which, k, GOXUNDAR_ANSWERED);
    count(kinds[1], GOXUNDAR_GAP, "the kind of a gap");
    kinds[1] = second;
    answer.heard++;
    check(left_now() == left, "a gap for a reading that is no news");
}

/* By 01's tests, in their order, each number worked out by hand. Input 0 is usual: by it state 0 is pinned, and P* is 0 there. */
static void causes(int which)
{
    static const double pinned[] = {1, 0, 0, 1, 1, 1};
    static struct call k;
    figure = "too small and below too"; /* F* = 0, against its scale, 0, and the reference, 1: told by the first */
    still(&k, 2, 1);
    k.z[0] = k.z[1] = k.p_star[0] = 1;
    kinds_are(which, &k, GOXUNDAR_USUAL, GOXUNDAR_TOO_SMALL);

    figure = "too small, though not below"; /* what input 1 sees cancels: F* = 2^-36, against its scale and the reference, both 4 + 2^-36 */
    still(&k, 2, 3);
    k.z[0] = k.z[4] = k.z[5] = 1;
    k.p_star[0] = k.p_star[4] = k.p_star[8] = 1;
    k.p_star[5] = k.p_star[7] = -1;
    k.h[3] = ldexp(1, -36);
    kinds_are(which, &k, GOXUNDAR_USUAL, GOXUNDAR_TOO_SMALL);

    figure = "a scale that overflows"; /* 2^1023 squared, though P* is 1 */
    still(&k, 2, 1);
    k.z[0] = k.p_star[0] = k.h[0] = k.h[3] = 1;
    k.z[1] = ldexp(1, 1023);
    kinds_are(which, &k, GOXUNDAR_USUAL, GOXUNDAR_TOO_SMALL);

    figure = "below, at the tolerance"; /* F* = h is 1e-14 of the reference, 1 + h, in a diffuse period */
    still(&k, 2, 2);
    k.z[0] = k.z[2] = k.p_star[0] = 1;
    k.flags[1] = 1;
    k.h[3] = double_of(0x3D06849B86A12BDAu);
    kinds_are(which, &k, GOXUNDAR_USUAL, GOXUNDAR_BELOW_DUST);
    count(answer.d_diffuse, 1, "d_diffuse");

    figure = "failed on replay, at the bound"; /* F* = 2 * 5e-7 is 1e-6 of the bound's square, 1: suspect. The root does not see it */
    still(&k, 2, 3);
    fill(k.z, pinned, 6);
    k.p_star[0] = 1;
    k.p_star[5] = k.p_star[7] = 5e-7;
    kinds_are(which, &k, GOXUNDAR_USUAL, GOXUNDAR_FAILED_REPLAY);

    figure = "failed on replay, at the tolerance"; /* F* = 2^-29 + h: suspect. The root's is h, 1e-14 of the reference, 1 + 2^-29 + h */
    k.p_star[5] = k.p_star[7] = ldexp(1, -30);
    k.h[3] = double_of(0x3D06849B875550B7u);
    k.y[1] = 2;
    kinds_are(which, &k, GOXUNDAR_USUAL, GOXUNDAR_FAILED_REPLAY);
    figure = "replayed, and used"; /* the root's is the next number above that */
    k.h[3] = double_of(0x3D06849B875550B8u);
    k.y[1] = 2;
    kinds_are(which, &k, GOXUNDAR_USUAL, GOXUNDAR_USUAL);
}

/* All six in one call of two inputs, input 0 without noise, input 1 with h = 2^-50; a design for each period. Nothing is known of state 4; states 0 and
 * 3 have variance 1, and states 1 and 2 a covariance of 2^-30 alone.
 * Period 0: input 0 is a gap, input 1 settles state 4, whose variance is h then.
 * Period 1: input 0 pins state 0. Input 1 sees 0, 1 and 2: F* = 2^-29 + h, suspect against the reference, 1 + 2^-29 + h; the root's is h, not above
 * 1e-14 of that.
 * Period 2: input 0 pins state 3. Input 1 sees it too: F* = h is its scale, and not above 1e-14 of the reference, 1 + h.
 * Period 3: of input 0, on state 0, F* and its scale are 0. Input 1, on state 4, is usual: F* = 2 h, and nothing was used before it. */
static void six_kinds(int which)
{
    static const double designs[] = {
        1, 0, 0, 0, 0, 0, 0, 0, 0, 1, /* input 0, input 1 */
        1, 0, 0, 0, 0, 1, 1, 1, 0, 0,
        0, 0, 0, 1, 0, 0, 0, 0, 1, 0,
        1, 0, 0, 0, 0, 0, 0, 0, 0, 1,
    };
    static const uint8_t want[] = {GOXUNDAR_GAP,   GOXUNDAR_DIFFUSE,    GOXUNDAR_USUAL,     GOXUNDAR_FAILED_REPLAY,
                                   GOXUNDAR_USUAL, GOXUNDAR_BELOW_DUST, GOXUNDAR_TOO_SMALL, GOXUNDAR_USUAL};
    static struct call k;
    size_t i;
    figure = "all six kinds";
    still(&k, 2, 5);
    k.n = 4;
    exact(&k);
    fill(k.zs, designs, 40);
    listed(&k, 4);
    k.p_star[0] = k.p_star[18] = 1;
    k.p_star[7] = k.p_star[11] = ldexp(1, -30);
    k.flags[4] = 1;
    k.h[3] = ldexp(1, -50);
    k.y[0] = NAN;
    for (i = 1; i < 8; i++) k.y[i] = (double)i;
    ends(which, &k, GOXUNDAR_ANSWERED);
    for (i = 0; i < 8; i++) count(kinds[i], want[i], "the kind");
    count(answer.heard, 7, "heard");
    count(answer.news, 4, "news");
    count(answer.d_diffuse, 1, "d_diffuse");
}

/* Refusal 12 tells no cause. A stretch that is not the last is not judged by it, and tells them. */
static void no_cause_on_12(int which)
{
    static struct call k;
    figure = "causes and refusal 12"; /* both inputs read what is known; of input 1 the square of the design overflows */
    still(&k, 2, 1);
    k.z[1] = ldexp(1, 1023);
    k.h[3] = 1;
    ends(which, &k, GOXUNDAR_NO_INFORMATION);
    if (which != STRETCH) return;
    stretch.last = 0;
    stretch.save_lent = GOXUNDAR_SAVED_LEN(1);
    ends(which, &k, GOXUNDAR_ANSWERED);
    count(kinds[0], GOXUNDAR_TOO_SMALL, "input 0's kind");
    count(kinds[1], GOXUNDAR_TOO_SMALL, "input 1's kind");
    whole();
}

/* ---- numbers that ran off */

static void off_is(size_t cov, size_t mean)
{
    count(answer.cov_off, cov, "cov_off");
    count(answer.mean_off, mean, "mean_off");
}

/* A known level that grows, with no noise and no reading: in period t its mean is T^t, its covariance T^2t. */
static void growing(struct call *k, double growth, size_t n)
{
    size_t i;
    plain(k);
    k->n = n;
    exact(k);
    k->t[0] = growth;
    k->q[0] = 0;
    k->flags[0] = 0;
    k->a1[0] = k->p_star[0] = 1;
    for (i = 0; i < n; i++) k->y[i] = NAN;
}

static void ran_off(int which)
{
    const double large = ldexp(1.5, 1023); /* twice that overflows */
    static struct call k;
    size_t n;
    figure = "numbers that ran off"; /* with T = 2^256 the covariance is 2^1024 in period 2, the mean in period 4: infinite. Place n is left out */
    for (n = 1; n <= 6; n++) {
        growing(&k, ldexp(1, 256), n);
        ends(which, &k, GOXUNDAR_ANSWERED);
        off_is(n > 2 ? 3 : 0, n > 4 ? 5 : 0);
        if (n == 2) same(pred_cov[2], INFINITY, "the covariance after the last period");
        if (n == 4) same(pred_mean[4], INFINITY, "the mean after the last period");
    }

    figure = "a rate of 98"; /* 98^154 is 10^306.6, 98^155 10^308.6, and doubles end at 10^308.3: so periods 78 and 155 */
    growing(&k, 98, 160);
    ends(which, &k, GOXUNDAR_ANSWERED);
    off_is(79, 156);

    figure = "a diffuse covariance that ran off"; /* it is 2^1024 in period 2; the bounded part and the mean stay 0 */
    growing(&k, ldexp(1, 256), 3);
    k.flags[0] = 1;
    k.a1[0] = k.p_star[0] = 0;
    ends(which, &k, GOXUNDAR_ANSWERED);
    off_is(3, 0);
    same(pred_inf[2], INFINITY, "diffuse covariance");
    same(filt_cov[2], 0, "filtered covariance");

    /* DIFFERENCES 1: the scale is finite, F* infinite and the reading used. M* is (2^960, inf), so the gain is (0, NaN). */
    figure = "a filtered covariance that ran off";
    memset(&k, 0, sizeof k);
    k.p = k.r = k.n = 1;
    k.m = 2;
    exact(&k);
    k.z[0] = ldexp(1, 40);
    k.z[1] = ldexp(1, -40);
    k.t[0] = k.t[3] = 1;
    k.p_star[1] = k.p_star[2] = ldexp(1, 1000);
    ends(which, &k, GOXUNDAR_ANSWERED);
    off_is(1, 1);
    count(kinds[0], GOXUNDAR_USUAL, "the kind");

    figure = "a filtered mean that ran off"; /* v overflows; half of it is added. The covariance does not go by the reading */
    one_reading(&k, -large);
    k.flags[0] = 0;
    k.a1[0] = large;
    k.p_star[0] = 1;
    ends(which, &k, GOXUNDAR_ANSWERED);
    off_is(0, 1);
    same(pred_mean[0], large, "predicted mean");
    same(filt_mean[0], -INFINITY, "filtered mean");
    k.y[0] = 0;
    ends(which, &k, GOXUNDAR_ANSWERED);
    off_is(0, 0);

    figure = "the same, by a reading that is no news"; /* without noise input 0 tells all, and input 1 nothing */
    two_inputs(&k, large, -large);
    k.flags[0] = 0;
    k.a1[0] = large;
    k.p_star[0] = 1;
    ends(which, &k, GOXUNDAR_ANSWERED);
    off_is(0, 0);
    count(kinds[1], GOXUNDAR_TOO_SMALL, "input 1");
    k.y[0] = -large;
    ends(which, &k, GOXUNDAR_ANSWERED);
    off_is(0, 1);
}

/* What the header says is not told. */
static void left_out(int which)
{
    static const double zeros[4] = {0};
    static struct call k;
    const double x = ldexp(1, 600);
    figure = "a NaN that ends the diffuse start"; /* T T' is (inf, NaN; NaN, inf) */
    memset(&k, 0, sizeof k);
    k.p = k.r = k.n = 1;
    k.m = 2;
    exact(&k);
    k.t[0] = k.t[2] = k.t[3] = x;
    k.t[1] = -x;
    k.flags[0] = k.flags[1] = 1;
    k.y[0] = k.y[1] = NAN;
    ends(which, &k, GOXUNDAR_ANSWERED);
    same(pred_inf[5], NAN, "the diffuse covariance after the last period, not tested");
    off_is(0, 0);
    k.n = 2;
    exact(&k);
    ends(which, &k, GOXUNDAR_ANSWERED);
    count(answer.d_diffuse, 1, "d_diffuse");
    all_same(pred_inf + 4, zeros, 4, "diffuse covariance");
    off_is(0, 0);

    figure = "an overflow that ends in refusal 12"; /* in period 1 the covariance is infinite, and no reading passes a test */
    growing(&k, x, 2);
    k.y[1] = 1;
    ends(which, &k, GOXUNDAR_NO_INFORMATION);

    figure = "an infinite scale"; /* input 0 halves the covariance; the square of input 1's design, times that, overflows */
    two_inputs(&k, 1, 1);
    k.flags[0] = 0;
    k.z[1] = ldexp(1, 40);
    k.h[0] = k.p_star[0] = ldexp(1, 1000);
    ends(which, &k, GOXUNDAR_ANSWERED);
    count(kinds[0], GOXUNDAR_USUAL, "input 0");
    count(kinds[1], GOXUNDAR_TOO_SMALL, "input 1");
    same(filt_cov[0], ldexp(1, 999), "filtered covariance");
    off_is(0, 0);
}

/* ---- runs in stretches */

/* The next stretch begins the run, or goes on from these bytes; it is not the last, and lends what it must to save, and some more. */
static void begins(const struct call *k)
{
    stretch.begins = 1;
    stretch.last = 0;
    stretch.saved = NULL;
    stretch.saved_len = 0;
    stretch.save_lent = GOXUNDAR_SAVED_LEN(k->m) + BEYOND;
}

static void goes_on(const struct call *k, const uint8_t *saved)
{
    begins(k);
    stretch.begins = 0;
    stretch.saved = saved;
    stretch.saved_len = GOXUNDAR_SAVED_LEN(k->m);
}

/* The periods from..to of a call. */
static void cut(struct call *to_run, const struct call *k, size_t from, size_t to)
{
    *to_run = *k;
    to_run->n = to - from;
    to_run->len[Y] = (to - from) * k->p;
    memmove(to_run->y, k->y + from * k->p, to_run->len[Y] * sizeof *k->y);
}

/* Cut after each period: the first stretch is the filter over its periods, the second gives the rest of the uncut run. Cut after every period: what
 * is saved is what one stretch saves. */
static void cut_everywhere(const struct call *k)
{
    static struct call some;
    static uint8_t saved[2][GOXUNDAR_SAVED_LEN(8)];
    size_t length = GOXUNDAR_SAVED_LEN(k->m), t;
    ends(FILTER, k, GOXUNDAR_ANSWERED);
    keep(&uncut, FILTER);
    for (t = 0; t <= k->n; t++) {
        /* a period more, from what was saved one period ago */
        if (t > 0) {
            cut(&some, k, t - 1, t);
            goes_on(&some, saved[0]);
            ends(STRETCH, &some, GOXUNDAR_ANSWERED);
            memcpy(saved[1], save, length);
        }
        cut(&some, k, 0, t);
        if (t > 0) {
            ends(FILTER, &some, GOXUNDAR_ANSWERED);
            keep(&prefix, FILTER);
        }
        begins(&some);
        ends(STRETCH, &some, GOXUNDAR_ANSWERED);
        memcpy(saved[0], save, length);
        if (t > 0) {
            as_kept(&prefix, 0, t);
            answer_is(&prefix.answer);
            check(memcmp(saved[0], saved[1], length) == 0, "one run has one encoding");
        }
        cut(&some, k, t, k->n);
        goes_on(&some, saved[0]);
        stretch.last = 1;
        ends(STRETCH, &some, GOXUNDAR_ANSWERED);
        as_kept(&uncut, t, k->n);
        answer_is(&uncut.answer);
    }
    whole();
}

/* README.md's level; bindings/c/example.c's crystal, with a second design from period 1 on, marked and then written out: both inputs read twice the
 * offset; the same with a list of transitions, in which the rate moves the offset by more in each period; and levels that run off. */
static void cuts(void)
{
    static const double z[] = {1, 0, 1, 1, 0, 1, 2, 0, 1, 2, 0, 1}, t[] = {1, 1, 0, 0, 1, 0, 0, 0, 0}, q[] = {0.04, 0.01, 25};
    static const double y[] = {NAN, NAN, 212, NAN, NAN, NAN, 236.5, 236.5, NAN, 251, NAN, NAN, NAN, NAN, 288.5, 288.5, NAN, NAN, 313, NAN};
    static double ts[90];
    static struct call k;
    size_t i;
    figure = "the level in stretches";
    plain(&k);
    k.n = 3;
    exact(&k);
    k.y[0] = 2;
    k.y[1] = NAN;
    k.y[2] = 6;
    cut_everywhere(&k);
    figure = "the crystal in stretches";
    memset(&k, 0, sizeof k);
    k.p = 2;
    k.m = k.r = 3;
    k.n = 10;
    exact(&k);
    fill(k.zs, z, 12);
    listed(&k, 2);
    k.repeats = 1;
    fill(k.t, t, 9);
    for (i = 0; i < 3; i++) {
        k.rr[i * 4] = 1;
        k.q[i * 4] = q[i];
    }
    k.p_star[8] = 25;
    k.flags[0] = k.flags[1] = 1;
    fill(k.y, y, 20);
    cut_everywhere(&k);
    write_out(&k);
    k.repeats = 0;
    cut_everywhere(&k);
    figure = "the crystal in stretches, with listed transitions";
    for (i = 0; i < 10; i++) {
        fill(ts + i * 9, t, 9);
        ts[i * 9 + 1] = 1 + (double)i / 8;
    }
    transitions(&k, ts, 10);
    cut_everywhere(&k);
    figure = "a level that runs off, in stretches";
    growing(&k, ldexp(1, 256), 6);
    cut_everywhere(&k);
    k.flags[0] = 1;
    k.a1[0] = k.p_star[0] = 0;
    cut_everywhere(&k);
}

/* The places of a saved run of one state. */
enum { AT_P = 4, AT_M = 12, AT_R = 20, AT_DONE = 28, AT_MEAN = 40, AT_COV = 52, AT_INF = 64, AT_ROOT = 76, AT_UNRESOLVED = 88, AT_LOGLIK = 100,
       AT_DIFFUSE = 112, AT_HEARD = 120, AT_NEWS = 128, AT_STATE = 136, AT_COV_OFF = 144, AT_MEAN_OFF = 152, ONE_STATE = 160 };
static const size_t at_counts[] = {0, 36, 48, 60, 72, 84, 96, 108};
static const size_t at_floats[] = {AT_MEAN, AT_COV, AT_INF, AT_ROOT, AT_UNRESOLVED, AT_LOGLIK};

static void put(uint8_t *to, uint64_t number)
{
    int i;
    for (i = 7; i >= 0; i--, number >>= 8) to[i] = (uint8_t)(number & 255);
}

/* Figure B's level after its first period, by document 02's rules. Mean and covariance are A's next predicted ones. The period's reading has taken
 * the diffuse part and its root to 0; the matrix with nothing resolved is still 1. The next period's test is to come, so the diffuse state is 1. */
static void level_after_one(uint8_t *to)
{
    static const uint8_t widths[] = {4, 1, 1, 1, 1, 1, 1, 6};
    size_t i;
    memset(to, 0, ONE_STATE);
    for (i = 0; i < 8; i++) to[at_counts[i] + 3] = widths[i];
    put(to + AT_P, 1);
    put(to + AT_M, 1);
    put(to + AT_R, 1);
    put(to + AT_DONE, 1);
    put(to + AT_MEAN, bits_of(2));
    put(to + AT_COV, bits_of(3));
    put(to + AT_UNRESOLVED, bits_of(1));
    put(to + AT_LOGLIK, bits_of(-(0.5 * ln_2pi())));
    put(to + AT_DIFFUSE, 1);
    put(to + AT_HEARD, 1);
    put(to + AT_NEWS, 1);
    put(to + AT_STATE, 1);
}

static void the_bytes(void)
{
    static struct call k;
    static uint8_t want[ONE_STATE];
    figure = "the bytes";
    level_after_one(want);
    one_reading(&k, 2);
    begins(&k);
    ends(STRETCH, &k, GOXUNDAR_ANSWERED);
    check(memcmp(save, want, ONE_STATE) == 0, "a period done");
    /* figure B from them, its second reading alone; and a period more, in which nothing is diffuse any longer */
    k.y[0] = 6;
    goes_on(&k, want);
    ends(STRETCH, &k, GOXUNDAR_ANSWERED);
    record(0, GOXUNDAR_USUAL, 4, 4, 0);
    same(filt_mean[0], 5, "filtered mean");
    same(filt_cov[0], 0.75, "filtered covariance");
    put(want + AT_DONE, 2);
    put(want + AT_MEAN, bits_of(5));
    put(want + AT_COV, bits_of(2.75));
    put(want + AT_LOGLIK, bits_of(-(0.5 * ln_2pi()) - 0.5 * ((ln_2pi() + ln(4)) + 4.0 * 4 / 4)));
    put(want + AT_HEARD, 2);
    put(want + AT_NEWS, 2);
    put(want + AT_STATE, 0);
    check(memcmp(save, want, ONE_STATE) == 0, "two periods done");
    whole();
}

/* No periods: the start is saved as it is; a saved run is saved again byte by byte; the last one answers with what was carried. */
static void empty_stretches(void)
{
    static struct call k;
    static uint8_t want[ONE_STATE];
    figure = "a stretch of 0 periods";
    plain(&k);
    k.n = 0;
    exact(&k);
    begins(&k);
    ends(STRETCH, &k, GOXUNDAR_ANSWERED);
    level_after_one(want);
    put(want + AT_DONE, 0);
    put(want + AT_MEAN, 0);
    put(want + AT_COV, 0);
    put(want + AT_INF, bits_of(1)); /* the start: flagged, so P-infinity and its root are 1 */
    put(want + AT_ROOT, bits_of(1));
    put(want + AT_LOGLIK, 0);
    put(want + AT_DIFFUSE, 0);
    put(want + AT_HEARD, 0);
    put(want + AT_NEWS, 0);
    check(memcmp(save, want, ONE_STATE) == 0, "the start");
    same(pred_mean[0], 0, "predicted mean");
    same(pred_cov[0], 0, "predicted covariance");
    same(pred_inf[0], 1, "predicted diffuse covariance");
    count(answer.heard, 0, "heard");

    level_after_one(want);
    put(want + AT_INF, bits_of(-0.0)); /* what no run leaves is carried as it is too */
    put(want + AT_ROOT, bits_of(-INFINITY));
    put(want + AT_LOGLIK, 0x7FF8000000000000u);
    goes_on(&k, want);
    ends(STRETCH, &k, GOXUNDAR_ANSWERED);
    check(memcmp(save, want, ONE_STATE) == 0, "loading then saving gives the same bytes");

    level_after_one(want);
    put(want + AT_INF, bits_of(1)); /* beside a diffuse state that is over: carried, and set to 0 by the next period */
    put(want + AT_STATE, 0);
    goes_on(&k, want);
    ends(STRETCH, &k, GOXUNDAR_ANSWERED);
    check(memcmp(save, want, ONE_STATE) == 0, "the diffuse state is carried as it is");
    one_reading(&k, 6);
    ends(STRETCH, &k, GOXUNDAR_ANSWERED);
    same(pred_inf[0], 0, "diffuse covariance of this period");
    record(0, GOXUNDAR_USUAL, 4, 4, 0);
    count(answer.d_diffuse, 1, "d_diffuse");
    plain(&k);
    k.n = 0;
    exact(&k);

    level_after_one(want);
    goes_on(&k, want);
    stretch.last = 1;
    ends(STRETCH, &k, GOXUNDAR_ANSWERED);
    same(pred_mean[0], 2, "predicted mean");
    same(pred_cov[0], 3, "predicted covariance");
    same(answer.loglik, -(0.5 * ln_2pi()), "log-likelihood");
    count(answer.d_diffuse, 1, "d_diffuse");
    count(answer.heard, 1, "heard");
    count(answer.news, 1, "news");

    /* all of a run, with no period: the filter refuses that with 1 */
    whole();
    ends(STRETCH, &k, GOXUNDAR_ANSWERED);
    same(pred_inf[0], 1, "predicted diffuse covariance");
    ends(FILTER, &k, GOXUNDAR_DIMENSION);
}

/* The reports count from the run's first period, and what was told stays. The level of 'numbers that ran off' again, in stretches of two periods. */
static void told_and_carried(void)
{
    static const size_t cov[] = {0, 3, 3}, mean[] = {0, 0, 5};
    static struct call k;
    static uint8_t saved[ONE_STATE];
    size_t i;
    figure = "reports in stretches";
    growing(&k, ldexp(1, 256), 2);
    for (i = 0; i < 3; i++) {
        if (i == 0)
            begins(&k);
        else
            goes_on(&k, saved);
        ends(STRETCH, &k, GOXUNDAR_ANSWERED);
        off_is(cov[i], mean[i]);
        check(number_in(save + AT_COV_OFF) == cov[i] && number_in(save + AT_MEAN_OFF) == mean[i], "the reports saved");
        memcpy(saved, save, ONE_STATE);
    }
    k.n = 0; /* nothing more, and then the end */
    exact(&k);
    goes_on(&k, saved);
    ends(STRETCH, &k, GOXUNDAR_ANSWERED);
    off_is(3, 5);
    check(memcmp(save, saved, ONE_STATE) == 0, "loading then saving gives the same bytes");
    stretch.last = 1;
    ends(STRETCH, &k, GOXUNDAR_ANSWERED);
    off_is(3, 5);

    figure = "reports that were told before"; /* the numbers are finite: only the bytes know */
    one_reading(&k, 6);
    level_after_one(saved);
    put(saved + AT_COV_OFF, 1);
    goes_on(&k, saved);
    ends(STRETCH, &k, GOXUNDAR_ANSWERED);
    off_is(1, 0);
    level_after_one(saved);
    put(saved + AT_MEAN_OFF, 1);
    ends(STRETCH, &k, GOXUNDAR_ANSWERED);
    off_is(0, 1);

    figure = "a saved number that is not finite"; /* it is the next period's, which is period 1 */
    one_reading(&k, NAN);
    level_after_one(saved);
    put(saved + AT_MEAN, bits_of(-INFINITY));
    goes_on(&k, saved);
    ends(STRETCH, &k, GOXUNDAR_ANSWERED);
    off_is(0, 2);
    level_after_one(saved);
    put(saved + AT_COV, 0x7FF8000000000000u);
    ends(STRETCH, &k, GOXUNDAR_ANSWERED);
    off_is(2, 0);
    whole();
}

/* What the library saved before it had the reports: four tallies, 16 bytes less. It is refused, also where the count was mended. */
static void saved_before(void)
{
    static struct call k;
    static uint8_t saved[ONE_STATE];
    figure = "bytes of interface 1";
    one_reading(&k, 6);
    level_after_one(saved);
    saved[at_counts[7] + 3] = 4;
    goes_on(&k, saved);
    stretch.saved_len = ONE_STATE - 16;
    ends(STRETCH, &k, GOXUNDAR_BAD_SAVED);
    saved[at_counts[7] + 3] = 6;
    ends(STRETCH, &k, GOXUNDAR_BAD_SAVED);
    stretch.saved_len = ONE_STATE;
    ends(STRETCH, &k, GOXUNDAR_ANSWERED);
    whole();
}

/* Figure F, cut after its first period. Place 1 holds 2^-18, whose square is below 1e-10: the next stretch tests it, and its place 0 is 0. */
static void untested_place(void)
{
    static struct call k, some;
    static uint8_t saved[ONE_STATE];
    figure = "F in stretches";
    two_readings(&k, NAN, 2);
    k.h[0] = 2;
    k.t[0] = ldexp(1, -9);
    cut(&some, &k, 0, 1);
    begins(&some);
    ends(STRETCH, &some, GOXUNDAR_ANSWERED);
    same(pred_inf[1], ldexp(1, -18), "diffuse covariance of the next period, not tested");
    memcpy(saved, save, ONE_STATE);
    cut(&some, &k, 1, 2);
    goes_on(&some, saved);
    ends(STRETCH, &some, GOXUNDAR_ANSWERED);
    same(pred_inf[0], 0, "diffuse covariance of this period");
    count(answer.d_diffuse, 1, "d_diffuse");
    same(filt_mean[0], 1, "second filtered mean");
    same(filt_cov[0], 1, "second filtered covariance");
    check(save[AT_STATE + 7] == 0, "the diffuse state that is saved");
    whole();
}

/* The list of designs counts from the run's first period: the second stretch takes the second design, 0, as in the uncut run. A third one has one
 * period too, and the list no design for it. The marker is not saved. */
static void listed_from_the_first(void)
{
    static struct call k;
    static uint8_t saved[ONE_STATE];
    figure = "listed designs in stretches";
    one_reading(&k, 2);
    k.zs[0] = 1;
    k.zs[1] = 0;
    listed(&k, 2);
    k.repeats = 1;
    begins(&k);
    ends(STRETCH, &k, GOXUNDAR_ANSWERED);
    memcpy(saved, save, ONE_STATE);
    k.repeats = 0;
    ends(STRETCH, &k, GOXUNDAR_ANSWERED);
    check(memcmp(save, saved, ONE_STATE) == 0, "the bytes of a marked stretch");
    k.y[0] = 6;
    goes_on(&k, saved);
    ends(STRETCH, &k, GOXUNDAR_ANSWERED);
    record(0, GOXUNDAR_USUAL, 6, 1, 0);
    memcpy(saved, save, ONE_STATE);
    k.n = k.len[Y] = 0; /* no period more: the list reaches the two that are done */
    ends(STRETCH, &k, GOXUNDAR_ANSWERED);
    k.n = k.len[Y] = 1;
    ends(STRETCH, &k, GOXUNDAR_LIST_SHORT);
    k.repeats = 1;
    ends(STRETCH, &k, GOXUNDAR_ANSWERED);
    record(0, GOXUNDAR_USUAL, 6, 1, 0); /* the second design again */
    memcpy(saved, save, ONE_STATE);
    k.n = k.len[Y] = 0; /* no period more, but three are done */
    ends(STRETCH, &k, GOXUNDAR_ANSWERED);
    check(memcmp(save, saved, ONE_STATE) == 0, "loading then saving gives the same bytes");
    k.repeats = 0;
    ends(STRETCH, &k, GOXUNDAR_LIST_SHORT);
    whole();
}

/* So does the list of transitions: the change of season, in stretches of a period. A third one has a transition of its own, and no marker stands for
 * it. Refusal 10 looks at the list's first matrix, which may be long done. */
static void season_from_the_first(void)
{
    static const double ts[] = {2, 1, 7};
    static struct call k;
    static uint8_t saved[GOXUNDAR_SAVED_LEN(2)];
    figure = "a change of season in stretches";
    one_reading(&k, 2);
    k.h[0] = 6;
    transitions(&k, ts, 2);
    begins(&k);
    ends(STRETCH, &k, GOXUNDAR_ANSWERED);
    same(pred_mean[1], 4, "predicted mean, place 1");
    same(pred_cov[1], 26, "predicted covariance, place 1");
    memcpy(saved, save, ONE_STATE);
    k.y[0] = 36;
    goes_on(&k, saved);
    ends(STRETCH, &k, GOXUNDAR_ANSWERED);
    same(filt_mean[0], 30, "second filtered mean");
    same(filt_cov[0], 4.875, "second filtered covariance");
    same(pred_mean[1], 30, "predicted mean, place 2");
    same(pred_cov[1], 6.875, "predicted covariance, place 2");
    memcpy(saved, save, ONE_STATE);
    k.n = k.len[Y] = 0; /* no period more: the list reaches the two that are done */
    ends(STRETCH, &k, GOXUNDAR_ANSWERED);
    check(memcmp(save, saved, ONE_STATE) == 0, "loading then saving gives the same bytes");
    k.n = k.len[Y] = 1;
    k.y[0] = NAN;
    for (k.repeats = 0; k.repeats < 2; k.repeats++) ends(STRETCH, &k, GOXUNDAR_LENGTH);
    transitions(&k, ts, 3);
    ends(STRETCH, &k, GOXUNDAR_ANSWERED);
    same(pred_mean[1], 7 * 30, "predicted mean, place 3");
    memcpy(saved, save, ONE_STATE);
    k.n = k.len[Y] = 0; /* no period more, but three are done */
    ends(STRETCH, &k, GOXUNDAR_ANSWERED);
    transitions(&k, ts, 2);
    ends(STRETCH, &k, GOXUNDAR_LENGTH);

    figure = "a later transition that leads from a flagged state, in stretches";
    led_later(&k, stay_then_lead);
    k.n = k.len[Y] = 1;
    begins(&k);
    ends(STRETCH, &k, GOXUNDAR_ANSWERED);
    memcpy(saved, save, sizeof saved);
    goes_on(&k, saved);
    ends(STRETCH, &k, GOXUNDAR_ANSWERED);
    same(pred_inf[7], 1, "diffuse covariance of the unflagged state, place 2");
    transitions(&k, stay_then_lead + 4, 2); /* this stretch would take the second, which stays */
    ends(STRETCH, &k, GOXUNDAR_MIXED_DRIVEN);
    whole();
}

static void room_to_save(void)
{
    static struct call k;
    size_t lent;
    figure = "room to save";
    for (lent = 0; lent < ONE_STATE; lent++) {
        one_reading(&k, 2);
        begins(&k);
        stretch.save_lent = lent;
        ends(STRETCH, &k, GOXUNDAR_LENGTH);
    }
    stretch.save_lent = ONE_STATE;
    ends(STRETCH, &k, GOXUNDAR_ANSWERED);
    for (lent = 0; lent <= ONE_STATE; lent += ONE_STATE / 4) { /* the last one needs none, and writes none */
        whole();
        stretch.save_lent = lent;
        ends(STRETCH, &k, GOXUNDAR_ANSWERED);
    }
    whole();
}

/* Any byte but 0 is yes. A run that begins is given no bytes, whatever they are. */
static void markers(void)
{
    static const uint8_t yes[] = {1, 2, 0x80, 255};
    static struct call k;
    static uint8_t saved[ONE_STATE];
    size_t i;
    figure = "the markers";
    level_after_one(saved);
    for (i = 0; i < sizeof yes; i++) {
        one_reading(&k, 2);
        begins(&k);
        stretch.begins = yes[i];
        ends(STRETCH, &k, GOXUNDAR_ANSWERED);
        check(memcmp(save, saved, ONE_STATE) == 0, "it begins");
        stretch.last = yes[i];
        ends(STRETCH, &k, GOXUNDAR_ANSWERED); /* saves nothing */
        stretch.saved = saved;
        stretch.saved_len = ONE_STATE;
        ends(STRETCH, &k, GOXUNDAR_BAD_SAVED);
        stretch.saved_len = 1;
        ends(STRETCH, &k, GOXUNDAR_BAD_SAVED);
    }
    whole();
}

/* A run that goes on does not use the start, and refuses a bad one all the same. */
static void start_not_used(void)
{
    static struct call k;
    static uint8_t saved[ONE_STATE];
    figure = "the start of a run that goes on";
    level_after_one(saved);
    one_reading(&k, 6);
    goes_on(&k, saved);
    k.flags[0] = 0;
    k.a1[0] = 100;
    k.p_star[0] = 50;
    ends(STRETCH, &k, GOXUNDAR_ANSWERED);
    same(pred_mean[0], 2, "predicted mean");
    same(pred_cov[0], 3, "predicted covariance");
    same(filt_mean[0], 5, "filtered mean");
    k.flags[0] = 1;
    ends(STRETCH, &k, GOXUNDAR_START_SHAPE);
    k.a1[0] = INFINITY;
    ends(STRETCH, &k, GOXUNDAR_NON_FINITE_START);
    whole();
}

static void number_at(const struct call *k, uint8_t *saved, size_t at, uint64_t number, uint32_t want)
{
    uint8_t before[8];
    memcpy(before, saved + at, 8);
    put(saved + at, number);
    ends(STRETCH, k, want);
    memcpy(saved + at, before, 8);
}

/* Refusal 15, cause by cause, on two inputs and one state with five periods done: at each bound, beyond it, and in the highest byte. */
static void bad_saved(void)
{
    static struct call k;
    static uint8_t saved[ONE_STATE + 1];
    const uint64_t high = (uint64_t)1 << 56;
    size_t i;
    two_inputs(&k, 2, 7);
    level_after_one(saved);
    put(saved + AT_P, 2);
    put(saved + AT_DONE, 5);
    goes_on(&k, saved);
    figure = "a saved run that is good";
    ends(STRETCH, &k, GOXUNDAR_ANSWERED);

    figure = "a saved run's length";
    for (i = 0; i <= ONE_STATE + 1; i++) {
        stretch.saved_len = i;
        ends(STRETCH, &k, i == ONE_STATE ? GOXUNDAR_ANSWERED : GOXUNDAR_BAD_SAVED);
    }
    goes_on(&k, saved);

    figure = "a section's count";
    for (i = 0; i < 8; i++) {
        size_t at;
        for (at = at_counts[i]; at < at_counts[i] + 4; at++) {
            saved[at]++;
            ends(STRETCH, &k, GOXUNDAR_BAD_SAVED);
            saved[at]--;
        }
    }

    figure = "a saved run's sizes";
    for (i = 0; i < 3; i++) {
        static const size_t at[] = {AT_P, AT_M, AT_R};
        uint64_t right = i == 0 ? 2 : 1;
        number_at(&k, saved, at[i], right - 1, GOXUNDAR_BAD_SAVED);
        number_at(&k, saved, at[i], right + 1, GOXUNDAR_BAD_SAVED);
        number_at(&k, saved, at[i], right + high, GOXUNDAR_BAD_SAVED);
    }

    figure = "periods done and to do";
    number_at(&k, saved, AT_DONE, 4095, GOXUNDAR_ANSWERED);
    number_at(&k, saved, AT_DONE, 4096, GOXUNDAR_BAD_SAVED);
    number_at(&k, saved, AT_DONE, (uint64_t)-1, GOXUNDAR_BAD_SAVED);
    number_at(&k, saved, AT_DONE, 5 + high, GOXUNDAR_BAD_SAVED);
    k.n = 0;
    exact(&k);
    number_at(&k, saved, AT_DONE, 4096, GOXUNDAR_ANSWERED);
    number_at(&k, saved, AT_DONE, 4097, GOXUNDAR_BAD_SAVED);
    k.n = 1;
    exact(&k);

    figure = "a tally out of range";
    number_at(&k, saved, AT_DIFFUSE, 5, GOXUNDAR_ANSWERED);
    number_at(&k, saved, AT_DIFFUSE, 6, GOXUNDAR_BAD_SAVED);
    number_at(&k, saved, AT_DIFFUSE, high, GOXUNDAR_BAD_SAVED);
    number_at(&k, saved, AT_HEARD, 10, GOXUNDAR_ANSWERED);
    number_at(&k, saved, AT_HEARD, 11, GOXUNDAR_BAD_SAVED);
    number_at(&k, saved, AT_HEARD, high, GOXUNDAR_BAD_SAVED);
    number_at(&k, saved, AT_HEARD, 0, GOXUNDAR_BAD_SAVED); /* below its news, 1 */
    number_at(&k, saved, AT_NEWS, 0, GOXUNDAR_ANSWERED);
    number_at(&k, saved, AT_NEWS, 2, GOXUNDAR_BAD_SAVED);
    number_at(&k, saved, AT_NEWS, high, GOXUNDAR_BAD_SAVED);
    number_at(&k, saved, AT_STATE, 0, GOXUNDAR_ANSWERED);
    number_at(&k, saved, AT_STATE, 2, GOXUNDAR_BAD_SAVED);
    number_at(&k, saved, AT_STATE, 1 + high, GOXUNDAR_BAD_SAVED);
    number_at(&k, saved, AT_COV_OFF, 5, GOXUNDAR_ANSWERED);
    number_at(&k, saved, AT_COV_OFF, 6, GOXUNDAR_BAD_SAVED);
    number_at(&k, saved, AT_COV_OFF, high, GOXUNDAR_BAD_SAVED);
    number_at(&k, saved, AT_MEAN_OFF, 5, GOXUNDAR_ANSWERED);
    number_at(&k, saved, AT_MEAN_OFF, 6, GOXUNDAR_BAD_SAVED);
    number_at(&k, saved, AT_MEAN_OFF, high, GOXUNDAR_BAD_SAVED);

    figure = "a saved double";
    for (i = 0; i < 6; i++) {
        number_at(&k, saved, at_floats[i], 0x7FF8000000000000u, GOXUNDAR_ANSWERED);
        number_at(&k, saved, at_floats[i], 0x7FF0000000000000u, GOXUNDAR_ANSWERED); /* the infinities */
        number_at(&k, saved, at_floats[i], 0xFFF0000000000000u, GOXUNDAR_ANSWERED);
        number_at(&k, saved, at_floats[i], 0x8000000000000000u, GOXUNDAR_ANSWERED);
        number_at(&k, saved, at_floats[i], 0xFFF8000000000000u, GOXUNDAR_BAD_SAVED);
        number_at(&k, saved, at_floats[i], 0x7FF8000000000001u, GOXUNDAR_BAD_SAVED);
        number_at(&k, saved, at_floats[i], 0x7FF0000000000001u, GOXUNDAR_BAD_SAVED);
        number_at(&k, saved, at_floats[i], (uint64_t)-1, GOXUNDAR_BAD_SAVED);
    }
    whole();
}

/* Refusal 12 is judged in the last stretch, over what was carried, and blanks what that one lent. Figure I's reading is heard, and no news. */
static void judged_last(void)
{
    static struct call k;
    static uint8_t saved[ONE_STATE];
    int i;
    size_t j;
    figure = "I in stretches";
    one_reading(&k, 1);
    k.flags[0] = 0;
    k.h[0] = 0;
    begins(&k);
    ends(STRETCH, &k, GOXUNDAR_ANSWERED); /* not the last */
    count(answer.heard, 1, "heard");
    count(answer.news, 0, "news");
    memcpy(saved, save, ONE_STATE);
    k.y[0] = NAN;
    goes_on(&k, saved);
    ends(STRETCH, &k, GOXUNDAR_ANSWERED);
    for (k.n = 0; k.n < 2; k.n++) { /* a gap more, and nothing more */
        exact(&k);
        goes_on(&k, saved);
        stretch.last = 1;
        ends(STRETCH, &k, GOXUNDAR_NO_INFORMATION);
        for (i = 0; i < SM_MEAN; i++)
            for (j = 0; j < part[i].needed * part[i].size; j++) check(((unsigned char *)part[i].at)[j] == 0, part[i].name);
    }
    k.n = 1;
    exact(&k);
    k.y[0] = 5; /* the level has moved by Q since, so this one is news */
    goes_on(&k, saved);
    stretch.last = 1;
    ends(STRETCH, &k, GOXUNDAR_ANSWERED);
    count(answer.heard, 2, "heard");
    count(answer.news, 1, "news");
    /* a stretch without news of its own is answered where an earlier one had some; nothing moves, so the second reading is none */
    figure = "no news in the last stretch";
    one_reading(&k, 1);
    k.h[0] = k.q[0] = 0;
    begins(&k);
    ends(STRETCH, &k, GOXUNDAR_ANSWERED);
    memcpy(saved, save, ONE_STATE);
    goes_on(&k, saved);
    stretch.last = 1;
    ends(STRETCH, &k, GOXUNDAR_ANSWERED);
    record(0, GOXUNDAR_TOO_SMALL, 0, 0, 0);
    count(answer.heard, 2, "heard");
    count(answer.news, 1, "news");
    whole();
}

/* 15 stands after 11; then come 2 of a list of transitions that is too short, 14 and 12. A save that is too short is 2 at its ordinary place. One
 * call breaks all of these, and they are mended one by one. */
static void late_order(void)
{
    static const double ts[] = {1, 1};
    static struct call k;
    static uint8_t saved[ONE_STATE];
    figure = "the order of the late refusals";
    one_reading(&k, 1);
    k.flags[0] = 0;
    k.h[0] = 0;
    k.zs[0] = 1;
    listed(&k, 1);
    transitions(&k, ts, 1);
    begins(&k);
    ends(STRETCH, &k, GOXUNDAR_ANSWERED);
    memcpy(saved, save, ONE_STATE);
    k.n = 4097;      /* 1 */
    k.rr[0] = 1e200; /* 11: its square overflows */
    k.y[0] = NAN;
    goes_on(&k, saved);                /* 2 and 14: for the run's second period there is no transition, and no design */
    saved[0] = 1;                      /* 15 */
    stretch.save_lent = ONE_STATE - 1; /* 2 */
    ends(STRETCH, &k, GOXUNDAR_DIMENSION);
    k.n = 1;
    ends(STRETCH, &k, GOXUNDAR_LENGTH);
    stretch.last = 1; /* it needs none */
    ends(STRETCH, &k, GOXUNDAR_NON_FINITE_NOISE);
    k.rr[0] = 1;
    ends(STRETCH, &k, GOXUNDAR_BAD_SAVED);
    saved[0] = 0;
    reaches(STRETCH, &k);
    ends(STRETCH, &k, GOXUNDAR_NO_INFORMATION);
    stretch.last = 0;
    stretch.save_lent = ONE_STATE;
    ends(STRETCH, &k, GOXUNDAR_ANSWERED);
    whole();
}

/* A null for saved and for save, where their counts are 0: figure A begins and ends a run; a run that goes on from nothing is refused. */
static void null_saved(void)
{
    static const double one = 1, zero = 0, two = 2;
    static const uint8_t flag = 1;
    int goes;
    figure = "null for saved and save";
    for (goes = 0; goes < 2; goes++) {
        uint32_t refusal;
        mark_all();
        refusal = goxundar_stretch(
            1, 1, 1, 1, &one, 1, NULL, 0, 0, &one, 1, &one, 1, NULL, 0, &one, 1, &two, 1, &zero, 1, &zero, 1, &zero, 1, &zero, 1, &flag, 1, &two, 1,
            (uint8_t)!goes, NULL, 0, 1,
            pred_mean, 2, pred_cov, 2, pred_inf, 2, filt_mean, 1, filt_cov, 1, kinds, 1, v, 1, f_star, 1, f_inf, 1, m_star, 1, m_inf, 1,
            NULL, 0, &answer.loglik, &answer.d_diffuse, &answer.heard, &answer.news, &answer.cov_off, &answer.mean_off);
        count(refusal, goes ? GOXUNDAR_BAD_SAVED : GOXUNDAR_ANSWERED, "the refusal");
        if (!goes) record(0, GOXUNDAR_DIFFUSE, 2, 1, 1);
    }
}

int main(void)
{
    int which;
    numbers();
    symbols();
    whole();
    for (which = 0; which < CALLS; which++) {
        a_and_k(which);
        b_and_c(which);
        d_to_g(which);
        h_to_l(which);
        dust(which);
        sizes(which);
        places(which);
        order(which, 0);
        order(which, 1);
        dimensions(which);
        lengths(which);
        designs(which);
        short_lists(which);
        season(which);
        three_steps(which);
        transition_lengths(which);
        short_transitions(which);
        mixed_later(which);
        nulls(which);
        causes(which);
        six_kinds(which);
        no_cause_on_12(which);
        ran_off(which);
        left_out(which);
    }
    cuts();
    the_bytes();
    empty_stretches();
    told_and_carried();
    saved_before();
    untested_place();
    listed_from_the_first();
    season_from_the_first();
    room_to_save();
    markers();
    start_not_used();
    bad_saved();
    judged_last();
    late_order();
    null_saved();
    printf("%lu checks, %lu failed\n", checks, failed);
    return failed == 0 ? 0 : 1;
}
